"""Writes the input of dump_main: the pairs of a folder, each with inputs that are drawn anew from a fixed seed.

pairs.py FOLDER count|dimacs INPUTS
"""
import random
import re
import sys
from pathlib import Path

EDGES = [0, 1, 2, 3, 4, 5, 7, 8, 12, 13, 31, 32, 33, 59, 100, 127, 128, 255, 256, 400, 1000, 1900, 2000, 2023, 2024,
         9999, 65535, 65536, 100000, 1114111, 2**31 - 1, -2**31, -1, -2, -7, -100]


def inputs(params, count, rng):
    seen = []
    for _ in range(20 * count):
        words = [rng.choice(EDGES) if rng.random() < 0.8 else rng.randrange(-50, 200) for _ in range(params)]
        if words not in seen:
            seen.append(words)
        if len(seen) == count:
            break
    return seen


def main():
    folder, word, count = Path(sys.argv[1]), sys.argv[2], int(sys.argv[3])
    parts = [word + "\n"]
    for pair in sorted(folder.iterdir()):
        before, after = (pair / "old.mc"), (pair / "new.mc")
        if not before.exists() or not after.exists():
            continue
        old = before.read_text()
        params = len(re.search(r"int\s+main\s*\(([^)]*)\)", old).group(1).split(","))
        rng = random.Random(pair.name)
        lines = "".join(" ".join(map(str, words)) + "\n" for words in inputs(params, count, rng))
        parts += [pair.name + "\n", old.rstrip("\n") + "\n", after.read_text().rstrip("\n") + "\n", lines]
    sys.stdout.write("====\n".join(parts))


main()
