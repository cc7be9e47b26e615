"""Writes each formula that dump_main printed under `dimacs` into a file of a folder.

split.py DUMPED FOLDER
"""
import sys
from pathlib import Path


def main():
    folder = Path(sys.argv[2])
    folder.mkdir(parents=True, exist_ok=True)
    out, pair, number = None, None, 0
    for line in open(sys.argv[1]):
        words = line.split()
        if words and words[0] in ("pair", "i", "c"):
            if out:
                out.close()
            out = None
            if words[0] == "pair":
                pair, number = words[1], 0
            elif words[0] == "c" and words[2] != "costs":
                number += 1
                out = open(folder / f"{pair}_{number:02}.cnf", "w")
                out.write(f"c inputs {32 * int(words[4])}\n")
        elif out:
            out.write(line)


main()
