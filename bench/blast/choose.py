"""Of what dump_main counted, writes its input for the formulas of at least 50 and at most MOST clauses: of each pair
those of the FEW inputs that give most clauses, each size once.

choose.py INPUT COUNTED MOST FEW
"""
import sys


def main():
    parts = open(sys.argv[1]).read().split("====\n")
    most, few = int(sys.argv[3]), int(sys.argv[4])
    found, pair, words = {}, None, None
    for line in open(sys.argv[2]):
        line = line.split()
        if line[0] == "pair":
            pair = line[1]
        elif line[0] == "i":
            words = " ".join(line[1:])
        elif line[:2] == ["c", "other"] and line[2] != "costs":
            size = int(line[3])
            if 50 <= size <= most:
                found.setdefault(pair, {}).setdefault(size, words)
    out = ["dimacs\n"]
    for k in range(1, len(parts), 4):
        sizes = found.get(parts[k].strip(), {})
        chosen = [sizes[size] for size in sorted(sizes, reverse=True)[:few]]
        out += [*parts[k : k + 3], "".join(words + "\n" for words in chosen)]
    sys.stdout.write("====\n".join(out))


main()
