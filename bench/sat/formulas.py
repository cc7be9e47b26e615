"""Writes formulas in DIMACS form into a folder: pigeonholes, random 3-SAT and equal circuits."""
import random
import sys
from pathlib import Path


def write(path, variables, clauses):
    with open(path, "w") as out:
        out.write(f"p cnf {variables} {len(clauses)}\n")
        for clause in clauses:
            out.write(" ".join(map(str, clause)) + " 0\n")


def pigeonholes(holes):
    at = lambda pigeon, hole: pigeon * holes + hole + 1
    clauses = [[at(p, h) for h in range(holes)] for p in range(holes + 1)]
    for hole in range(holes):
        for one in range(holes + 1):
            clauses += [[-at(one, hole), -at(other, hole)] for other in range(one)]
    return (holes + 1) * holes, clauses


def random_three(variables, seed):
    rng = random.Random(seed)
    clauses = []
    for _ in range(round(4.26 * variables)):
        chosen = rng.sample(range(1, variables + 1), 3)
        clauses.append([v if rng.random() < 0.5 else -v for v in chosen])
    return variables, clauses


class Circuit:
    """Gates as clauses, one variable a gate."""

    def __init__(self):
        self.variables = 0
        self.clauses = []

    def new(self):
        self.variables += 1
        return self.variables

    def both(self, a, b):
        c = self.new()
        self.clauses += [[-c, a], [-c, b], [c, -a, -b]]
        return c

    def either(self, a, b):
        return -self.both(-a, -b)

    def differ(self, a, b):
        c = self.new()
        self.clauses += [[-c, a, b], [-c, -a, -b], [c, -a, b], [c, a, -b]]
        return c

    def word(self, bits):
        return [self.new() for _ in range(bits)]

    def ripple(self, xs, ys):
        carry, out = None, []
        for x, y in zip(xs, ys):
            half = self.differ(x, y)
            if carry is None:
                out.append(half)
                carry = self.both(x, y)
            else:
                out.append(self.differ(half, carry))
                carry = self.either(self.both(x, y), self.both(half, carry))
        return out

    def majority_adder(self, xs, ys):
        carry, out = None, []
        for x, y in zip(xs, ys):
            if carry is None:
                out.append(self.differ(y, x))
                carry = self.both(y, x)
            else:
                out.append(self.differ(x, self.differ(y, carry)))
                carry = self.either(self.both(x, y), self.both(carry, self.either(x, y)))
        return out

    def product(self, xs, ys):
        bits = len(xs)
        total = [self.both(xs[0], y) for y in ys]
        for shift in range(1, bits):
            row = [self.both(xs[shift], y) for y in ys[: bits - shift]]
            total = total[:shift] + self.ripple(total[shift:], row)
        return total

    def assert_differ(self, xs, ys):
        self.clauses.append([self.differ(x, y) for x, y in zip(xs, ys)])


def adders(bits):
    c = Circuit()
    x, y = c.word(bits), c.word(bits)
    c.assert_differ(c.ripple(x, y), c.majority_adder(x, y))
    return c.variables, c.clauses


def multipliers(bits):
    c = Circuit()
    x, y = c.word(bits), c.word(bits)
    c.assert_differ(c.product(x, y), c.product(y, x))
    return c.variables, c.clauses


def main():
    folder = Path(sys.argv[1])
    folder.mkdir(parents=True, exist_ok=True)
    for holes in (7, 8):
        write(folder / f"pigeonholes_{holes}.cnf", *pigeonholes(holes))
    for variables in (150, 200):
        for seed in range(25):
            write(folder / f"random_{variables}_{seed:02}.cnf", *random_three(variables, seed))
    write(folder / "adders_32.cnf", *adders(32))
    for bits in (6, 7, 8):
        write(folder / f"multipliers_{bits}.cnf", *multipliers(bits))


main()
