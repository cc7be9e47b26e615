"""Random formulas for the solver, and the test of what it says of them.

    random.py make COUNT SEED    writes COUNT formulas to standard output
    random.py test COUNT SEED FILE    reads the answers in FILE, and compares each with brute force

A formula has 3 to 12 variables and clauses of 0 to 6 literals, repeats and tautologies among them. Half of the
budgets are ample, the others small. Brute force keeps a number with a bit for each assignment."""
import random
import sys


def formulas(count, seed):
    draw = random.Random(seed)
    for _ in range(count):
        variables = draw.randint(3, 12)
        density = draw.choice((3, 5, 7, 9))
        clauses = []
        for _ in range(draw.randint(1, variables * density)):
            size = draw.choice((1, 2, 2, 3, 3, 3, 3, 4, 5, 6)) if draw.random() > 0.005 else 0
            clauses.append([draw.choice((1, -1)) * draw.randint(1, variables) for _ in range(size)])
        lines = draw.choice((10_000, draw.randint(1, 3)))
        numbers = draw.choice((1_000_000, draw.randint(0, 30)))
        yield variables, lines, numbers, draw.randint(0, variables), clauses


def make(count, seed):
    for variables, lines, numbers, inputs, clauses in formulas(count, seed):
        print('formula', variables, lines, numbers, inputs)
        for clause in clauses:
            print(*clause, 0)
        print('end')


def columns(variables):
    size = 1 << variables
    return [sum(1 << at for at in range(size) if at >> k & 1) for k in range(variables)]


COLUMNS = {n: columns(n) for n in range(3, 13)}


def has_model(variables, clauses):
    everywhere = (1 << (1 << variables)) - 1
    left = everywhere
    for clause in clauses:
        here = 0
        for lit in clause:
            column = COLUMNS[variables][abs(lit) - 1]
            here |= column if lit > 0 else everywhere ^ column
        left &= here
    return left != 0


def fault(formula, answer):
    variables, lines, numbers, _, clauses = formula
    kind, *rest = answer.split()
    if kind == 'values':
        bits = rest[0] if rest else ''
        true = lambda lit: (bits[abs(lit) - 1] == '1') == (lit > 0)
        if len(bits) != variables or not all(any(true(lit) for lit in clause) for clause in clauses):
            return 'the values are no model'
        return None
    count, spent, repeats, goes_on, accepted = int(rest[0]), int(rest[1]), rest[2], rest[3], rest[4]
    if repeats != 'false' or accepted != 'true':
        return 'the log is refused, or names a clause twice among its hints'
    if kind == 'refuted':
        if has_model(variables, clauses):
            return 'refuted, but it has a model'
        return None if count <= lines and spent <= numbers else 'past the budget'
    within = spent <= numbers and (int(rest[5]) > numbers if goes_on == 'true' else count == lines)
    return None if kind == 'spent' and within else 'not spent'


def test(count, seed, name):
    kinds, faults = {}, 0
    answers = open(name).read().splitlines()
    for at, (formula, answer) in enumerate(zip(formulas(count, seed), answers)):
        kinds[answer.split()[0]] = kinds.get(answer.split()[0], 0) + 1
        why = fault(formula, answer)
        if why:
            faults += 1
            print(f'formula {at}: {why}: {answer}')
    print(f'{len(answers)} answers of {count}, {faults} wrong:', *(f'{kinds[k]} {k}' for k in sorted(kinds)))
    return 0 if faults == 0 and len(answers) == count else 1


if __name__ == '__main__':
    if sys.argv[1] == 'make':
        make(int(sys.argv[2]), int(sys.argv[3]))
    else:
        sys.exit(test(int(sys.argv[2]), int(sys.argv[3]), sys.argv[4]))
