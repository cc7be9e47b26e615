"""Random programs, their slices, and other inputs that meet the conditions.

    oracle.py PROGRAM COUNT SEED FOLDER

COUNT random programs of two parameters are written to FOLDER. Of each, PROGRAM `slice` is asked at an input; then other
inputs are tried, and on each that meets every condition PROGRAM `run` has to put out the values of the slice's terms
and to end in its way. The terms are read from their text and computed here. Where a text was cut nothing is tested."""
import os
import random
import subprocess
import sys

NAMES = ['a', 'b', 'u', 'v', 'w']
SMALL = [0, 1, 2, 3, 4, 5, 7, 8, 31, 32, 100]
EDGES = [0, 1, -1, 2, -2, 3, 5, 7, 8, 31, 32, 2147483647, -2147483648]
BINARY = ['+', '-', '*', '/', '%', '<<', '>>', '&', '|', '^', '<', '<=', '>', '>=', '==', '!=', '&&', '||']


# ---- programs

def expression(draw, depth):
    if depth == 0 or draw.random() < 0.3:
        return draw.choice(NAMES) if draw.random() < 0.7 else str(draw.choice(SMALL))
    kind = draw.random()
    if kind < 0.12:
        return draw.choice('-!~') + '(' + expression(draw, depth - 1) + ')'
    if kind < 0.2:
        return '(' + ' '.join((expression(draw, depth - 1), '?', expression(draw, depth - 1), ':', expression(draw, depth - 1))) + ')'
    return '(' + ' '.join((expression(draw, depth - 1), draw.choice(BINARY), expression(draw, depth - 1))) + ')'


def statement(draw, depth):
    kind = draw.random()
    if depth > 0 and kind < 0.35:
        other = ' else ' + block(draw, depth - 1) if draw.random() < 0.5 else ''
        return 'if (' + expression(draw, 2) + ') ' + block(draw, depth - 1) + other
    if depth > 0 and kind < 0.42:
        return 'while (w < ' + str(draw.choice((2, 3, 40))) + ') { w = w + 1; ' + statement(draw, depth - 1) + ' }'
    if kind < 0.5:
        return 'out(' + expression(draw, 2) + ');'
    if kind < 0.55:
        return 'assert(' + expression(draw, 2) + ');'
    if kind < 0.6:
        return 'return ' + expression(draw, 1) + ';'
    return draw.choice(NAMES[:4]) + ' = ' + expression(draw, 2) + ';'


def block(draw, depth):
    return '{ ' + ' '.join(statement(draw, depth) for _ in range(draw.randint(1, 3))) + ' }'


def program(draw):
    return 'int main(int a, int b) { int u = 0; int v = b; int w = 0; ' + ' '.join(
        statement(draw, 3) for _ in range(draw.randint(2, 6))) + ' }'


# ---- terms, read from their text

def wrap(n):
    return (n + 2 ** 31) % 2 ** 32 - 2 ** 31


def quotient(x, y):
    return wrap(abs(x) // abs(y) * (1 if (x < 0) == (y < 0) else -1)) if y else 0


VALUE = {
    '+': lambda x, y: wrap(x + y), '-': lambda x, y: wrap(x - y), '*': lambda x, y: wrap(x * y),
    '/': quotient, '%': lambda x, y: wrap(x - quotient(x, y) * y) if y else 0,
    '<<': lambda x, y: wrap(x << (y & 31)), '>>': lambda x, y: x >> (y & 31),
    '&': lambda x, y: x & y, '|': lambda x, y: x | y, '^': lambda x, y: x ^ y,
    '<': lambda x, y: int(x < y), '<=': lambda x, y: int(x <= y), '==': lambda x, y: int(x == y), '!=': lambda x, y: int(x != y),
}


def read_operand(text, at):
    if text[at] == '(':
        term, at = read_term(text, at + 1)
        return term, at + 1
    end = at + 1
    while end < len(text) and text[end] not in ' )':
        end += 1
    word = text[at:end]
    return (('param', 'ab'.index(word)) if word in ('a', 'b') else ('number', int(word))), end


def read_term(text, at=0):
    first, at = read_operand(text, at)
    if at >= len(text) or text[at] == ')':
        return first, at
    end = text.index(' ', at + 1)
    sign = text[at + 1:end]
    second, at = read_operand(text, end + 1)
    if sign != '?':
        return (sign, first, second), at
    third, at = read_operand(text, at + 3)
    return ('?', first, second, third), at


def value(term, x):
    if term[0] == 'param':
        return x[term[1]]
    if term[0] == 'number':
        return term[1]
    if term[0] == '?':
        return value(term[2] if value(term[1], x) else term[3], x)
    return VALUE[term[0]](value(term[1], x), value(term[2], x))


# ---- the test

def ask(command, name, x):
    done = subprocess.run([sys.argv[1], command, name, *map(str, x)], capture_output=True, text=True)
    return done.returncode, done.stdout.splitlines()


def slice_of(lines):
    """The literals, and the lines of what is put out with their terms."""
    count = int(lines[0].split()[1])
    literals = [read_term(line)[0] for line in lines[1:1 + count]]
    shown = []
    for line in lines[1 + count:-1]:
        word, _, text = line.partition(' ')
        shown.append((word, read_term(text)[0] if text else None))
    return literals, shown


def others(draw, x, count):
    for _ in range(count):
        yield tuple(w if draw.random() < 0.3 else
                    draw.choice(EDGES) if draw.random() < 0.5 else
                    wrap(w + draw.randint(-9, 9)) if draw.random() < 0.7 else
                    draw.randint(-2 ** 31, 2 ** 31 - 1) for w in x)


def main():
    count, draw, folder = int(sys.argv[2]), random.Random(int(sys.argv[3])), sys.argv[4]
    counts = {'slices': 0, 'with conditions': 0, 'cut': 0, 'refused': 0, 'inputs': 0, 'wrong': 0}
    for at in range(count):
        name = os.path.join(folder, f'{at}.mc')
        with open(name, 'w') as file:
            file.write(program(draw))
        x = (draw.choice(EDGES), draw.choice(EDGES))
        status, lines = ask('slice', name, x)
        if status != 0:
            counts['refused'] += 1
            continue
        if any(line.endswith('..') for line in lines):
            counts['cut'] += 1
            continue
        counts['slices'] += 1
        literals, shown = slice_of(lines)
        counts['with conditions'] += bool(literals)
        met = [y for y in {x, *others(draw, x, 200)} if all(value(t, y) for t in literals)]
        if x not in met:
            counts['wrong'] += 1
            print(f'{name}: the conditions do not hold on {x} itself')
        for y in met[:12]:
            counts['inputs'] += 1
            wanted = [word if term is None else f'{word} {value(term, y)}' for word, term in shown]
            if ask('run', name, y) != (0, wanted):
                counts['wrong'] += 1
                print(f'{name}: the slice at {x} is wrong on {y}')
    print(', '.join(f'{n} {what}' for what, n in counts.items()))
    return 1 if counts['wrong'] or not counts['slices'] else 0


if __name__ == '__main__':
    sys.exit(main())
