"""A reader of Mc32 that shares no code with prv: an interpreter, and two versions as one SMT-LIB query.

    mc32.py run FILE N..           what the program shows on an input, as `prv run` prints it
    mc32.py pair OLD NEW           whether both make a pair, read by the rules of docs/LANGUAGE.md
    mc32.py smt OLD NEW            a query that is sat exactly where the versions differ on some input
    mc32.py generate NUMBER SIZE   writes the pair that `prv gen NUMBER SIZE` explores to old.mc and new.mc

Words are bit-vectors of 32 bits. Loops are unrolled, and paths are merged behind each branch. Inputs on which a run
wants more than 32 turns are left out of the query."""
import re
import sys

TURNS = 32
MAX = 2147483647
KEYS = {'int', 'main', 'if', 'else', 'while', 'return', 'out', 'assert'}
TOKEN = re.compile(
    r'[ \t\r\n]+|//[^\n]*|/\*(?:[^*]|\*(?!/))*\*/'
    r'|(?P<name>[A-Za-z_][A-Za-z_0-9]*)|(?P<number>[0-9]+)'
    r'|(?P<symbol><<|>>|<=|>=|==|!=|&&|\|\||[(){};,=@?:+\-*/%<>!&^|~])')
LEVELS = [['||'], ['&&'], ['|'], ['^'], ['&'], ['==', '!='], ['<', '<=', '>', '>='], ['<<', '>>'], ['+', '-'],
          ['*', '/', '%']]


class Refused(Exception):
    """A text that is no program, or two that make no pair."""


# ---- reading

def tokens_of(text):
    """The tokens of a text: names, numbers as int, symbols."""
    tokens, at = [], 0
    while at < len(text):
        found = TOKEN.match(text, at)
        if not found:
            raise Refused(f'no token at {at}')
        if found['number']:
            if len(found['number']) > 1 and found['number'][0] == '0':
                raise Refused(f'a number with a leading 0 at {at}')
            tokens.append(int(found['number']))
        elif found['name'] or found['symbol']:
            tokens.append(found['name'] or found['symbol'])
        at = found.end()
    return tokens


class Reader:
    """A recursive descent over tokens. `holes` are the ranges of marked statements that lie in no other."""

    def __init__(self, tokens, greatest=MAX):
        self.tokens = tokens
        self.at = 0
        self.greatest = greatest
        self.names = {}
        self.scopes = []
        self.holes = []
        self.depth = 0

    def peek(self):
        return self.tokens[self.at] if self.at < len(self.tokens) else None

    def take(self, wanted=None):
        token = self.peek()
        if token is None or wanted is not None and token != wanted:
            raise Refused(f'token {self.at} is {token!r}, wanted {wanted!r}')
        self.at += 1
        return token

    def meets(self, token):
        if isinstance(self.peek(), str) and self.peek() == token:
            self.at += 1
            return True
        return False

    def name(self):
        token = self.take()
        if not isinstance(token, str) or not re.fullmatch('[A-Za-z_].*', token) or token in KEYS or len(token) > 63:
            raise Refused(f'token {self.at - 1} is {token!r}, wanted a name')
        return token

    def declare(self, name):
        if name in self.names:
            raise Refused(f'{name} is declared twice')
        self.names[name] = len(self.names)
        self.scopes[-1].append(name)

    def use(self, name):
        if not any(name in scope for scope in self.scopes):
            raise Refused(f'{name} is not in scope')
        return name

    def program(self):
        self.take('int')
        self.take('main')
        self.take('(')
        self.scopes.append([])
        params = [self.param()]
        while self.meets(','):
            params.append(self.param())
        self.take(')')
        body = self.block()
        if self.peek() is not None:
            raise Refused(f'token {self.at} stands behind the program')
        if len(params) > 8 or len(self.names) > 64:
            raise Refused('too many names')
        return params, body

    def param(self):
        self.take('int')
        name = self.name()
        self.declare(name)
        return name

    def block(self):
        self.take('{')
        self.scopes.append([])
        items = []
        while not self.meets('}'):
            items.append(self.item())
        self.scopes.pop()
        return 'block', items

    def item(self):
        start = self.at
        if self.peek() == '@' and len(self.tokens) > start + 2 and self.tokens[start + 2] == 'int':
            mark = self.mark()
            return self.hole(start, mark, self.declaration)
        return self.declaration() if self.peek() == 'int' else self.statement()

    def mark(self):
        self.take('@')
        mark = self.take()
        if not isinstance(mark, int) or not 1 <= mark <= 255:
            raise Refused(f'{mark!r} is no mark')
        return mark

    def hole(self, start, mark, read):
        if self.depth:
            raise Refused(f'mark {mark} is inside a mark')
        if any(mark == other for _, _, other in self.holes):
            raise Refused(f'mark {mark} is used twice')
        self.depth += 1
        body = read()
        self.depth -= 1
        self.holes.append((start, self.at, mark))
        return body

    def declaration(self):
        self.take('int')
        name = self.name()
        value = self.expression() if self.meets('=') else ('number', 0)
        self.take(';')
        self.declare(name)
        return 'set', name, value

    def statement(self):
        start, token = self.at, self.peek()
        if token == '@':
            return self.hole(start, self.mark(), self.statement)
        if token == '{':
            return self.block()
        if token in ('if', 'while', 'return', 'out', 'assert'):
            self.take()
            return getattr(self, 'read_' + token)()
        if self.meets(';'):
            return 'block', []
        name = self.use(self.name())
        self.take('=')
        value = self.expression()
        self.take(';')
        return 'set', name, value

    def test(self):
        self.take('(')
        value = self.expression()
        self.take(')')
        return value

    def read_if(self):
        test = self.test()
        yes = self.statement()
        return 'if', test, yes, self.statement() if self.meets('else') else ('block', [])

    def read_while(self):
        test = self.test()
        return 'while', test, self.statement()

    def read_return(self):
        value = self.expression()
        self.take(';')
        return 'return', value

    def read_out(self):
        value = self.test()
        self.take(';')
        return 'out', value

    def read_assert(self):
        value = self.test()
        self.take(';')
        return 'assert', value

    def expression(self):
        test = self.level(0)
        if not self.meets('?'):
            return test
        yes = self.expression()
        self.take(':')
        return 'choice', test, yes, self.expression()

    def level(self, depth):
        if depth == len(LEVELS):
            return self.unary()
        value = self.level(depth + 1)
        while isinstance(self.peek(), str) and self.peek() in LEVELS[depth]:
            op = self.take()
            value = op, value, self.level(depth + 1)
        return value

    def unary(self):
        token = self.take()
        if isinstance(token, int):
            if token > self.greatest:
                raise Refused(f'{token} is no word')
            return 'number', token
        if token in ('-', '!', '~'):
            return 'unary', token, self.unary()
        if token == '(':
            value = self.expression()
            self.take(')')
            return value
        self.at -= 1
        return 'name', self.use(self.name())


def read_text(text):
    """A program, and its tokens with each marked statement as one hole."""
    tokens = tokens_of(text)
    reader = Reader(tokens)
    program = reader.program()
    skeleton, at = [], 0
    for start, end, mark in sorted(reader.holes):
        skeleton += tokens[at:start] + [('hole', mark)]
        at = end
    return program, skeleton + tokens[at:]


def read_file(name):
    with open(name, encoding='latin-1', newline='') as file:
        return read_text(file.read())


def read_pair(old, new):
    """The programs of two files that make a pair."""
    (before, old_skeleton), (after, new_skeleton) = read_file(old), read_file(new)
    if len(before[0]) != len(after[0]):
        raise Refused('the counts of parameters differ')
    if old_skeleton != new_skeleton:
        raise Refused('what is not marked differs')
    return before, after


# ---- running

def wrap(number):
    return (number + 2 ** 31) % 2 ** 32 - 2 ** 31


def divide(a, b):
    return wrap(abs(a) // abs(b) * (1 if (a < 0) == (b < 0) else -1)) if b else 0


def remainder(a, b):
    return wrap(a - divide(a, b) * b) if b else 0


# What an operator gives on words. A zero divisor gives 0 here: where it is a fault is said by who runs.
VALUES = {
    '+': lambda a, b: wrap(a + b), '-': lambda a, b: wrap(a - b), '*': lambda a, b: wrap(a * b),
    '/': divide, '%': remainder, '<<': lambda a, b: wrap(a << (b & 31)), '>>': lambda a, b: a >> (b & 31),
    '&': lambda a, b: a & b, '|': lambda a, b: a | b, '^': lambda a, b: a ^ b,
    '<': lambda a, b: int(a < b), '<=': lambda a, b: int(a <= b), '>': lambda a, b: int(a > b),
    '>=': lambda a, b: int(a >= b), '==': lambda a, b: int(a == b), '!=': lambda a, b: int(a != b),
}


class Ended(Exception):
    """How a run ended."""


class Run:
    """One run of a program on words."""

    def __init__(self, params, words):
        self.words = dict(zip(params, words))
        self.outs = []
        self.turns = TURNS

    def value(self, expression):
        kind = expression[0]
        if kind == 'number':
            return wrap(expression[1])
        if kind == 'name':
            return self.words.get(expression[1], 0)
        if kind == 'unary':
            value = self.value(expression[2])
            return {'-': wrap(-value), '~': ~value, '!': int(value == 0)}[expression[1]]
        if kind == 'choice':
            return self.value(expression[2] if self.value(expression[1]) else expression[3])
        first = self.value(expression[1])
        if kind == '&&':
            return int(self.value(expression[2]) != 0) if first else 0
        if kind == '||':
            return 1 if first else int(self.value(expression[2]) != 0)
        second = self.value(expression[2])
        if kind in '/%' and second == 0:
            raise Ended('fault')
        return VALUES[kind](first, second)

    def run(self, statement):
        kind = statement[0]
        if kind == 'block':
            for item in statement[1]:
                self.run(item)
        elif kind == 'set':
            self.words[statement[1]] = self.value(statement[2])
        elif kind == 'out':
            self.outs.append(self.value(statement[1]))
        elif kind == 'return':
            self.outs.append(self.value(statement[1]))
            raise Ended('returned')
        elif kind == 'assert':
            if self.value(statement[1]) == 0:
                raise Ended('assert')
        elif kind == 'if':
            self.run(statement[2] if self.value(statement[1]) else statement[3])
        else:
            self.loop(statement)

    def loop(self, statement):
        while self.value(statement[1]):
            if self.turns == 0:
                raise Ended('long')
            self.turns -= 1
            self.run(statement[2])


def outcome(program, words):
    """How the run of a program on words ends, and the list of what it puts out, the returned value included."""
    params, body = program
    run = Run(params, words)
    try:
        run.run(body)
        run.run(('return', ('number', 0)))
    except Ended as ended:
        return str(ended), run.outs
    raise AssertionError('a run ends')


def verdict(before, after, words):
    """`beyond`, `same` or `different`: what an input shows of two programs."""
    first, second = outcome(before, words), outcome(after, words)
    if 'long' in (first[0], second[0]):
        return 'beyond'
    return 'same' if first == second else 'different'


# ---- formulas

class Symbol(str):
    """The name of a defined term: of a word, or of a truth."""


class Word(Symbol):
    pass


class Truth(Symbol):
    pass


SORTS = {Word: '(_ BitVec 32)', Truth: 'Bool'}
WORD_OPS = {'+': 'bvadd', '-': 'bvsub', '*': 'bvmul', '/': 'bvsdiv', '%': 'bvsrem', '&': 'bvand', '|': 'bvor',
            '^': 'bvxor'}
TRUTH_OPS = {'<': 'bvslt', '<=': 'bvsle', '>': 'bvsgt', '>=': 'bvsge', '==': '='}


def shown(term):
    """A term in SMT-LIB. Words that are numbers are int, truths that are decided are bool."""
    if isinstance(term, Symbol):
        return str(term)
    if isinstance(term, bool):
        return 'true' if term else 'false'
    return f'#x{term % 2 ** 32:08x}'


class Formulas:
    """Definitions of terms, each made once. Operators on numbers are folded, and so are plain branches."""

    def __init__(self, params):
        self.params = [Word(f'x{place}') for place in range(params)]
        self.texts = {}
        self.known = {}
        self.truths = {}

    def define(self, kind, text):
        if text not in self.known:
            name = kind(f't{len(self.known)}')
            self.known[text] = name
            self.texts[name] = text
        return self.known[text]

    def lines(self, terms):
        """The declarations of the parameters, and the definitions that some terms stand on, in the order made."""
        needed, left = set(), [term for term in terms if term in self.texts]
        while left:
            name = left.pop()
            if name not in needed:
                needed.add(name)
                left += [part for part in re.findall(r't\d+', self.texts[name]) if part in self.texts]
        return [f'(declare-const {name} {SORTS[Word]})' for name in self.params] + [
            f'(define-fun {name} () {SORTS[type(name)]} {text})' for name, text in self.texts.items() if name in needed]

    def negate(self, a):
        if isinstance(a, bool):
            return not a
        return self.define(Truth, f'(not {shown(a)})')

    def both(self, a, b):
        if a is False or b is False:
            return False
        if a is True or a == b:
            return b
        return a if b is True else self.define(Truth, f'(and {shown(a)} {shown(b)})')

    def either(self, a, b):
        if a is True or b is True:
            return True
        if a is False or a == b:
            return b
        return a if b is False else self.define(Truth, f'(or {shown(a)} {shown(b)})')

    def choose(self, test, a, b):
        """a where the test holds, else b."""
        if test is True or type(a) is type(b) and a == b:
            return a
        if test is False:
            return b
        kind = Truth if isinstance(a, (bool, Truth)) else Word
        return self.define(kind, f'(ite {shown(test)} {shown(a)} {shown(b)})')

    def word(self, truth):
        """1 or 0."""
        if isinstance(truth, bool):
            return int(truth)
        word = self.choose(truth, 1, 0)
        self.truths[word] = truth
        return word

    def truth(self, word):
        """Whether a word isn't 0."""
        if not isinstance(word, Symbol):
            return word != 0
        return self.truths[word] if word in self.truths else self.negate(self.equal(word, 0))

    def equal(self, a, b):
        if not isinstance(a, Symbol) and not isinstance(b, Symbol) or a == b:
            return a == b
        return self.define(Truth, f'(= {shown(a)} {shown(b)})')

    def apply(self, op, a, b):
        """An operator on words. What a zero divisor gives is left to SMT-LIB."""
        if not isinstance(a, Symbol) and not isinstance(b, Symbol):
            return VALUES[op](a, b)
        if op == '!=':
            return self.word(self.negate(self.equal(a, b)))
        if op in TRUTH_OPS:
            return self.word(self.define(Truth, f'({TRUTH_OPS[op]} {shown(a)} {shown(b)})'))
        if op in ('<<', '>>'):
            amount = b & 31 if isinstance(b, int) else self.define(Word, f'(bvand {shown(b)} {shown(31)})')
            return self.define(Word, f'({"bvshl" if op == "<<" else "bvashr"} {shown(a)} {shown(amount)})')
        return self.define(Word, f'({WORD_OPS[op]} {shown(a)} {shown(b)})')

    def term(self, op, a, b):
        """An operator of a term, where a zero divisor gives 0."""
        if op in '/%':
            return self.choose(self.equal(b, 0), 0, self.apply(op, a, b))
        return self.apply(op, a, b)


class State:
    """What a run has done where its guard holds: the variables, the outs, how many outs and turns there were."""

    def __init__(self, guard, words, outs, count, turns, least):
        self.guard, self.words, self.outs, self.count, self.turns, self.least = guard, words, outs, count, turns, least

    def under(self, guard):
        return State(guard, dict(self.words), list(self.outs), self.count, self.turns, self.least)


class Symbolic:
    """All runs of a program at once. `ended` lists how runs ended, each with its state."""

    def __init__(self, formulas, total=False):
        self.formulas = formulas
        self.op = formulas.term if total else formulas.apply
        self.ended = []

    def value(self, expression, words):
        """The value of an expression, and where it has one."""
        make, kind = self.formulas, expression[0]
        if kind == 'number':
            return wrap(expression[1]), True
        if kind == 'name':
            return words.get(expression[1], 0), True
        if kind == 'unary':
            value, safe = self.value(expression[2], words)
            if expression[1] == '!':
                return make.word(make.negate(make.truth(value))), safe
            return (self.op('-', 0, value) if expression[1] == '-' else self.op('^', value, -1)), safe
        first, safe = self.value(expression[1], words)
        if kind == 'choice':
            return self.choice(expression, words, make.truth(first), safe)
        second, second_safe = self.value(expression[2], words)
        if kind in ('&&', '||'):
            return self.logical(kind, make.truth(first), safe, make.truth(second), second_safe)
        safe = make.both(safe, second_safe)
        if kind in '/%':
            safe = make.both(safe, make.negate(make.equal(second, 0)))
        return self.op(kind, first, second), safe

    def choice(self, expression, words, test, safe):
        make = self.formulas
        yes, yes_safe = self.value(expression[2], words)
        no, no_safe = self.value(expression[3], words)
        return make.choose(test, yes, no), make.both(safe, make.choose(test, yes_safe, no_safe))

    def logical(self, kind, first, safe, second, second_safe):
        make = self.formulas
        if kind == '&&':
            return make.word(make.both(first, second)), make.both(safe, make.either(make.negate(first), second_safe))
        return make.word(make.either(first, second)), make.both(safe, make.either(first, second_safe))

    def evaluate(self, expression, state):
        """The value of a full expression. Where it faults the run ends, and the state goes on without."""
        value, safe = self.value(expression, state.words)
        self.end('fault', state, self.formulas.negate(safe))
        state.guard = self.formulas.both(state.guard, safe)
        return value

    def end(self, how, state, where):
        guard = self.formulas.both(state.guard, where)
        if guard is not False:
            self.ended.append((how, state.under(guard)))

    def put(self, state, value):
        make = self.formulas
        if isinstance(state.count, int):
            state.outs[state.count:] = [value]
        else:
            state.outs.append(0)
            state.outs = [make.choose(make.equal(state.count, place), value, out)
                          for place, out in enumerate(state.outs)]
        state.count = make.apply('+', state.count, 1)

    def merge(self, test, first, second):
        """The state behind both branches of a test."""
        make = self.formulas
        if first.guard is False:
            return second
        if second.guard is False:
            return first
        length = max(len(first.outs), len(second.outs))
        pad = [state.outs + [0] * (length - len(state.outs)) for state in (first, second)]
        names = first.words.keys() | second.words.keys()
        return State(
            make.either(first.guard, second.guard),
            {name: make.choose(test, first.words.get(name, 0), second.words.get(name, 0)) for name in sorted(names)},
            [make.choose(test, a, b) for a, b in zip(*pad)],
            make.choose(test, first.count, second.count),
            make.choose(test, first.turns, second.turns),
            min(first.least, second.least))

    def run(self, statement, state):
        """The state behind a statement, where the run goes on."""
        kind = statement[0]
        if state.guard is False:
            return state
        if kind == 'block':
            for item in statement[1]:
                state = self.run(item, state)
        elif kind == 'set':
            state.words[statement[1]] = self.evaluate(statement[2], state)
        elif kind in ('out', 'return'):
            self.put(state, self.evaluate(statement[1], state))
            if kind == 'return':
                self.end('returned', state, True)
                state.guard = False
        elif kind == 'assert':
            truth = self.formulas.truth(self.evaluate(statement[1], state))
            self.end('assert', state, self.formulas.negate(truth))
            state.guard = self.formulas.both(state.guard, truth)
        elif kind == 'if':
            truth = self.formulas.truth(self.evaluate(statement[1], state))
            state = self.branch(truth, state, lambda yes: self.run(statement[2], yes),
                                lambda no: self.run(statement[3], no))
        else:
            state = self.loop(statement, state)
        return state

    def branch(self, truth, state, yes, no):
        make = self.formulas
        first = yes(state.under(make.both(state.guard, truth)))
        second = no(state.under(make.both(state.guard, make.negate(truth))))
        return self.merge(truth, first, second)

    def loop(self, statement, state):
        """A loop, one evaluation of its test after another: what leaves it is merged with what goes on."""
        if state.guard is False:
            return state
        truth = self.formulas.truth(self.evaluate(statement[1], state))
        return self.branch(truth, state, lambda yes: self.turn(statement, yes), lambda no: no)

    def turn(self, statement, state):
        make = self.formulas
        spent = True if state.least >= TURNS else make.equal(state.turns, TURNS)
        self.end('long', state, spent)
        state.guard = make.both(state.guard, make.negate(spent))
        if state.guard is False:
            return state
        state.turns = make.apply('+', state.turns, 1)
        state.least += 1
        return self.loop(statement, self.run(statement[2], state))


HOWS = ['returned', 'fault', 'assert', 'long']


class Shows:
    """What a program shows on every input, as terms: how it ends, how many values it puts out, and these."""

    def __init__(self, formulas, program):
        params, body = program
        runs = Symbolic(formulas)
        state = runs.run(body, State(True, dict(zip(params, formulas.params)), [], 0, 0, 0))
        runs.run(('return', ('number', 0)), state)
        length = max(len(end.outs) for _, end in runs.ended)
        how, count, outs = 0, 0, [0] * length
        for name, end in runs.ended:
            how = formulas.choose(end.guard, HOWS.index(name), how)
            count = formulas.choose(end.guard, end.count, count)
            own = end.outs + [0] * (length - len(end.outs))
            outs = [formulas.choose(end.guard, a, b) for a, b in zip(own, outs)]
        self.how, self.count, self.outs = how, count, outs


class Compared:
    """Two programs on every input: where a run is beyond the bound on turns, and where both end alike."""

    def __init__(self, before, after):
        make = Formulas(len(before[0]))
        old, new = Shows(make, before), Shows(make, after)
        length = max(len(old.outs), len(new.outs))
        pads = [shows.outs + [0] * (length - len(shows.outs)) for shows in (old, new)]
        alike = make.both(make.equal(old.how, new.how), make.equal(old.count, new.count))
        for a, b in zip(*pads):
            alike = make.both(alike, make.equal(a, b))
        long = HOWS.index('long')
        self.formulas = make
        self.alike = alike
        self.beyond = make.either(make.equal(old.how, long), make.equal(new.how, long))

    def condition(self, literals, params):
        """Where all literals of a region hold: texts of terms over the names of the parameters."""
        make, holds = self.formulas, True
        terms = Symbolic(make, total=True)
        words = dict(zip(params, make.params))
        for literal in literals:
            reader = Reader(tokens_of(literal), greatest=MAX + 1)
            reader.scopes.append(params)
            value, _ = terms.value(reader.expression(), words)
            if reader.peek() is not None:
                raise Refused(f'no term: {literal}')
            holds = make.both(holds, make.truth(value))
        return holds

    def script(self, *truths):
        """A script that asks whether all of these can hold."""
        asserts = [f'(assert {shown(truth)})' for truth in truths]
        return '\n'.join(['(set-logic QF_BV)'] + self.formulas.lines(truths) + asserts + ['(check-sat)', ''])

    def differ(self):
        """A script that asks for an input on which both are within the bound and do not end alike."""
        make = self.formulas
        return self.script(make.negate(self.beyond), make.negate(self.alike))


# ---- pairs that are made

def generated(number, size):
    """The texts of the pair that `prv gen NUMBER SIZE` explores."""
    state, lines = number, ['int main(int a, int b) {', 'int r = 0;']
    for place in range(1, size + 1):
        state = (state * 1664525 + 1013904223) % 2 ** 32
        lines.append(f'if (a < {(state >> 16) % 100}) r = r + {place};')
    return ('\n'.join(lines + ['@1 return r;', '}', '']),
            '\n'.join(lines + ['@1 if (a == b) return r + 1; else return r;', '}', '']))


def show(how, outs):
    """The lines of `prv run`."""
    last = how == 'returned'
    lines = [f'out {value}' for value in (outs[:-1] if last else outs)]
    return '\n'.join(lines + [f'returned {outs[-1]}' if last else how])


def main(words):
    command, rest = (words[0] if words else ''), words[1:]
    if command == 'run' and len(rest) >= 2:
        program, _ = read_file(rest[0])
        print(show(*outcome(program, [int(word) for word in rest[1:]])))
    elif command == 'pair' and len(rest) == 2:
        read_pair(*rest)
        print('a pair')
    elif command == 'smt' and len(rest) == 2:
        print(Compared(*read_pair(*rest)).differ(), end='')
    elif command == 'generate' and len(rest) == 2:
        for name, text in zip(('old.mc', 'new.mc'), generated(int(rest[0]), int(rest[1]))):
            with open(name, 'w', encoding='ascii') as file:
                file.write(text)
    else:
        sys.exit(__doc__)


if __name__ == '__main__':
    sys.setrecursionlimit(100000)
    try:
        main(sys.argv[1:])
    except Refused as why:
        sys.exit(f'{sys.argv[1]}: {why}')
