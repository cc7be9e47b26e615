"""Reads reports of `prv explore`, and checks each claim in them without prv.

    reports.py OLD NEW REPORT SECONDS

Of each region whose condition is written whole, z3 is asked for an input that its claim is false of: one on which the
versions do not end alike in a region `same`, any input in a region `empty`, and so on; each question has SECONDS. The
sample of a region `different` is run here. Where all conditions are written whole, z3 is asked for an input that lies
in no region or in two, and then random inputs are run and looked up. Last, z3 is asked whether the versions differ at
all. What z3 does not answer in time is counted, and so are conditions that are cut."""
import random
import re
import subprocess
import sys

import mc32

ENTRY = re.compile(r'(\d+) (same|different|empty|beyond|open|undecided)(.*?): (.*)')
EDGES = [0, 1, -1, 2, -2, 3, 5, 7, 10, 31, 32, 100, 1000, 65535, 2147483647, -2147483648]


class Region:
    """One line of a report. `literals` is None where the condition is cut."""

    def __init__(self, line):
        found = ENTRY.fullmatch(line)
        if not found:
            raise mc32.Refused(f'no entry: {line}')
        self.line, self.kind, text = line, found[2], found[4]
        sample = re.match(r' at ((?:-?\d+ )+)marks', found[3])
        self.sample = [int(word) for word in sample[1].split()] if sample else None
        literals = [] if text == 'true' else text.split(' ; ')
        self.literals = None if any(literal.endswith('..') for literal in literals) else literals


def regions_of(report):
    """The regions of a report, and its last two lines."""
    lines = report.splitlines()
    count = int(lines[0].removeprefix('regions '))
    if len(lines) != count + 3:
        raise mc32.Refused(f'{count} regions in {len(lines)} lines')
    return [Region(line) for line in lines[1:-2]], lines[-2:]


def ask(script, seconds):
    """What z3 says of a script: sat, unsat or unknown."""
    done = subprocess.run(['z3', f'-T:{seconds}', '-in'], input=script, capture_output=True, text=True)
    answer = done.stdout.split('\n')[0]
    if answer not in ('sat', 'unsat', 'unknown', 'timeout'):
        raise mc32.Refused(f'z3 says {answer}')
    return answer if answer in ('sat', 'unsat') else 'unknown'


class Checked:
    """The pair of a report, with what was found of its claims."""

    def __init__(self, old, new, seconds):
        self.before, self.after = mc32.read_pair(old, new)
        self.params = self.before[0]
        self.seconds = seconds
        self.wrong = []
        self.counts = {'regions': 0, 'checked': 0, 'cut': 0, 'unknown': 0}

    def refute(self, what, script):
        """Counts a claim that holds where a script has no answer."""
        answer = ask(script, self.seconds)
        if answer == 'sat':
            self.wrong.append(what)
        self.counts['checked' if answer == 'unsat' else 'unknown'] += 1

    def check(self, region):
        self.counts['regions'] += 1
        if region.sample and mc32.verdict(self.before, self.after, region.sample) != 'different':
            self.wrong.append(f'the sample of {region.line}')
        if region.literals is None:
            self.counts['cut'] += 1
            return
        if region.sample and not self.holds(region, region.sample):
            self.wrong.append(f'the place of the sample of {region.line}')
        compared = mc32.Compared(self.before, self.after)
        make, inside = compared.formulas, compared.condition(region.literals, self.params)
        same = make.both(compared.alike, make.negate(compared.beyond))
        against = {'same': make.negate(same), 'different': make.either(compared.alike, compared.beyond),
                   'empty': True, 'beyond': make.negate(compared.beyond)}
        if region.kind in against:
            self.refute(region.line, compared.script(inside, against[region.kind]))

    def cover(self, regions):
        """Each input lies in exactly one region."""
        compared = mc32.Compared(self.before, self.after)
        make, count = compared.formulas, 0
        for region in regions:
            count = make.apply('+', count, make.word(compared.condition(region.literals, self.params)))
        self.refute('the regions', compared.script(make.negate(make.equal(count, 1))))

    def holds(self, region, words):
        """Whether an input meets a condition."""
        make = mc32.Formulas(0)
        terms = mc32.Symbolic(make, total=True)
        given = dict(zip(self.params, words))
        for literal in region.literals:
            reader = mc32.Reader(mc32.tokens_of(literal), greatest=mc32.MAX + 1)
            reader.scopes.append(self.params)
            if terms.value(reader.expression(), given)[0] == 0:
                return False
        return True

    def run(self, regions, count):
        """Random inputs end as the one region claims that they lie in."""
        draw = random.Random(1)
        for _ in range(count):
            words = [draw.choice(EDGES) if draw.random() < 0.7 else draw.randrange(-2 ** 31, 2 ** 31)
                     for _ in self.params]
            places = [region for region in regions if self.holds(region, words)]
            if len(places) != 1:
                self.wrong.append(f'{words} lies in {len(places)} regions')
            elif places[0].kind not in ('open', 'undecided', mc32.verdict(self.before, self.after, words)):
                self.wrong.append(f'{words} in {places[0].line}')

    def whole(self, regions):
        """What z3 says of the pair, beside the report's kinds."""
        kinds = {region.kind for region in regions}
        answer = ask(mc32.Compared(self.before, self.after).differ(), self.seconds)
        if answer == 'unsat' and 'different' in kinds or answer == 'sat' and not kinds & {'different', 'open', 'undecided'}:
            self.wrong.append(f'the pair, which is {answer}')
        self.counts['checked' if answer != 'unknown' else 'unknown'] += 1


def check(old, new, report, seconds, tries=300):
    """What is wrong in a report, and the counts of what was looked at."""
    regions, _ = regions_of(report)
    checked = Checked(old, new, seconds)
    for region in regions:
        checked.check(region)
    if not checked.counts['cut']:
        checked.cover(regions)
        checked.run(regions, tries)
    checked.whole(regions)
    return checked.wrong, checked.counts


def main(old, new, name, seconds):
    with open(name, encoding='ascii') as file:
        wrong, counts = check(old, new, file.read(), int(seconds))
    print(' '.join(f'{key} {count}' for key, count in counts.items()), f'wrong {len(wrong)}')
    for line in wrong[:10]:
        print('wrong:', line)
    sys.exit(1 if wrong else 0)


if __name__ == '__main__':
    sys.setrecursionlimit(100000)
    if len(sys.argv) != 5:
        sys.exit(__doc__)
    main(*sys.argv[1:])
