"""Explores pairs, and checks the reports.

    oracle.py PRV COUNT SEED SECONDS [FOLDER]

The pairs are those that compare.py measures and COUNT random ones from SEED: programs of two parameters of which one
statement is marked and has another one in its place in the new version."""
import importlib.util
import os
import random
import subprocess
import sys
import tempfile

import compare
import mc32
import reports

HERE = os.path.dirname(os.path.abspath(__file__))


def random_programs():
    """The maker of random programs that the oracle of slices uses."""
    name = os.path.join(HERE, '..', 'slice', 'oracle.py')
    spec = importlib.util.spec_from_file_location('slices', name)
    module = importlib.util.module_from_spec(spec)
    spec.loader.exec_module(module)
    return module


def random_pair(maker, draw):
    """The texts of two versions that differ in one marked statement."""
    def items():
        return [maker.statement(draw, 2) for _ in range(draw.randint(0, 3))]

    before, behind = items(), items()
    texts = []
    for _ in range(2):
        changed = ['@1 ' + maker.statement(draw, 1)]
        texts.append('int main(int a, int b) { int u = 0; int v = b; int w = 0; ' + ' '.join(before + changed + behind) + ' }')
    return texts


def pairs(work, folder, count, seed):
    """Name, old and new file of each pair."""
    yield from compare.pairs(work, folder)
    maker, draw = random_programs(), random.Random(seed)
    for number in range(count):
        yield compare.written(work, f'random_{number}', *random_pair(maker, draw))


def explore(prv, old, new):
    """The report of a pair, or None where the program gives none; and how it ended."""
    done = subprocess.run([prv, 'explore', old, new, '--workers', '0'], capture_output=True, text=True, check=False)
    return (done.stdout if done.returncode in (0, 1, 2) else None), f'status {done.returncode} {done.stderr.strip()}'


def status_of(regions):
    """The status that the regions of a report give."""
    kinds = {region.kind for region in regions}
    return 1 if 'different' in kinds else 0 if kinds <= {'same', 'empty'} else 2


def main(prv, count, seed, seconds, folder=None):
    totals, bad = {}, 0
    with tempfile.TemporaryDirectory() as work:
        for name, old, new in pairs(work, folder, int(count), int(seed)):
            report, ended = explore(prv, old, new)
            if report is None:
                print(f'{name}: no report, {ended}')
                bad += 1
                continue
            wrong, counts = reports.check(old, new, report, int(seconds))
            if ended.strip() != f'status {status_of(reports.regions_of(report)[0])}':
                wrong.append(ended)
            for line in wrong[:5]:
                print(f'{name}: wrong: {line}')
            bad += bool(wrong)
            for key, number in counts.items():
                totals[key] = totals.get(key, 0) + number
    print(' '.join(f'{key} {number}' for key, number in totals.items()), f'wrong pairs {bad}')
    sys.exit(1 if bad else 0)


if __name__ == '__main__':
    sys.setrecursionlimit(100000)
    if len(sys.argv) not in (5, 6):
        sys.exit(__doc__)
    main(*sys.argv[1:])
