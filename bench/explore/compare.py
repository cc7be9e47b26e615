"""How long prv, z3 and cvc5 take to compare two versions.

    compare.py PRV SECONDS [FOLDER]

The pairs are those of examples/, of pairs.txt, generated ones of size 1, 10 and 50, and those of FOLDER, each in a
folder of its own with old.mc and new.mc. prv explores each with its defaults; the peers are asked one query for an
input on which the versions differ (mc32.py makes it). Each time is the least of three runs, or of one where it takes
more than a second; a run that takes more than SECONDS is stopped. A peer that isn't installed is left out. A line shows
a pair's times with the peers' answers, how many times the better peer's time prv took, and prv's counts."""
import os
import shutil
import subprocess
import sys
import tempfile
import time

import mc32

HERE = os.path.dirname(os.path.abspath(__file__))
PEERS = {'z3': ['z3'], 'cvc5': ['cvc5', '--lang=smt2']}


def timed(command, seconds):
    """The least time of a command in seconds, its output and its status: no time where it is stopped."""
    least = None
    for _ in range(3):
        start = time.monotonic()
        try:
            done = subprocess.run(command, capture_output=True, text=True, timeout=seconds, stdin=subprocess.DEVNULL)
        except subprocess.TimeoutExpired:
            return None, '', None
        took = time.monotonic() - start
        least = took if least is None else min(least, took)
        if took > 1:
            break
    return least, done.stdout, done.returncode


def folders(top):
    """Name, old and new file of each pair in a folder."""
    place = os.path.basename(os.path.abspath(top))
    for name in sorted(os.listdir(top)):
        files = [os.path.join(top, name, file) for file in ('old.mc', 'new.mc')]
        if all(os.path.isfile(file) for file in files):
            yield f'{place}/{name}', *files


def written(work, name, old, new):
    """A pair of texts, written to files."""
    folder = os.path.join(work, name)
    os.makedirs(folder)
    files = [os.path.join(folder, file) for file in ('old.mc', 'new.mc')]
    for file, text in zip(files, (old, new)):
        with open(file, 'w', encoding='ascii') as out:
            out.write(text)
    return name, *files


def pairs(work, folder):
    """Name, old and new file of each pair."""
    yield from folders(os.path.join(HERE, '..', '..', 'examples'))
    with open(os.path.join(HERE, 'pairs.txt'), encoding='ascii') as lines:
        for line in lines:
            name, texts = line.rstrip('\n').split(': ', 1)
            yield written(work, name, *texts.split(' <> '))
    for size in (1, 10, 50):
        yield written(work, f'generated_{size}', *mc32.generated(7, size))
    if folder:
        yield from folders(folder)


def shown(seconds):
    return 'stopped' if seconds is None else f'{seconds:.3f}'


class Pair:
    """What was measured of one pair."""

    def __init__(self, prv, seconds, work, name, old, new):
        self.name = name
        self.took, text, self.status = timed([prv, 'explore', old, new, '--workers', '0'], seconds)
        lines = text.splitlines()
        self.counts = ', '.join(lines[-2:]) if len(lines) >= 2 else text
        query = os.path.join(work, 'query.smt2')
        with open(query, 'w', encoding='ascii') as out:
            out.write(mc32.Compared(*mc32.read_pair(old, new)).differ())
        self.peers = {}
        for peer, command in PEERS.items():
            if shutil.which(command[0]):
                took, answer, _ = timed(command + [query], seconds)
                self.peers[peer] = took, answer.strip()

    def is_wrong(self):
        """Whether prv and a peer can't both be right."""
        answers = {answer for _, answer in self.peers.values()}
        return self.status == 0 and 'sat' in answers or self.status == 1 and 'unsat' in answers

    def ratio(self, seconds):
        """prv's time by the better peer's, or None where prv was stopped or no peer is there."""
        if self.took is None or not self.peers:
            return None
        return self.took / min(took or seconds for took, _ in self.peers.values())

    def line(self, seconds):
        peers = [f'{peer} {shown(took)} {answer or "-"}' for peer, (took, answer) in self.peers.items()]
        ratio = self.ratio(seconds)
        times = '-' if ratio is None else f'{ratio:.2f}'
        wrong = ' WRONG' if self.is_wrong() else ''
        return f'{self.name:28} prv {shown(self.took)} status {self.status} | {" | ".join(peers)} | ratio {times} | {self.counts}{wrong}'


def main(prv, seconds, folder=None):
    seconds = float(seconds)
    measured = []
    with tempfile.TemporaryDirectory() as work:
        for name, old, new in pairs(work, folder):
            pair = Pair(prv, seconds, work, name, old, new)
            print(pair.line(seconds), flush=True)
            measured.append(pair)
    ratios = [ratio for ratio in (pair.ratio(seconds) for pair in measured) if ratio is not None]
    if ratios:
        quick = sum(ratio <= 1 for ratio in ratios)
        print(f'pairs {len(measured)}, prv no slower than the better peer on {quick}, greatest ratio {max(ratios):.1f}')
    wrong = [pair.name for pair in measured if pair.is_wrong()]
    if wrong:
        sys.exit('prv and a peer contradict each other on ' + ', '.join(wrong))


if __name__ == '__main__':
    sys.setrecursionlimit(100000)
    if len(sys.argv) not in (3, 4):
        sys.exit(__doc__)
    main(*sys.argv[1:])
