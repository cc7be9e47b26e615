"""Runs the solver and MiniSat in turn on each formula of a folder, and prints what each takes.

measure.py PROGRAM FOLDER ROUNDS [SECONDS]

Times are processor times of whole processes, reading the formula among them, in milliseconds: the least of the rounds.
A run that takes more than SECONDS (60 if not given) is cut off. A formula may say in a line `c inputs N` that its first
N variables are inputs. Lines of sums are of formulas whose names differ in what stands behind the last `_`, where both
programs ended.
"""
import os
import re
import resource
import subprocess
import sys
import tempfile
from pathlib import Path


def run(words, text, seconds):
    """What a command prints, and its processor time in milliseconds."""
    with tempfile.TemporaryFile() as given, tempfile.TemporaryFile() as out:
        given.write(text)
        given.seek(0)
        limit = lambda: resource.setrlimit(resource.RLIMIT_CPU, (seconds, seconds + 1))
        child = subprocess.Popen(words, stdin=given, stdout=out, stderr=subprocess.DEVNULL, preexec_fn=limit)
        _, _, usage = os.wait4(child.pid, 0)
        child.returncode = 0
        out.seek(0)
        return out.read().decode(), usage.ru_utime * 1000


def ours_of(text):
    words = text.split()
    return (words[0], int(words[1]) if len(words) > 1 else 0) if words else (None, 0)


def peers_of(text):
    conflicts = re.search(r"conflicts\s*:\s*(\d+)", text)
    verdict = re.search(r"^(UN)?SATISFIABLE", text, re.M)
    if not verdict:
        return None, 0
    return "refuted" if verdict.group(1) else "values", int(conflicts.group(1))


def measured(program, path, rounds, seconds):
    text = path.read_text()
    inputs = re.search(r"^c inputs (\d+)$", text, re.M)
    body = [line for line in text.splitlines() if line[:1] not in "cp"]
    variables = re.search(r"^p cnf (\d+)", text, re.M).group(1)
    given = "\n".join([f"solve {inputs.group(1) if inputs else 0} {variables}", *body, ""]).encode()
    times, found = {"ours": [], "peer": []}, {}
    for _ in range(rounds):
        out, took = run([program], given, seconds)
        times["ours"].append(took)
        found["ours"] = ours_of(out)
        out, took = run(["minisat", str(path)], b"", seconds)
        times["peer"].append(took)
        found["peer"] = peers_of(out)
    return min(times["ours"]), min(times["peer"]), found["ours"], found["peer"]


def show(name, ours, peer, lines, conflicts, verdict):
    print(f"{name:28} {ours:9.1f} {peer:9.1f} {ours / max(peer, 0.1):7.2f} {lines:9} {conflicts:9}  {verdict}", flush=True)


def main():
    program, folder, rounds = sys.argv[1], Path(sys.argv[2]), int(sys.argv[3])
    seconds = int(sys.argv[4]) if len(sys.argv) > 4 else 60
    sums = {}
    print(f"{'formula':28} {'ours':>9} {'minisat':>9} {'ratio':>7} {'lines':>9} {'conflicts':>9}")
    for path in sorted(folder.glob("*.cnf")):
        ours, peer, (mine, lines), (other, conflicts) = measured(program, path, rounds, seconds)
        if mine is None or other is None:
            verdict = f"cut off: {'ours ' * (mine is None)}{'minisat' * (other is None)}"
        else:
            verdict = mine if mine == other else "THE VERDICTS DIFFER"
            group = sums.setdefault(path.stem.rsplit("_", 1)[0], [0, 0, 0, 0, 0])
            for k, more in enumerate((ours, peer, lines, conflicts, 1)):
                group[k] += more
        show(path.stem, ours, peer, lines, conflicts, verdict)
    print()
    for group, (ours, peer, lines, conflicts, count) in sums.items():
        show(f"{group} ({count})", ours, peer, lines, conflicts, "sum")


main()
