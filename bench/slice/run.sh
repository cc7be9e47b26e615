#!/bin/sh
# Times `slice` beside `run` on the same input.
#
#   bench/slice/run.sh [ROUNDS]
#
# `./build` has to have built the program. For each program it prints the least time of ROUNDS rounds (7 if not given)
# of 20 calls each, in milliseconds a call, of a call that is refused at once (`usage`: what starting costs), of `run`
# and of `slice`, and the ratio of the last two without the start.
set -eu
here=$(cd "$(dirname "$0")" && pwd)
program=${PRV:-$(cd "$here/../.." && pwd)/out/prv}
[ -x "$program" ] || {
    echo 'no program is built: ./build proves it and builds it' >&2
    exit 1
}
work=$(mktemp -d)
trap 'rm -rf "$work"' EXIT
python3 - "$work" <<'P'
import sys
def loop(name, body):
    with open(f'{sys.argv[1]}/{name}.mc', 'w') as file:
        file.write('int main(int a) { int i = 0; int b = 0; while (i < 32) { i = i + 1; ' + body + '} return a; }')
loop('1024_literals', 'assert(a | 1); ' * 32)
for count in (155, 310, 620):
    loop(f'{32 * count}_assignments', 'b = a; ' * count)
    loop(f'{32 * count}_sums', 'b = b + 1; ' * count)
    loop(f'{32 * count // 2}_ifs', 'if (a < 5) b = 1; ' * (count // 2))
P
python3 - "$program" "$work" "${1:-7}" <<'P'
import glob, os, subprocess, sys, time
program, work, rounds = sys.argv[1], sys.argv[2], int(sys.argv[3])
def once(words):
    start = time.perf_counter()
    for _ in range(20):
        subprocess.run([program, *words], stdout=subprocess.DEVNULL, stderr=subprocess.DEVNULL)
    return (time.perf_counter() - start) / 20 * 1000
print('program                   usage    run  slice  ratio')
for name in sorted(glob.glob(f'{work}/*.mc')):
    least = [1e9] * 3
    for _ in range(rounds):
        for k, words in enumerate((['none'], ['run', name, '3'], ['slice', name, '3'])):
            least[k] = min(least[k], once(words))
    usage, run, cut = least
    print(f'{os.path.basename(name)[:-3]:24s} {usage:6.2f} {run:6.2f} {cut:6.2f}  {(cut - usage) / max(run - usage, 0.001):5.2f}')
P
