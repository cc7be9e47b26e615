#!/bin/sh
# Times `slice` on a program that takes an operator with exchangeable operands of two long chains of terms again and
# again, beside the same program with an operator whose operands have an order.
#
#   bench/slice/deep.sh [ROUNDS]
#
# `./build` has to have built the program. Two variables become chains of 4,488 subtractions that differ at their
# innermost operand alone, and `x ^ y` is then put out 1,008 times, or `x - y` in the second program. It prints the
# least time of ROUNDS rounds (7 if not given) of each, in milliseconds with the start, and their ratio: near 1 where an
# operator that stands in the table is found there, and far above it where its operands are compared as trees before.
set -eu
here=$(cd "$(dirname "$0")" && pwd)
program=${PRV:-$(cd "$here/../.." && pwd)/out/prv}
[ -x "$program" ] || {
    echo 'no program is built: ./build proves it and builds it' >&2
    exit 1
}
work=$(mktemp -d)
trap 'rm -rf "$work"' EXIT
python3 - "$program" "$work" "${1:-7}" <<'P'
import subprocess, sys, time
program, work, rounds = sys.argv[1], sys.argv[2], int(sys.argv[3])
def write(name, op):
    chains = 'x = x - c; y = y - c; ' * 264
    outs = f'out(x {op} y); ' * 72
    with open(f'{work}/{name}.mc', 'w') as file:
        file.write('int main(int a, int b, int c) { int x = a; int y = b; int n = 0; while (n < 17) { n = n + 1; ' + chains + '} ' + 'while (n < 31) { n = n + 1; ' + outs + '} return 0; }')
write('exchanged', '^')
write('ordered', '-')
least = {'exchanged': 1e9, 'ordered': 1e9}
for _ in range(rounds):
    for name in least:
        start = time.perf_counter()
        done = subprocess.run([program, 'slice', f'{work}/{name}.mc', '1', '2', '3'], stdout=subprocess.DEVNULL)
        least[name] = min(least[name], (time.perf_counter() - start) * 1000)
        if done.returncode != 0:
            sys.exit(f'status {done.returncode}')
print(f'milliseconds: exchangeable {least["exchanged"]:.1f}, ordered {least["ordered"]:.1f}, ratio {least["exchanged"] / least["ordered"]:.2f}')
P
