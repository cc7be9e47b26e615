#!/bin/sh
# Times the solver beside MiniSat (Debian's package `minisat`), on formulas that are made anew.
#
#   bench/sat/run.sh [ROUNDS [FORMULAS]]
#
# In a folder of its own under the temporary folder it writes the formulas, takes those of a folder FORMULAS beside
# them (bench/blast/pairs.sh writes some), and builds a scratch copy of the crates prv_cnf, prv_check,
# prv_propagate and prv_sat with a program over them, whose text is solve_main.rt.txt (`rt` proves it first, which
# takes some minutes; where PROGRAM names one that was built, it is taken). Then it runs both in turn, ROUNDS
# times (3 if not given), and prints for each formula the least processor times in milliseconds and their ratio.
set -eu
here=$(cd "$(dirname "$0")" && pwd)
repository=$(cd "$here/../.." && pwd)
rounds=${1:-3}
command -v minisat > /dev/null || {
    echo 'minisat is not installed: nothing is measured'
    exit 0
}
work=$(mktemp -d)
trap 'rm -rf "$work"' EXIT

python3 "$here/formulas.py" "$work/formulas"
if [ -n "${2:-}" ]; then
    cp "$2"/*.cnf "$work/formulas/"
fi
if [ -n "${PROGRAM:-}" ]; then
    python3 "$here/measure.py" "$PROGRAM" "$work/formulas" "$rounds"
    exit 0
fi
mkdir -p "$work/copy/crates/sat_bench/src"
for crate in prv_cnf prv_check prv_propagate prv_sat; do
    mkdir -p "$work/copy/crates/$crate"
    for part in src specs proofs; do
        cp -r "$repository/crates/$crate/$part" "$work/copy/crates/$crate/"
    done
done
cp "$here/solve_main.rt.txt" "$work/copy/crates/sat_bench/src/main.rt"
{
    grep -E '^(prv_cnf|prv_check|prv_propagate|prv_sat):' "$repository/crates.txt"
    echo 'sat_bench: prv_sat prv_check prv_cnf'
} > "$work/copy/crates.txt"
git -C "$work/copy" init -q
(cd "$work/copy/crates/sat_bench" && echo 'solve 0 0' | rt run) > "$work/build.txt" 2>&1 || {
    cat "$work/build.txt"
    exit 1
}
program=$work/copy/crates/sat_bench/out/sat_bench

python3 "$here/measure.py" "$program" "$work/formulas" "$rounds"
