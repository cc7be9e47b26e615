#!/bin/sh
# Solves random formulas and compares each answer with brute force.
#
#   bench/sat/random.sh [COUNT] [SEED]
#
# COUNT formulas (10,000 if not given) are made from SEED (1). In a folder of its own under the temporary folder it
# builds a scratch copy of the crates prv_cnf, prv_check, prv_propagate and prv_sat with a program over them, whose
# text is random_main.rt.txt (`rt` proves it first, which takes some minutes). The program tests each log itself, by
# `check` and `check_fresh`; random.py tests values, verdicts and budgets. It ends with 0 where no answer was wrong.
set -eu
here=$(cd "$(dirname "$0")" && pwd)
repository=$(cd "$here/../.." && pwd)
count=${1:-10000}
seed=${2:-1}
work=$(mktemp -d)
trap 'rm -rf "$work"' EXIT

mkdir -p "$work/copy/crates/sat_random/src"
for crate in prv_cnf prv_check prv_propagate prv_sat; do
    mkdir -p "$work/copy/crates/$crate"
    for part in src specs proofs; do
        cp -r "$repository/crates/$crate/$part" "$work/copy/crates/$crate/"
    done
done
cp "$here/random_main.rt.txt" "$work/copy/crates/sat_random/src/main.rt"
{
    grep -E '^(prv_cnf|prv_check|prv_propagate|prv_sat):' "$repository/crates.txt"
    echo 'sat_random: prv_sat prv_check prv_cnf'
} > "$work/copy/crates.txt"
git -C "$work/copy" init -q
(cd "$work/copy/crates/sat_random" && rt run < /dev/null) > "$work/build.txt" 2>&1 || {
    cat "$work/build.txt"
    exit 1
}
python3 "$here/random.py" make "$count" "$seed" > "$work/formulas"
"$work/copy/crates/sat_random/out/sat_random" < "$work/formulas" > "$work/answers"
python3 "$here/random.py" test "$count" "$seed" "$work/answers"
