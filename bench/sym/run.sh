#!/bin/bash
# Times `trace` and `terms` beside a program in C that runs the same program, keeps its evaluations and makes the same
# terms in a table with open addressing.
#
#   bench/sym/run.sh [ROUNDS]
#
# In a folder of its own under the temporary folder it compiles the peer, and builds a scratch copy of the crates
# prv_model, prv_run, prv_pool and prv_sym with a program over them, whose text is terms_main.rt.txt (`rt` proves it
# first, which takes some minutes). Then both run program.txt 100 times, in turn, ROUNDS times (10 if not given), each
# time with a new table. They must agree on the counts of evaluations and nodes and on sums over the values and the
# nodes. It prints the least times in microseconds and their ratios.
set -eu
here=$(cd "$(dirname "$0")" && pwd)
repository=$(cd "$here/../.." && pwd)
rounds=${1:-10}
work=$(mktemp -d)
trap 'rm -rf "$work"' EXIT

gcc -O2 -o "$work/run_terms" "$here/run_terms.c"
mkdir -p "$work/copy/crates/terms_bench/src"
for crate in prv_model prv_run prv_pool prv_sym; do
    mkdir -p "$work/copy/crates/$crate"
    for part in src specs proofs; do
        cp -r "$repository/crates/$crate/$part" "$work/copy/crates/$crate/"
    done
done
cp "$here/terms_main.rt.txt" "$work/copy/crates/terms_bench/src/main.rt"
{
    grep -E '^(prv_model|prv_run|prv_pool|prv_sym):' "$repository/crates.txt"
    echo 'terms_bench: prv_sym prv_pool prv_run prv_model sqlite_items'
} > "$work/copy/crates.txt"
git -C "$work/copy" init -q
(cd "$work/copy/crates/terms_bench" && echo '0 0 0' | rt run) > "$work/build.txt" 2>&1 || {
    cat "$work/build.txt"
    exit 1
}
program=$work/copy/crates/terms_bench/out/terms_bench

{ echo '100 1000 7'; cat "$here/program.txt"; } > "$work/input"
for _ in $(seq "$rounds"); do
    echo "peer $("$work/run_terms" 100 1000 7 < "$here/program.txt")"
    echo "ours $("$program" < "$work/input")"
done > "$work/runs"

awk '
    !($1 in run) || $2 < run[$1] { run[$1] = $2 }
    !($1 in made) || $3 < made[$1] { made[$1] = $3 }
    { counts = $4 " " $5 " " $6 " " $7 }
    NR > 1 && counts != wanted { print "the two programs differ: " $0; failed = 1; exit 1 }
    { wanted = counts; evaluations = $4; nodes = $5 }
    function show(what, ours, peer) { printf "%-8s %6d / %6d = %.2f\n", what, ours, peer, ours / peer }
    END {
        if (failed) exit 1
        print evaluations " evaluations, " nodes " nodes; microseconds: this project / the peer in C = ratio"
        show("trace", run["ours"], run["peer"])
        show("terms", made["ours"], made["peer"])
        show("both", run["ours"] + made["ours"], run["peer"] + made["peer"])
    }' "$work/runs"
