#!/bin/bash
# Times the calls that make terms in a pool beside a table with open addressing in C, on calls that are made anew.
#
#   bench/pool/run.sh [ROUNDS]
#
# In a folder of its own under the temporary folder it compiles the peer and the maker of calls, and builds a
# scratch copy of the crates prv_model and prv_pool with a program over them, whose text is call_main.rt.txt
# (`rt` proves it first, which takes some minutes). Then both make a million calls, and 20,000, each time in a new
# table, in turn, ROUNDS times (5 if not given). They must agree on the count of nodes and on a sum over the
# answers. It prints the least times in milliseconds: by the clock, and of the processor (what a run that makes
# the calls some times takes beyond a run that only reads them).
set -eu
here=$(cd "$(dirname "$0")" && pwd)
repository=$(cd "$here/../.." && pwd)
rounds=${1:-5}
work=$(mktemp -d)
trap 'rm -rf "$work"' EXIT

gcc -O2 -o "$work/make_calls" "$here/make_calls.c"
gcc -O2 -o "$work/call_table" "$here/call_table.c"
mkdir -p "$work/copy/crates/pool_bench/src"
for crate in prv_model prv_pool; do
    mkdir -p "$work/copy/crates/$crate"
    for part in src specs proofs; do
        cp -r "$repository/crates/$crate/$part" "$work/copy/crates/$crate/"
    done
done
cp "$here/call_main.rt.txt" "$work/copy/crates/pool_bench/src/main.rt"
{
    grep -E '^(prv_model|prv_pool):' "$repository/crates.txt"
    echo 'pool_bench: prv_pool prv_model'
} > "$work/copy/crates.txt"
git -C "$work/copy" init -q
(cd "$work/copy/crates/pool_bench" && echo '0' | rt run) > "$work/build.txt" 2>&1 || {
    cat "$work/build.txt"
    exit 1
}
program=$work/copy/crates/pool_bench/out/pool_bench

# $1 a name, $2 how many times, $3 the file of the calls: appends the name, the processor's milliseconds of the
# run, and what the program printed
TIMEFORMAT='%U %S'
run() {
    local name=$1 times=$2 calls=$3 used
    case $name in
    ours) used=$( { time { echo "$times"; cat "$calls"; } | "$program" > "$work/printed"; } 2>&1 ) ;;
    peer) used=$( { time "$work/call_table" "$times" < "$calls" > "$work/printed"; } 2>&1 ) ;;
    esac
    echo "$name $times $used $(cat "$work/printed")" >> "$work/runs"
}

# $1 a name, $2 the count of calls, $3 the seed, $4 how many times a run makes them
measure() {
    "$work/make_calls" "$2" "$3" > "$work/calls"
    : > "$work/runs"
    for _ in $(seq "$rounds"); do
        for times in 0 "$4"; do
            run peer "$times" "$work/calls"
            run ours "$times" "$work/calls"
        done
    done
    awk -v label="$1" -v times="$4" '
        { used = ($3 + $4) * 1000 }
        !(($1, $2) in least) || used < least[$1, $2] { least[$1, $2] = used }
        $2 == 0 { next }
        !($1 in clock) || $5 / 1000 < clock[$1] { clock[$1] = $5 / 1000 }
        { nodes[$1] = $6; sum[$1] = $7 }
        END {
            if (nodes["ours"] != nodes["peer"] || sum["ours"] != sum["peer"]) {
                print label ": the two tables differ"
                exit 1
            }
            for (name in clock) each[name] = (least[name, times] - least[name, 0]) / times
            printf "%-28s %7d nodes   clock %6.1f / %6.1f = %.2f   processor %6.1f / %6.1f = %.2f\n", label, nodes["ours"],
                clock["ours"], clock["peer"], clock["ours"] / clock["peer"],
                each["ours"], each["peer"], each["ours"] / each["peer"]
        }' "$work/runs"
}

echo 'milliseconds: this pool / the peer in C = ratio'
measure 'a million calls' 1000000 1 5
measure '20,000 calls' 20000 2 200
