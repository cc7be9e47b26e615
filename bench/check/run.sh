#!/bin/bash
# Times the checker beside a checker in C, on logs that are made anew.
#
#   bench/check/run.sh [ROUNDS]
#
# In a folder of its own under the temporary folder it compiles the peer and the maker of logs, and builds a
# scratch copy of the crates prv_cnf and prv_check with a program over them, whose text is check_main.rt.txt
# (`rt` proves it first, which takes a few minutes; where PROGRAM names one that was built, it is taken). Then it
# runs both in turn, ROUNDS times (3 if not given), and prints the least processor times (user) of one check in
# microseconds and their ratios.
set -eu
here=$(cd "$(dirname "$0")" && pwd)
repository=$(cd "$here/../.." && pwd)
rounds=${1:-3}
work=$(mktemp -d)
trap 'rm -rf "$work"' EXIT

cc -O2 -o "$work/make_log" "$here/make_log.c"
cc -O2 -o "$work/check_log" "$here/check_log.c"
if [ -z "${PROGRAM:-}" ]; then
    mkdir -p "$work/copy/crates/check_bench/src"
    for crate in prv_cnf prv_check; do
        mkdir -p "$work/copy/crates/$crate"
        for part in src specs proofs; do
            cp -r "$repository/crates/$crate/$part" "$work/copy/crates/$crate/"
        done
    done
    cp "$here/check_main.rt.txt" "$work/copy/crates/check_bench/src/main.rt"
    {
        grep -E '^(prv_cnf|prv_check):' "$repository/crates.txt"
        echo 'check_bench: prv_check prv_cnf'
    } > "$work/copy/crates.txt"
    git -C "$work/copy" init -q
    (cd "$work/copy/crates/check_bench" && echo '1 1 1' | rt run) > "$work/build.txt" 2>&1 || {
        cat "$work/build.txt"
        exit 1
    }
    PROGRAM=$work/copy/crates/check_bench/out/check_bench
fi

# $1 who, $2 and $3 how many times each check is made: appends them with the processor's seconds of the run
TIMEFORMAT='%U'
run() {
    local used
    case $1 in
    ours)
        { echo -n "$(($2 + 1)) $(($3 + 1)) "; cat "$work/log"; } > "$work/input"
        used=$( { time "$PROGRAM" < "$work/input" > "$work/printed"; } 2>&1 )
        ;;
    peer) used=$( { time "$work/check_log" "$work/log" "$2" "$3" > "$work/printed"; } 2>&1 ) ;;
    esac
    echo "$1 $2 $3 $used" >> "$work/runs"
}

# $1 the log's name, $2 and $3 how many times a run makes each check, then the words of make_log. A run that only
# reads the log is taken off each.
measure() {
    local name=$1 times=$2 fresh=$3
    shift 3
    "$work/make_log" "$@" > "$work/log"
    : > "$work/runs"
    for _ in $(seq "$rounds"); do
        for who in ours peer; do
            run "$who" 0 0
            run "$who" "$times" 0
            run "$who" 0 "$fresh"
        done
    done
    awk -v name="$name" -v lines="$(head -1 "$work/log" | cut -d' ' -f3)" '
        { kind = $1 ($2 > 0 ? "check" : $3 > 0 ? "fresh" : "none"); times[kind] = $2 + $3 }
        !(kind in least) || $4 < least[kind] { least[kind] = $4 }
        function each(who, kind) { return 1000000 * (least[who kind] - least[who "none"]) / times[who kind] }
        END {
            printf "%-28s %6d lines   check %7d / %7d = %.2f   check_fresh %8d / %8d = %.2f\n", name, lines,
                each("ours", "check"), each("peer", "check"), each("ours", "check") / each("peer", "check"),
                each("ours", "fresh"), each("peer", "fresh"), each("ours", "fresh") / each("peer", "fresh")
        }' "$work/runs"
}

echo 'microseconds of the processor: this checker / the peer in C = ratio'
measure 'pigeonholes 7' 400 100 pigeons 7 60000
measure 'pigeonholes 8' 30 5 pigeons 8 60000
measure 'pigeonholes 9, 60,000 lines' 5 1 pigeons 9 60000
measure 'random 3-SAT, 150 variables' 400 200 random 150 660 1 60000
measure 'random 3-SAT, 150 variables' 300 100 random 150 660 2 60000
measure 'random 3-SAT, 200 variables' 60 10 random 200 900 1 60000
measure 'random 3-SAT, 200 variables' 60 10 random 200 900 2 60000
