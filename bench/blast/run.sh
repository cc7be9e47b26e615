#!/bin/bash
# Times the formulas of conditions beside a plain C program that writes as many clauses of the same lengths.
#
#   bench/blast/run.sh [ROUNDS]
#
# In a folder of its own under the temporary folder it compiles the peer, and builds a scratch copy of prv_blast and
# the crates below it with a program over them, whose text is blast_main.rt.txt and terms.rt.txt (`rt` proves it
# first, which takes some minutes; where PROGRAM names one that was built, it is taken). Then both make each formula in
# turn, ROUNDS times (3 if not given). It prints for each condition its clauses and variables, the least times of the
# processor in milliseconds and their ratios; and then for each operator on parameters the clauses and the variables of
# its circuit beside the most that it may have.
set -eu
here=$(cd "$(dirname "$0")" && pwd)
repository=$(cd "$here/../.." && pwd)
rounds=${1:-3}
below='prv_model prv_bits prv_cnf prv_gate prv_arith prv_pool prv_region prv_blast'
work=$(mktemp -d)
trap 'rm -rf "$work"' EXIT

gcc -O2 -o "$work/write_clauses" "$here/write_clauses.c"
if [ -z "${PROGRAM:-}" ]; then
    program_folder=$work/copy/crates/blast_bench
    mkdir -p "$program_folder/src"
    for crate in $below; do
        mkdir -p "$work/copy/crates/$crate"
        for part in src specs proofs; do
            cp -r "$repository/crates/$crate/$part" "$work/copy/crates/$crate/"
        done
    done
    cp "$here/blast_main.rt.txt" "$program_folder/src/main.rt"
    cp "$here/terms.rt.txt" "$program_folder/src/terms.rt"
    cp -r "$here/proofs" "$program_folder/"
    find "$program_folder/proofs" -name '*.antt.txt' | while read -r file; do mv "$file" "${file%.txt}"; done
    {
        for crate in $below; do grep "^$crate:" "$repository/crates.txt"; done
        echo 'blast_bench: prv_blast prv_region prv_pool prv_cnf prv_model'
    } > "$work/copy/crates.txt"
    git -C "$work/copy" init -q
    (cd "$program_folder" && echo 'eq 1 1' | rt run) > "$work/build.txt" 2>&1 || {
        cat "$work/build.txt"
        exit 1
    }
    PROGRAM=$program_folder/out/blast_bench
fi

# $1 who, $2 how many times, $3 a kind, $4 a count: appends who, how many times, and the processor's seconds (user,
# system) of the run, which makes the formula, or writes its clauses, so many times
TIMEFORMAT='%U %S'
run() {
    local used
    case $1 in
    ours) used=$( { time echo "$3 $4 $2" | "$PROGRAM" > "$work/printed"; } 2>&1 ) ;;
    peer) used=$( { time "$work/write_clauses" "$2" < "$work/formula" > "$work/printed"; } 2>&1 ) ;;
    esac
    echo "$1 $2 $used" >> "$work/runs"
}

# $1 a kind, $2 a count, $3 and $4 how many times ours and the peer make it in a run. A run that makes nothing is taken
# off each, so that what is left is the formula, or the clauses, alone.
measure() {
    echo "$1 $2 1" | "$PROGRAM" > "$work/formula"
    : > "$work/runs"
    for _ in $(seq "$rounds"); do
        run ours 0 "$1" "$2"
        run ours "$3" "$1" "$2"
        run peer 0 "$1" "$2"
        run peer "$4" "$1" "$2"
    done
    awk '
        NR == FNR { kind = $1; count = $2; variables = $4; clauses = $5; next }
        { user = $3; both = $3 + $4 }
        !(($1, $2 > 0) in least) || user < least[$1, $2 > 0] { least[$1, $2 > 0] = user }
        !(($1, $2 > 0) in whole) || both < whole[$1, $2 > 0] { whole[$1, $2 > 0] = both }
        $2 > 0 { times[$1] = $2 }
        END {
            for (who in times) {
                each[who] = 1000 * (least[who, 1] - least[who, 0]) / times[who]
                every[who] = 1000 * (whole[who, 1] - whole[who, 0]) / times[who]
            }
            printf "%-8s %5d %9d %9d   user %8.3f / %7.3f = %5.1f   user and system %8.3f / %7.3f = %5.1f\n", kind, count,
                clauses, variables, each["ours"], each["peer"], each["ours"] / each["peer"],
                every["ours"], every["peer"], every["ours"] / every["peer"]
        }' "$work/formula" "$work/runs"
}

echo 'condition        clauses variables   milliseconds of the processor: ours / clauses in C = ratio'
measure unequal 250 1000 50000
measure unequal 2000 100 5000
measure sums 125 50 1000
measure sums 1000 5 100
measure power 1 200 4000
measure power 15 20 400
measure power 100 3 60
measure power 149 2 40

echo
echo 'operator   clauses  limit   variables'
sed 's/$/ 1/' << 'OPERATORS' | "$PROGRAM" | awk '
    BEGIN {
        split("add 500 sub 500 mul 10000 div 24000 rem 24000 shl 700 shr 700 and 128 or 128 xor 128 lt 500 le 500 eq 256 ne 256 pick 256", words, " ")
        for (i = 1; i in words; i += 2) limit[words[i]] = words[i + 1]
    }
    { printf "%-8s %9d %6d %11d\n", $1, $5 - 1, limit[$1], $4 - ($1 == "pick" ? 96 : 64) }'
add 1
sub 1
mul 1
div 1
rem 1
shl 1
shr 1
and 1
or 1
xor 1
lt 1
le 1
eq 1
ne 1
pick 1
OPERATORS
