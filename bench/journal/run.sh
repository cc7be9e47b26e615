#!/bin/bash
# Times the journal on a real file beside a C program that makes the same calls of the system, and beside SQLite.
#
#   bench/journal/run.sh [ROUNDS [APPENDS]]
#
# In a folder of its own under the temporary folder, which has to be on a disk, it compiles the peer and builds a
# scratch copy of the crates prv_io, prv_disk and prv_journal with a program over them, whose text is journal_main.rt.txt
# (`rt` proves it first, which takes some minutes). Then each of them in turn, ROUNDS times (5 if not given), appends
# APPENDS records of 100 bytes (200 if not given) to a new file, each lasting before the next; and each in turn
# loads, or reads, a file of 100 MB. It prints the least times and their ratios. Where `sqlite3` (Debian's package)
# isn't installed, its columns are left out.
set -eu
here=$(cd "$(dirname "$0")" && pwd)
repository=$(cd "$here/../.." && pwd)
rounds=${1:-5}
appends=${2:-200}
work=$(mktemp -d)
trap 'rm -rf "$work"' EXIT

gcc -O2 -o "$work/journal" "$here/journal.c"
bench=$work/copy/crates/journal_bench
mkdir -p "$bench/src" "$bench/proofs/append_all"
for crate in prv_io prv_disk prv_journal; do
    mkdir -p "$work/copy/crates/$crate"
    for part in src specs proofs; do
        cp -r "$repository/crates/$crate/$part" "$work/copy/crates/$crate/"
    done
done
cp "$here/journal_main.rt.txt" "$bench/src/main.rt"
cp "$here/invariants.antt.txt" "$bench/proofs/append_all/Invariants.antt"
{
    grep -E '^(prv_io|prv_disk|prv_journal):' "$repository/crates.txt"
    echo 'journal_bench: prv_journal prv_disk'
} > "$work/copy/crates.txt"
git -C "$work/copy" init -q
(cd "$bench" && echo '0 0' | rt run) > "$work/build.txt" 2>&1 || {
    cat "$work/build.txt"
    exit 1
}
program=$bench/out/journal_bench
cd "$work"

# $1 the mode of SQLite's own journal: the microseconds of the inserts, each a transaction of its own
sqlite() {
    local start
    rm -f rows.db*
    sqlite3 rows.db "PRAGMA journal_mode=$1; CREATE TABLE record(payload BLOB);" > pragma.txt
    {
        echo "PRAGMA synchronous=FULL;"
        for _ in $(seq "$appends"); do echo "INSERT INTO record VALUES(zeroblob(100));"; done
    } > inserts.sql
    start=$(date +%s%N)
    sqlite3 rows.db < inserts.sql
    echo $((($(date +%s%N) - start) / 1000))
}

# $1 a name, $2 microseconds
note() {
    echo "$1 $2" >> times
}

# the least time of each name, in $1 microseconds, and its ratio to that of the peer
show() {
    awk -v unit="$1" -v decimals="$2" '
        !($1 in least) { order[++names] = $1 }
        !($1 in least) || $2 < least[$1] { least[$1] = $2 }
        END {
            for (i = 1; i <= names; i++) {
                name = order[i]
                printf "  %-12s %10." decimals "f   %.2f\n", name, least[name] / unit, least[name] / least["peer"]
            }
        }' times
}

: > times
for _ in $(seq "$rounds"); do
    rm -f peer.bin journal.bin
    note peer "$(./journal append peer.bin "$appends" 100)"
    read -r _ _ done microseconds <<< "$(echo "$appends 100" | "$program")"
    [ "$done" = "$appends" ] && cmp peer.bin journal.bin
    note journal "$microseconds"
    if command -v sqlite3 > /dev/null; then
        note sqlite "$(sqlite DELETE)"
        note sqlite-wal "$(sqlite WAL)"
    fi
done
echo 'an append of 100 bytes, microseconds, and how many times the peer in C'
show "$appends" 0

# $1 how many records, $2 of how many bytes
load() {
    ./journal make journal.bin "$1" "$2" > made.txt
    sync journal.bin
    : > times
    : > used
    for _ in $(seq "$rounds"); do
        { time note peer "$(./journal read journal.bin)"; } 2>> used
        { time read -r found microseconds _ <<< "$(echo '0 0' | "$program")"; } 2>> used
        [ "$found" = "$1" ]
        note load "$microseconds"
    done
    echo "a load of $1 records of $2 bytes, milliseconds by the clock, and how many times the read in C"
    show 1000 1
    awk 'NR % 2 { print "peer", ($1 + $2) * 1e6; next } { print "load", ($1 + $2) * 1e6 }' used > times
    echo '  of the processor, whole runs'
    show 1000 1
}

TIMEFORMAT='%U %S'
load 952381 100
load 9995 10000
