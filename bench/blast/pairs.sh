#!/bin/sh
# Counts the clauses of the formulas that pairs of versions give, with and without shared gates and known bits.
#
#   bench/blast/pairs.sh [FOLDER [INPUTS [MOST [FORMULAS]]]]
#
# FOLDER has a folder with old.mc and new.mc for each pair (examples/ if not given), and INPUTS are tried of each
# pair (12 if not given), drawn from a fixed seed. For each pair it prints how many formulas there are, the sum of
# their clauses where gates are neither shared nor told what was asserted, where they are shared, and where both
# are done, which is what the crate does. With a folder FORMULAS it also writes the formulas of at most MOST
# clauses (4,000) into it in DIMACS form, of three inputs a pair, for bench/sat/run.sh.
#
# The program, whose text is dump_main.rt.txt, is run unproved by `rt try`, and so are the two plainer bodies, which
# are edits of a scratch copy: it counts, and times nothing. It takes some minutes.
set -eu
here=$(cd "$(dirname "$0")" && pwd)
repository=$(cd "$here/../.." && pwd)
folder=${1:-$repository/examples}
inputs=${2:-12}
most=${3:-4000}
formulas=${4:-}
below='prv_model prv_bits prv_cnf prv_lex prv_rule prv_parse prv_names prv_marks prv_run prv_dep prv_pool prv_region prv_sym prv_select prv_general prv_gate prv_arith prv_blast'
work=$(mktemp -d)
trap 'rm -rf "$work"' EXIT

mkdir -p "$work/both/crates/blast_dump/src"
for crate in $below; do
    mkdir -p "$work/both/crates/$crate"
    for part in src specs proofs; do
        if [ -d "$repository/crates/$crate/$part" ]; then
            cp -r "$repository/crates/$crate/$part" "$work/both/crates/$crate/"
        fi
    done
done
cp "$here/dump_main.rt.txt" "$work/both/crates/blast_dump/src/main.rt"
{
    for crate in $below; do grep "^$crate:" "$repository/crates.txt"; done
    echo "blast_dump: $below indexmap sqlite_items thiserror"
} > "$work/both/crates.txt"
git -C "$work/both" init -q
cp -r "$work/both" "$work/shared"
# gates are told nothing
python3 - "$work/shared/crates/prv_gate/src/builder.rt" << 'EDIT'
import sys
text = open(sys.argv[1]).read()
start = text.index("pub(crate) fn settle(")
body = text.index("\n    {\n", start) + 7
end = text.index("\n    }\n", body)
open(sys.argv[1], "w").write(text[:body] + "        Ok(())" + text[end:])
EDIT
cp -r "$work/shared" "$work/plain"
# and none is found again
sed -i 's/^        self\.gates\.get(&gate)\.copied()$/        if self.is_ended { self.gates.get(\&gate).copied() } else { None }/' \
    "$work/plain/crates/prv_gate/src/builder.rt"

# $1 which body, $2 its input
dump() {
    (cd "$work/$1/crates/blast_dump" && rt try --steps 100000000000 --seconds 600 < "$2")
}
python3 "$here/pairs.py" "$folder" count "$inputs" > "$work/input"
for body in both shared plain; do
    dump "$body" "$work/input" 2> "$work/errors" > "$work/counted.$body" || {
        cat "$work/errors"
        exit 1
    }
done
awk '
    FNR == 1 { body++ }
    $1 == "pair" { pair = $2 }
    $1 == "c" && $3 != "costs" { sum[body, pair] += $4; count[body, pair]++; names[pair] = 1 }
    END {
        for (name in names)
            printf "%-24s %5d formulas %9d plain %9d shared %9d both %6.2f\n", name, count[1, name], sum[3, name],
                sum[2, name], sum[1, name], sum[1, name] / sum[3, name]
    }' "$work/counted.both" "$work/counted.shared" "$work/counted.plain" | sort
if [ -n "$formulas" ]; then
    python3 "$here/choose.py" "$work/input" "$work/counted.both" "$most" 3 > "$work/chosen"
    dump both "$work/chosen" 2> "$work/errors" > "$work/dumped" || {
        cat "$work/errors"
        exit 1
    }
    python3 "$here/../sat/split.py" "$work/dumped" "$formulas"
fi
