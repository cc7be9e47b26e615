#!/bin/bash
# Times `find` on a board whose one settlement has 1,024 literals, for an input that lies in the last of its 1,025 parts,
# beside one evaluation of the literals of the first part.
#
#   bench/board/run.sh [REPOSITORY]
#
# In a folder of its own under the temporary folder it makes a scratch copy of the crates that prv_board stands on, of
# this checkout or of another one, with a program over them, whose text is find_main.rt.txt. `rt try` builds it without
# a proof, and with the tests that a proof makes needless: both times have them. It prints the least microseconds of
# each, and their ratio.
set -eu
here=$(cd "$(dirname "$0")" && pwd)
repository=${1:-$(cd "$here/../.." && pwd)}
work=$(mktemp -d)
trap 'rm -rf "$work"' EXIT

crates='prv_model prv_pool prv_region prv_run prv_dep prv_sym prv_select prv_general prv_part prv_board'
mkdir -p "$work/copy/crates/find_bench/src"
for crate in $crates; do
    mkdir -p "$work/copy/crates/$crate"
    for part in src specs proofs; do
        cp -r "$repository/crates/$crate/$part" "$work/copy/crates/$crate/"
    done
done
cp "$here/find_main.rt.txt" "$work/copy/crates/find_bench/src/main.rt"
{
    for crate in $crates; do grep -E "^$crate:" "$repository/crates.txt"; done
    echo 'find_bench: prv_board prv_part prv_region prv_pool prv_model anyhow sqlite_items'
} > "$work/copy/crates.txt"
git -C "$work/copy" init -q
(cd "$work/copy/crates/find_bench" && rt try) > "$work/out.txt" 2>&1 || true
awk '$1 == "find" { printf "microseconds: find %d, one evaluation %d, ratio %.1f; entry %d\n", $2, $4, $2 / $4, $6; done = 1 }
    END { if (!done) exit 1 }' "$work/out.txt" || { tail -20 "$work/out.txt"; exit 1; }
