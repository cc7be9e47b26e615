#!/bin/sh
# Times `prv explore` beside z3 and cvc5, which are asked one query for an input on which the versions differ.
#
#   bench/explore/run.sh [SECONDS] [FOLDER]
#
# Each run has SECONDS (60 if not given). FOLDER holds more pairs, each in a folder of its own with old.mc and new.mc.
# A peer that isn't installed is left out. PRV=PATH names another program than the one that ./build made.
# It ends with 0 where no peer's answer contradicts the program's.
set -eu
here=$(cd "$(dirname "$0")" && pwd)
program=${PRV:-$(cd "$here/../.." && pwd)/out/prv}
[ -x "$program" ] || {
    echo 'no program is built: ./build proves it and builds it' >&2
    exit 1
}
PYTHONDONTWRITEBYTECODE=1 exec python3 "$here/compare.py" "$program" "${1:-60}" ${2:+"$2"}
