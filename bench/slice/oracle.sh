#!/bin/sh
# Takes random programs, asks the built program for a slice of each, and runs other inputs that meet its conditions.
#
#   bench/slice/oracle.sh [COUNT] [SEED]
#
# COUNT programs (2,000 if not given) are made from SEED (1). `./build` has to have built the program. It ends with 0
# where no slice was wrong.
set -eu
here=$(cd "$(dirname "$0")" && pwd)
program=${PRV:-$(cd "$here/../.." && pwd)/out/prv}
[ -x "$program" ] || {
    echo 'no program is built: ./build proves it and builds it' >&2
    exit 1
}
work=$(mktemp -d)
trap 'rm -rf "$work"' EXIT
python3 "$here/oracle.py" "$program" "${1:-2000}" "${2:-1}" "$work"
