#!/bin/sh
# What one settlement costs as the board grows: explorations of one generated pair with more and more settlements.
#
#   bench/explore/flat.sh [ROUNDS]
#
# Each is run ROUNDS times (3 if not given), and the least processor time counts. PRV=PATH names another program than the
# one that ./build made.
set -eu
here=$(cd "$(dirname "$0")" && pwd)
program=${PRV:-$(cd "$here/../.." && pwd)/out/prv}
[ -x "$program" ] || {
    echo 'no program is built: ./build proves it and builds it' >&2
    exit 1
}
PYTHONDONTWRITEBYTECODE=1 exec python3 "$here/flat.py" "$program" "${1:-3}"
