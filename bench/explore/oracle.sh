#!/bin/sh
# Explores pairs and checks each claim of the reports without the program: by z3 on a formula that another reader makes
# of the two texts, and by another interpreter on samples and on random inputs.
#
#   bench/explore/oracle.sh [COUNT] [SEED] [SECONDS] [FOLDER]
#
# The pairs are those of examples/, of pairs.txt, generated ones, those of FOLDER, and COUNT random ones (100 if not
# given) made from SEED (1). Each question to z3 has SECONDS (10). PRV=PATH names another program than the one that
# ./build made. It ends with 0 where nothing was wrong.
set -eu
here=$(cd "$(dirname "$0")" && pwd)
program=${PRV:-$(cd "$here/../.." && pwd)/out/prv}
[ -x "$program" ] || {
    echo 'no program is built: ./build proves it and builds it' >&2
    exit 1
}
command -v z3 >/dev/null || {
    echo 'z3 is not installed' >&2
    exit 1
}
PYTHONDONTWRITEBYTECODE=1 exec python3 "$here/oracle.py" "$program" "${1:-100}" "${2:-1}" "${3:-10}" ${4:+"$4"}
