#!/bin/sh
# Prints how many instructions a call of `weigh` takes for three sheets: of 3 rows and 3 tranches without ratings and with three ratings to each, and of 1,000 rows and
# 32 tranches. They are counted by valgrind, which must be there, as the difference between 1,100 and 100 calls.
#
#   sh tools/instructions.sh [ARCHIVE]    ARCHIVE: a static library, else the one that tests/archive.sh makes
set -eu
top=$(cd "$(dirname "$0")/.." && pwd)
archive=${1:-$top/crates/tranche_weights_c/out/libtranche_weights.a}
held=$(mktemp -d)
trap 'rm -rf "$held"' EXIT
cc -O2 -I "$top/include" "$top/tools/instructions.c" "$archive" -o "$held/instructions"

count() {
    valgrind --tool=callgrind --callgrind-out-file=/dev/null "$held/instructions" "$1" "$2" 2>&1 | sed -n 's/.*Collected : //p'
}

for sheet in small rated large; do
    few=$(count $sheet 100)
    many=$(count $sheet 1100)
    echo "$sheet: $(((many - few) / 1000))"
done
