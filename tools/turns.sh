#!/bin/sh
# Prints how many cycles an amendment takes by each of two archives, timed in turns in one run (tools/turns.c): the
# least, and the median of the ratio with its quartiles.
#
#   sh tools/turns.sh ARCHIVE ARCHIVE    static libraries as tests/archive.sh makes them, of one version
set -eu
[ $# = 2 ] || {
    echo "usage: sh tools/turns.sh ARCHIVE ARCHIVE" >&2
    exit 2
}
top=$(cd "$(dirname "$0")/.." && pwd)
held=$(mktemp -d)
trap 'rm -rf "$held"' EXIT
cc -shared -Wl,--whole-archive "$1" -Wl,--no-whole-archive -o "$held/first.so"
cc -shared -Wl,--whole-archive "$2" -Wl,--no-whole-archive -o "$held/second.so"
cc -O2 -I "$top/include" "$top/tools/turns.c" -o "$held/turns" -ldl
"$held/turns" "$held/first.so" "$held/second.so"
