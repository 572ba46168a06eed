#!/bin/sh
# No test: how the time of a large deal depends on where the linker puts the library's code. The archive is linked behind 64 bytes of nothing and 0, 16, 32 and 48 more, and each
# program is run. The static library is built first: tests/archive.sh. With a folder as its argument, that of another state of the repository is timed.
set -eu
here=$(cd "$(dirname "$0")" && pwd)
cd "${1:-$here/..}"
room=$(mktemp -d)
trap 'rm -rf "$room"' EXIT
for bytes in 0 16 32 48; do
    printf '.section .note.GNU-stack\n.text\n.p2align 6\n.skip 64 + %s\n' "$bytes" > "$room/before.s"
    cc -c "$room/before.s" -o "$room/before.o"
    cc -std=c99 -O2 -Wall -Wextra -Wpedantic -Werror -Iinclude "$here/placements.c" "$room/before.o" crates/tranche_weights_c/out/libtranche_weights.a -o "$room/placements"
    echo "$bytes bytes: $("$room/placements")"
done
