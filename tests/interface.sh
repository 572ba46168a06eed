#!/bin/sh
# The version of the interface: the archive has just the header's functions, by the header's version, and needs memcpy
# and memset alone, the header has the README's refusals and the Rust crate's sizes, and neither the C example nor the
# Rust crate links with an archive of another version. Such an archive is made of the real one by renaming. Last, the
# header alone, and the Rust crate with no archive. The static library is built first: tests/archive.sh.
set -eu
cd "$(dirname "$0")/.."
room=$(mktemp -d)
trap 'rm -rf "$room"' EXIT
archive=crates/tranche_weights_c/out/libtranche_weights.a
version=$(sed -n 's/^#define TRANCHE_WEIGHTS_INTERFACE \([0-9]*\)$/\1/p' include/tranche_weights.h)
[ -n "$version" ] || { echo "the header has no version"; exit 1; }
names=$(sed -n "s/^uint64_t \(tranche_weights_[a-z_]*\)_v$version(.*/\1/p" include/tranche_weights.h)

# What the archive exports is what the header declares: a function for each name, and nothing else.
nm -g --defined-only "$archive" | awk 'NF == 3 { print $3 }' | sort > "$room/exported"
for name in $names; do
    echo "${name}_v$version"
done | sort > "$room/declared"
[ -s "$room/declared" ]
cmp "$room/declared" "$room/exported"
echo "functions of the archive: ok"

# What the archive needs from outside is what the header says.
nm -u "$archive" | awk 'NF == 2 { print $2 }' | sort > "$room/needed"
printf 'memcpy\nmemset\n' | cmp - "$room/needed"
echo "what the archive needs: ok"

# The header has a name for each refusal that the README lists, and for no other number but 0.
sed -n '/TRANCHE_WEIGHTS_ACCEPTED = 0/,/^}/s/.* = \([0-9]*\).*/\1/p' include/tranche_weights.h > "$room/named"
{ echo 0; sed -n '/^## Refusals/,/^## From C/s/^| \([0-9]*\) |.*/\1/p' README.md; } | cmp - "$room/named"
echo "refusals of the header: ok"

# The header's sizes are the Rust crate's: each name that the header defines with a value, but the version, is a constant of the crate with the same value. One of them
# has another name there. The preprocessor makes sums and products of the header's names, which the shell works out; a Rust program prints the constants.
sizes=$(sed -n 's/^#define TRANCHE_WEIGHTS_\([A-Z_]*\) .*/\1/p' include/tranche_weights.h | grep -v '^INTERFACE$')
for name in $sizes; do
    echo "$name $(($(echo "TRANCHE_WEIGHTS_$name" | cc -E -P -xc -Iinclude -include tranche_weights.h - | tail -n 1)))"
done > "$room/sizes"
mkdir -p "$room/sizes_in_rust/src"
cat > "$room/sizes_in_rust/Cargo.toml" << END
[package]
name = "sizes"
edition = "2021"
[dependencies]
tranche_weights = { path = "$PWD/rust/tranche_weights" }
END
{
    echo "use tranche_weights::{TEXT_ROOM as TEXT_BYTES, *};"
    echo "fn main() {"
    for name in $sizes; do
        echo "    println!(\"$name {}\", $name);"
    done
    echo "}"
} > "$room/sizes_in_rust/src/main.rs"
[ -s "$room/sizes" ]
CARGO_TARGET_DIR="$room/rust" cargo run --offline --quiet --manifest-path "$room/sizes_in_rust/Cargo.toml" | cmp "$room/sizes" -
echo "sizes of the header and of the Rust crate: ok"

# The archive of another version.
mkdir "$room/other"
other="$room/other/libtranche_weights.a"
next=$((version + 1))
objcopy $(for name in $names; do echo "--redefine-sym ${name}_v$version=${name}_v$next"; done) "$archive" "$other"

# A build that must fail because the linker misses a function of this version: must_not_link NAME COMMAND..
must_not_link() {
    name=$1
    shift
    if "$@" > "$room/log" 2>&1; then
        echo "$name: linked with an archive of version $next"
        exit 1
    fi
    if ! grep -q "undefined .*tranche_weights_[a-z_]*_v$version" "$room/log"; then
        echo "$name: not refused by the linker"
        cat "$room/log"
        exit 1
    fi
    echo "$name: ok"
}

must_not_link "C and another version" cc -std=c99 -Iinclude examples/print_lines.c "$other" -o "$room/print_lines"
must_not_link "Rust and another version" env TRANCHE_WEIGHTS_LIB="$room/other" CARGO_TARGET_DIR="$room/rust" \
    cargo build --offline --quiet --manifest-path rust/Cargo.toml -p tranche_weights --example deal

# The header stands alone, in C99 and in C++: the report on no file is "refused 1 at 0" and a newline.
cat > "$room/alone.c" << 'END'
#include "tranche_weights.h"
int main(void) { return tranche_weights_report(NULL, 0, NULL, 0) == sizeof "refused 1 at 0\n" - 1 ? 0 : 1; }
END
cp "$room/alone.c" "$room/alone.cc"
cc -std=c99 -Wall -Wextra -Wpedantic -Werror -Iinclude "$room/alone.c" "$archive" -o "$room/alone"
"$room/alone"
c++ -std=c++11 -Wall -Wextra -Wpedantic -Werror -Iinclude "$room/alone.cc" "$archive" -o "$room/alone_in_c++"
"$room/alone_in_c++"
echo "header alone, in C and in C++: ok"

# Without an archive a Rust program can be checked and documented.
for job in "check" "doc --no-deps"; do
    env TRANCHE_WEIGHTS_LIB="$room/none" CARGO_TARGET_DIR="$room/rust" cargo $job --offline --quiet --manifest-path rust/Cargo.toml -p tranche_weights
done
echo "Rust without an archive: ok"
