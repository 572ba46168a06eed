#!/bin/sh
# Makes the static library, crates/tranche_weights_c/out/libtranche_weights.a, as `rt lib` in crates/tranche_weights_c does, which proves it first and gives it its crate's
# name. What `rt ci` leaves of the libraries below is cut to their statements: `rt lib` takes none of it and would prove each of them again. Over those the kit's own command is
# called, as `rt ci` calls it.
set -eu
cd "$(dirname "$0")/../crates/tranche_weights_c"
kit=$(dirname "$(rt doc)")
below=$(sed -n 's/^tranche_weights_c staticlib: *//p' ../../crates.txt)
[ -n "$below" ] || { echo "crates.txt has no line for the static library"; exit 1; }

# The libraries are all there, and none has the stamp of `rt lib`'s own work.
for name in $below; do
    if [ ! -d "../$name/out/rlib/$name.rlib" ] || [ -e "../$name/out/rlib/stamp" ]; then
        rt lib
        exec mv out/libtranche_weights_c.a out/libtranche_weights.a
    fi
done

set -- --crate-name tranche_weights_c src/lib.rt --crate-type staticlib --links tranche_weights_c=
set -- "$@" --extern "std=$kit/rlibs/std.rlib" -L "dependency=$kit/rlibs"
for name in $below; do
    set -- "$@" --extern "$name=../$name/out/rlib/$name.rlib"
done
for folder in ../*/out/rlib; do
    set -- "$@" -L "dependency=$folder"
done
mkdir -p out
exec "$kit/bin/rattle" build "$@" --antt-project "$kit/rattle/logic/antt-project.json" --logic-built "$kit/logic_built" --jobs 2 \
    --toolchain "$kit/toolchain" --backend llvm -o out/libtranche_weights.a
