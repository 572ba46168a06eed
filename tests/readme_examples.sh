#!/bin/sh
# The README's examples: the C program is taken out of it, built and run, the Rust program is the file that it names, and what they, the programs of the report and
# of the totals and the C example print stands in it, line for line; the report on the converted sheet is that on the sheet. The programs and the static library are built first:
# rt run in the folders of the four crates, or rt ci, and tests/archive.sh.
set -eu
cd "$(dirname "$0")/.."
room=$(mktemp -d)
trap 'rm -rf "$room"' EXIT
build="cc -std=c99 -Wall -Wextra -Wpedantic -Werror -Iinclude"
archive=crates/tranche_weights_c/out/libtranche_weights.a

# The README's block of a language: block LANGUAGE
block() {
    sed -n "/^\`\`\`$1\$/,/^\`\`\`\$/p" README.md | sed '1d;$d'
}

# A file's lines are a block of the README, indented, with nothing before or after them: stands NAME FILE
stands() {
    awk -v name="$1" '
        NR == FNR { due[++lines] = "    " $0; next }
        { indented = substr($0, 1, 4) == "    " }
        indented && !inside { inside = 1; at = 0; same = 1 }
        indented { at++; if ($0 != due[at]) same = 0 }
        !indented && inside { inside = 0; if (same && at == lines) found = 1 }
        END { if (!found || lines == 0) { print name ": not what stands in the README"; exit 1 } print name ": ok" }' "$2" README.md
}

crates/sheet_words/out/sheet_words examples/ordinary.txt > "$room/deal"
crates/tranche_report/out/tranche_report "$room/deal" > "$room/out"
stands "report on examples/ordinary.txt" "$room/out"
crates/portfolio_totals/out/portfolio_totals "$room/deal" > "$room/out"
stands "totals of examples/ordinary.txt" "$room/out"
crates/convert_sheet/out/convert_sheet "$room/deal" > "$room/converted"
crates/tranche_report/out/tranche_report "$room/converted" > "$room/out"
stands "report on examples/ordinary.txt in hundredths" "$room/out"

$build examples/print_lines.c "$archive" -o "$room/print_lines"
"$room/print_lines" "$room/deal" > "$room/out"
stands "lines of examples/ordinary.txt by C" "$room/out"

$build examples/amend_row.c "$archive" -o "$room/amend_row"
"$room/amend_row" "$room/deal" 5 10000000 10000000 100 0 > "$room/out"
stands "amended row of examples/ordinary.txt by C" "$room/out"

block c > "$room/small.c"
$build "$room/small.c" "$archive" -o "$room/small"
"$room/small" > "$room/out"
stands "C program of the README" "$room/out"

block rust | cmp - rust/tranche_weights/examples/deal.rs
cargo run --offline --release --quiet --manifest-path rust/Cargo.toml -p tranche_weights --example deal > "$room/out"
stands "Rust program of the README" "$room/out"
