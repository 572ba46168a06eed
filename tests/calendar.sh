#!/bin/sh
# The calendar: the words that the library takes for a day are those of the C library's calendar, over all 200 years, and its answers for pairs of days are those of the
# months between them.
# Builds tests/calendar.c with every warning an error and runs it. The static library is built first: tests/archive.sh.
set -eu
cd "$(dirname "$0")/.."
room=$(mktemp -d)
trap 'rm -rf "$room"' EXIT
cc -O2 -std=c99 -Wall -Wextra -Wpedantic -Werror -Iinclude tests/calendar.c crates/tranche_weights_c/out/libtranche_weights.a -o "$room/calendar"
"$room/calendar"
echo "days of the calendar and months between them: ok"
