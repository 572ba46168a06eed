#!/bin/sh
# Builds the examples in C, tests/calls.c, tests/opened_calls.c and tests/null_lists.c, with every warning an error, and holds what they print to what is due. The
# programs and the static library are built first: rt run in crates/sheet_words and crates/tranche_report, or rt ci, and tests/archive.sh.
set -eu
cd "$(dirname "$0")/.."
room=$(mktemp -d)
trap 'rm -rf "$room"' EXIT
build="cc -O2 -Wall -Wextra -Wpedantic -Werror -Iinclude"
for name in print_lines amend_row; do
    $build -std=c99 "examples/$name.c" crates/tranche_weights_c/out/libtranche_weights.a -o "$room/$name"
done
for name in calls opened_calls; do
    $build -std=c11 -pthread "tests/$name.c" crates/tranche_weights_c/out/libtranche_weights.a -o "$room/$name"
done
$build -std=c99 tests/null_lists.c -o "$room/null_lists"
"$room/null_lists"
echo "null for lists of length 0: ok"
"$room/opened_calls"
echo "calls from C on opened pools: ok"

# One case of an example: tried NAME STATUS STANDARD-OUTPUT STANDARD-ERROR PROGRAM ARGUMENT.., standard output and error in printf's escapes
tried() {
    what=$1 due=$2 program=$5
    printf "$3" > "$room/due.out"
    printf "$4" > "$room/due.err"
    shift 5
    status=0
    "$room/$program" "$@" > "$room/out" 2> "$room/err" || status=$?
    if [ "$status" != "$due" ] || ! cmp "$room/due.out" "$room/out" || ! cmp "$room/due.err" "$room/err"; then
        echo "$what: not what is due: status $status"
        cat "$room/out" "$room/err"
        exit 1
    fi
    echo "$what: ok"
}

# One case of the lines: held NAME FILE STATUS STANDARD-OUTPUT STANDARD-ERROR
held() {
    tried "$1" "$3" "$4" "$5" print_lines "$2"
}

examples="ordinary stc irba dated hundredths resecuritisation refused"
for name in $examples; do
    crates/sheet_words/out/sheet_words "examples/$name.txt" > "$room/$name"
done
cp crates/tranche_report/data/deal "$room/checked"
printf 'half' > "$room/half"
longest=$(($(echo TRANCHE_WEIGHTS_FILE_BYTES | cc -E -P -xc -Iinclude -include tranche_weights.h - | tail -n 1)))
dd if=/dev/zero of="$room/longest" bs="$longest" count=1 2> "$room/dd.log"
dd if=/dev/zero of="$room/longer" bs="$((longest + 1))" count=1 2>> "$room/dd.log"

held "01's checked deal" "$room/checked" 0 "tranche 1: SEC-ERBA from 20.0000%% to 100.0000%%, weight 20.00%%, risk-weighted amount 160, capital 13, least weight 20.00%%
tranche 2: SEC-ERBA from 5.0000%% to 20.0000%%, weight 263.50%%, risk-weighted amount 264, capital 22, least weight 263.50%%
tranche 3: SEC-SA from 0.0000%% to 5.0000%%, weight 1250.00%%, risk-weighted amount 625, capital 50, least weight 1250.00%%
pool charge 10.1000%%\n" ""
# In tranches 2 to 4 weight and least weight are this library's choice: the rules admit each of these weights or 0.01% more, with the amounts that follow from it, and
# each of these least weights or 0.01% less.
held "mixed pool" "$room/irba" 0 "tranche 1: SEC-IRBA from 11.1776%% to 100.0000%%, weight 15.00%%, risk-weighted amount 30000000, capital 2400000, least weight 15.00%%
tranche 2: SEC-IRBA from 11.1776%% to 100.0000%%, weight 35.66%%, risk-weighted amount 35660000, capital 2852800, least weight 35.65%%
tranche 3: SEC-IRBA from 6.1876%% to 11.1776%%, weight 708.73%%, risk-weighted amount 141746000, capital 11339680, least weight 708.72%%
tranche 4: SEC-IRBA from 2.1956%% to 6.1876%%, weight 1246.43%%, risk-weighted amount 124643000, capital 9971440, least weight 1246.42%%
tranche 5: SEC-IRBA from 0.1996%% to 2.1956%%, weight 1250.00%%, risk-weighted amount 125000000, capital 10000000, least weight 1250.00%%
pool charge 5.8160%%\n" ""
held "refused sheet" "$room/refused" 1 "$(crates/tranche_report/out/tranche_report "$room/refused")\n" ""
held "cut within a word" "$room/half" 1 "refused 15 at 0\n" ""
held "longest file" "$room/longest" 1 "refused 2 at 0\n" ""
held "file too long" "$room/longer" 1 "refused 15 at 0\n" ""
held "no such file" "$room/none" 2 "" "print_lines: $room/none can't be read\n"

# One case of an amended row of 01's checked deal: amended NAME STATUS STANDARD-OUTPUT STANDARD-ERROR WORD.., the words of the amendment
amended() {
    what=$1 due=$2 out=$3 err=$4
    shift 4
    tried "$what" "$due" "$out" "$err" amend_row "$room/checked" "$@"
}

# With the first row at 20% the base charge is 8% of 24%, 1.92%, and with 5% late the charge is 0.95 * 1.92% + 0.05 * 50% = 4.324%. The weight of tranche 3 is this
# library's choice, as above.
before="before: pool charge 10.1000%%
tranche 1: weight 20.00%%
tranche 2: weight 263.50%%
tranche 3: weight 1250.00%%"
amended "row at a lower risk weight" 0 "$before
after: pool charge 4.3240%%
tranche 1: weight 20.00%%
tranche 2: weight 263.50%%
tranche 3: weight 1237.46%%\n" "" 1 950 950 20 0
amended "late row that pays again" 0 "$before
after: pool charge 8.0000%%
tranche 1: weight 20.00%%
tranche 2: weight 263.50%%
tranche 3: weight 1250.00%%\n" "" 2 50 50 100 0
# At a nominal of 10000000050 both points of tranche 3 are 999999 millionths.
amended "row that leaves a tranche too thin" 1 "$before
after: pool charge 1.6002%%
tranches: refused 13 at 29\n" "" 1 10000000000 10000000000 20 0
amended "row that is not there" 1 "amendment: refused 2 at 0\n" "" 3 950 950 20 0
amended "row number above all words" 1 "amendment: refused 2 at 0\n" "" 18446744073709551617 950 950 20 0
amended "bad status" 1 "amendment: refused 7 at 4\n" "" 1 950 950 20 3
no_number="amend_row: a row's number and its words are whole numbers\n"
amended "negative number" 1 "" "$no_number" 1 950 950 -20 0
amended "empty word" 1 "" "$no_number" 1 950 950 20 ""
amended "number with a unit" 1 "" "$no_number" 1 950 950 20% 0
usage="amend_row: usage: amend_row FILE ROW EXPOSURE NOMINAL WEIGHT STATUS\n"
amended "word too few" 1 "" "$usage" 1 950 950 20
amended "word too many" 1 "" "$usage" 1 950 950 20 0 0
if "$room/amend_row" "$room/checked" 1 950 950 20 0 > /dev/full 2> "$room/err"; then
    echo "full disk: not what is due: status 0"
    exit 1
fi
echo "amend_row: the output can't be written" | cmp - "$room/err"
echo "full disk: ok"
tried "amendment of a refused sheet" 1 "sheet: $(crates/tranche_report/out/tranche_report "$room/refused")\n" "" amend_row "$room/refused" 1 950 950 20 0
cat "$room/checked" "$room/longest" > "$room/words_follow"
tried "amendment of a file too long" 1 "sheet: refused 3 at 36\n" "" amend_row "$room/words_follow" 1 950 950 20 0
for name in none half longer .; do
    tried "amendment of a file that can't be read, $name" 1 "" "amend_row: the file can't be read, or ends within a word\n" amend_row "$room/$name" 1 950 950 20 0
done

# The report by way of C is that of the program.
for name in $examples checked half longest longer; do
    "$room/calls" "$room/$name" > "$room/out"
    crates/tranche_report/out/tranche_report "$room/$name" > "$room/due.out"
    cmp "$room/due.out" "$room/out"
    [ -s "$room/out" ]
    echo "calls from C, $name: ok"
done
