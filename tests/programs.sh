#!/bin/sh
# Runs tranche_report, portfolio_totals, convert_sheet and sheet_words as a desk does, and holds standard output, standard error and the exit status of each run to
# what is due. Prints a line for each case, and stops with 1 at the first difference. The programs are built first: rt run in the folder of each crate, or rt ci.
# An input that fails midway is made by tests/failing_input.c, which is built here, with every warning an error.
set -u

root=$(cd "$(dirname "$0")/.." && pwd) || exit 1
. "$root/tests/limits.sh"
room=$(mktemp -d) || exit 1
trap 'rm -rf "$room"' EXIT
cd "$room" || exit 1
bin=$room/bin
mkdir bin
for name in tranche_report portfolio_totals convert_sheet sheet_words; do
    cp "$root/crates/$name/out/$name" bin || exit 1
done

# One run: run PROGRAM ARGUMENT..
run() {
    program=$1
    shift
    "$bin/$program" "$@" > out 2> err
    echo "$?" > status
}

# One run with a standard input that brings a file's bytes and then fails: run_failing PROGRAM FILE
run_failing() {
    ./failing_input "$2" "$bin/$1" - > out 2> err
    echo "$?" > status
}

# One run with a standard output that takes nothing: run_full PROGRAM FILE
run_full() {
    "$bin/$1" "$2" > /dev/full 2> err
    echo "$?" > status
    : > out
}

# One run with a standard output that is closed: run_closed PROGRAM FILE
run_closed() {
    "$bin/$1" "$2" >&- 2> err
    echo "$?" > status
    : > out
}

# What the next cases have to write, in printf's escapes: due STANDARD-OUTPUT STANDARD-ERROR
due() {
    printf "$1" > due.out
    printf "$2" > due.err
    echo 0 > due.status
}

# What the next cases have to write of a sheet that is refused, a text on standard output, or on standard error where that takes a sheet: due_refused PROGRAM NUMBER PLACE
due_refused() {
    case $1 in
    convert_sheet) due '' "refused $2 at $3\n" ;;
    *) due "refused $2 at $3\n" '' ;;
    esac
}

# What the next cases have to write, the bytes of a file: due_file FILE
due_file() {
    due '' ''
    cp "$1" due.out
}

# Holds the last run to what is due: held NAME-OF-THE-CASE
held() {
    for part in status err out; do
        if ! cmp -s "due.$part" "$part"; then
            echo "$1: $part is not what is due"
            echo "due:"
            od -c "due.$part"
            echo "was:"
            od -c "$part"
            exit 1
        fi
    done
    echo "$1: ok"
}

# Holds a program that reads a sheet's file to what is due on the checked deal, given in four ways: held_checked_deal PROGRAM
held_checked_deal() {
    run "$1" deal
    held "$1: the checked deal"
    run "$1" - < deal
    held "$1: the checked deal as standard input"
    (dd bs=1 count=101 2> dd.log; sleep 1; cat) < deal | run "$1" -
    held "$1: the checked deal from a slow pipe"
    "$bin/sheet_words" deal.txt | run "$1" -
    held "$1: the checked deal from sheet_words"
}

# So many bytes, all the same: bytes NUMBER CHARACTER
bytes() {
    dd if=/dev/zero bs="$1" count=1 2> dd.log | tr '\000' "$2"
}

# So many lines, all the same: lines NUMBER LINE
lines() {
    awk -v n="$1" -v line="$2" 'BEGIN { for (i = 0; i < n; i++) print line }'
}

cp "$root/crates/tranche_report/data/deal" deal
cp "$root/crates/sheet_words/data/deal" deal.txt
mkdir folder
cc -O2 -std=c11 -Wall -Wextra -Wpedantic -Werror "$root/tests/failing_input.c" -o failing_input || exit 1

# ---- that all programs read by the same code

for name in portfolio_totals convert_sheet sheet_words checked_examples; do
    cmp "$root/crates/tranche_report/src/reading.rt" "$root/crates/$name/src/reading.rt" || exit 1
    echo "$name: reads as tranche_report does: ok"
done

# ---- what all programs say of their arguments and of a file that can't be read

for name in tranche_report portfolio_totals convert_sheet sheet_words; do
    due '' "usage: $name FILE (- for standard input)\n"
    run "$name"
    held "$name: no argument"
    run "$name" deal deal
    held "$name: two arguments"
    run "$name" ''
    held "$name: an empty argument"

    due '' 'the argument: File name too long\n'
    run "$name" "$(bytes 5000 a)"
    held "$name: an argument that is too long"

    due '' 'the argument: not UTF-8\n'
    run "$name" "$(printf 'a\377')"
    held "$name: an argument that is not UTF-8"

    due '' 'missing: No such file or directory\n'
    run "$name" missing
    held "$name: no such file"

    due '' 'folder: Is a directory\n'
    run "$name" folder
    held "$name: a directory"

    due '' 'standard input: Is a directory\n'
    run "$name" - < folder
    held "$name: a directory as standard input"

    due '' 'standard input: Bad file descriptor\n'
    run "$name" - <&-
    held "$name: no standard input"
done

due '' 'standard input: Input/output error\n'
run_failing tranche_report deal
held 'tranche_report: a standard input that fails after the checked deal'
run_failing portfolio_totals deal
held 'portfolio_totals: a standard input that fails after the checked deal'
run_failing convert_sheet deal
held 'convert_sheet: a standard input that fails after the checked deal'
run_failing sheet_words deal.txt
held 'sheet_words: a standard input that fails after the checked deal'

# ---- what the programs that read a sheet's file say of one that is refused, and of an output that takes nothing

for name in tranche_report portfolio_totals convert_sheet; do
    due_refused "$name" 1 0
    run "$name" /dev/null
    held "$name: an empty file"

    due_refused "$name" 15 0
    bytes 7 a > file
    run "$name" file
    held "$name: 7 bytes"
    bytes $((sheet_bytes_most + 1)) a > file
    run "$name" file
    held "$name: one byte more than a sheet has"
    bytes $((sheet_bytes_most + 8)) a > file
    run "$name" file
    held "$name: one word more than a sheet has"
    bytes 1000000 a | run "$name" -
    held "$name: a long file from a pipe"

    due_refused "$name" 2 0
    dd if=/dev/zero of=file bs=$sheet_bytes_most count=1 2> dd.log
    run "$name" file
    held "$name: as many bytes as a sheet has"

    due_refused "$name" 3 36
    bytes 8 a | cat deal - > file
    run "$name" file
    held "$name: a word after the checked deal"

    due_refused "$name" 8 48
    "$bin/sheet_words" "$root/examples/refused.txt" | run "$name" -
    held "$name: the example of a refused deal"

    due '' "$name: standard output can't be written\n"
    run_full "$name" deal
    held "$name: standard output is full"
    run_closed "$name" deal
    held "$name: standard output is closed"
done

# ---- the report

due 'charge 101000 tranches 3\n1 1 200000 1000000 2000 160 13 2000\n2 1 50000 200000 26350 264 22 26350\n3 2 0 50000 125000 625 50 125000\ntotal 1049 85\n' ''
held_checked_deal tranche_report

# ---- the totals by portfolio

# One run on an ordinary deal of one tranche, whose rows, so many, come as text from standard input: run_totals NUMBER
run_totals() {
    { echo "4 0 0 1 1 $1"; cat; echo '1 80 1 60 80 1 0 0'; } | "$bin/sheet_words" - | run portfolio_totals -
}

# The seven sums of so many delinquent rows with the highest amounts and risk weight: highest ROWS
highest() {
    amounts=$(($1 * 10000000000))
    weighted=$((amounts * 125000))
    echo "$amounts $amounts $weighted $amounts $amounts $weighted $amounts"
}

sums='1000 1000 10000000 1000 1000 10000000 50'
due "0 1 2 $sums\ntotal $sums\n" ''
held_checked_deal portfolio_totals

sums='500000000 503000000 2995000000000 482000000 485000000 2815000000000 12500000'
due "0 1 6 $sums\ntotal $sums\n" ''
"$bin/sheet_words" "$root/examples/ordinary.txt" | run portfolio_totals -
held 'portfolio_totals: rows that pay, are delinquent and are not known'

sums='100000000 100000000 1610000000000 100000000 100000000 1610000000000 0'
due "0 1 4 $sums\ntotal $sums\n" ''
"$bin/sheet_words" "$root/examples/resecuritisation.txt" | run portfolio_totals -
held 'portfolio_totals: a re-securitisation'

sums='500000000 501000000 3875000000000 470000000 471000000 3650000000000 11000000'
due "0 1 5 $sums\ntotal $sums\n" ''
"$bin/sheet_words" "$root/examples/irba.txt" | run portfolio_totals -
held 'portfolio_totals: a mixed pool'

sums='500000000 500500000 2696250000000 500000000 500500000 2696250000000 10500000'
due "0 1 5 $sums\ntotal $sums\n" ''
"$bin/sheet_words" "$root/examples/hundredths.txt" | run portfolio_totals -
held 'portfolio_totals: risk weights in hundredths of a percent'

# A tranche with both points at 100000, above the charge of 80000: the formula has no weight for it, and the pool has its sums.
echo '4 0 0 1 1 1 6000000 10000000 100 0 3 8999991 1 60 0 1 0 0 5 2 60 5 0 0 0 1000004 3 60 0 0 0 0' > text
"$bin/sheet_words" text > file
due 'refused 13 at 18\n' ''
run tranche_report file
held 'tranche_report: a tranche too thin for the formula'
sums='6000000 10000000 60000000000 6000000 10000000 60000000000 0'
due "0 1 1 $sums\ntotal $sums\n" ''
run portfolio_totals file
held 'portfolio_totals: a tranche too thin for the formula'

block='5000 6000 25000000 5000 6000 25000000 120'
due "0 1 50 $block\ntotal $block\n" ''
{ echo '100 120 50 1'; lines 49 '100 120 50 0'; } > rows
run_totals 50 < rows
held 'portfolio_totals: one whole block'
due "0 1 50 $block\n1 51 51 7 8 21000 0 0 0 0\ntotal 5007 6008 25021000 5000 6000 25000000 120\n" ''
echo '7 8 30 2' | cat rows - | run_totals 51
held 'portfolio_totals: one row more'

text=
first=1
while [ $first -le $rows_most ]; do
    text="$text$((first / block_rows)) $first $((first + block_rows - 1)) $(highest $block_rows)\n"
    first=$((first + block_rows))
done
due "${text}total $(highest $rows_most)\n" ''
lines $rows_most '10000000000 10000000000 1250 1' | run_totals $rows_most
held 'portfolio_totals: as many rows as a pool has, with the highest sums'

# ---- a sheet in the other unit

# The file of a sheet, which comes as text from standard input: sheet FILE
sheet() {
    "$bin/sheet_words" - > "$1"
}

# Holds the converter to a sheet in whole percent, the same in hundredths and the same in whole percent with all facts, in both directions:
# held_both_ways NAME PERCENT HUNDREDTHS ALL-FACTS
held_both_ways() {
    due_file "$3"
    run convert_sheet "$2"
    held "convert_sheet: $1 to hundredths of a percent"
    run convert_sheet "$4"
    held "convert_sheet: $1 with all facts to hundredths of a percent"
    due_file "$4"
    run convert_sheet "$3"
    held "convert_sheet: $1 back to whole percent"
    "$bin/convert_sheet" "$2" | run convert_sheet -
    held "convert_sheet: $1 there and back in a pipe"
}

tranches='3 800 1 72 800 1 0 0 150 2 72 100 9 0 0 50 3 72 50 0 0 0'
echo "7 0 0 1 1 0 0 1 2 950 950 10000 0 50 50 10000 1 $tranches" | sheet hundredths
echo "7 0 0 1 1 0 0 0 2 950 950 100 0 50 50 100 1 $tranches" | sheet all_facts
due_file hundredths
held_checked_deal convert_sheet
held_both_ways 'the checked deal' deal hundredths all_facts

# The longest sheet: the most rows and tranches, and an IRB section. With all facts it has the most bytes of a sheet. What follows the count of its rows, with a risk
# weight: longest_sections RISK-WEIGHT
longest_sections() {
    lines $rows_most "10000000000 10000000000 $1 1"
    echo $tranches_most
    lines $tranches_most '312500000000 1 60 10000000 1 0 0'
    echo '1 58000 400000 24000 1 960000 6300'
}
{ echo "4 2 0 1 1 $rows_most"; longest_sections 1250; } | sheet percent
{ echo "7 2 0 1 1 0 0 1 $rows_most"; longest_sections 125000; } | sheet hundredths
{ echo "7 2 0 1 1 0 0 0 $rows_most"; longest_sections 1250; } | sheet all_facts
[ "$(wc -c < hundredths)" = $sheet_bytes_most ] || { echo 'the longest sheet has not the most bytes'; exit 1; }
held_both_ways 'the longest sheet' percent hundredths all_facts

# Every example in whole percent has the report and the totals that it has in hundredths and back in whole percent; from there it goes to the same hundredths.
for name in ordinary stc irba dated resecuritisation; do
    "$bin/sheet_words" "$root/examples/$name.txt" > percent
    "$bin/convert_sheet" percent > hundredths
    "$bin/convert_sheet" hundredths > all_facts
    cmp -s percent hundredths && { echo "the example $name was not converted"; exit 1; }
    due_file hundredths
    run convert_sheet all_facts
    held "convert_sheet: the example $name to hundredths, back and to hundredths again"
    for reading in tranche_report portfolio_totals; do
        "$bin/$reading" percent > read
        due_file read
        run $reading hundredths
        held "$reading: the example $name in hundredths of a percent"
        run $reading all_facts
        held "$reading: the example $name back in whole percent"
    done
done

due '' 'refused 19 at 11\n'
"$bin/sheet_words" "$root/examples/hundredths.txt" | run convert_sheet -
held 'convert_sheet: a risk weight of 37.5%'
due '' 'refused 19 at 15\n'
echo '7 0 0 1 1 0 0 1 3 1 1 100 0 1 1 101 0 1 1 199 0 1 1 1 60 1 1 0 0' | sheet file
run convert_sheet file
held 'convert_sheet: the first of two risk weights that are no whole percent'
due '' 'refused 3 at 29\n'
bytes 8 a >> file
run convert_sheet file
held 'convert_sheet: a word too many comes before a risk weight that is no whole percent'
due '' 'refused 6 at 8\n'
echo '4 0 0 1 1 1 1 1 1251 0' | sheet file
run convert_sheet file
held 'convert_sheet: the place of a refusal is that in the sheet as given'

echo '4 0 0 1 1 1 6000000 10000000 100 0 3 8999991 1 60 0 1 0 0 5 2 60 5 0 0 0 1000004 3 60 0 0 0 0' | sheet percent
echo '7 0 0 1 1 0 0 1 1 6000000 10000000 10000 0 3 8999991 1 60 0 1 0 0 5 2 60 5 0 0 0 1000004 3 60 0 0 0 0' | sheet hundredths
due_file hundredths
run convert_sheet percent
held 'convert_sheet: a tranche too thin for the formula'
due 'refused 13 at 21\n' ''
run tranche_report hundredths
held 'tranche_report: a tranche too thin for the formula, in hundredths of a percent'

# ---- sheets written by hand

due '' ''
cp deal due.out
run sheet_words deal.txt
held 'sheet_words: the checked deal'
run sheet_words - < deal.txt
held 'sheet_words: the checked deal as standard input'
(dd bs=1 count=250 2> dd.log; sleep 1; cat) < deal.txt | run sheet_words -
held 'sheet_words: the checked deal from a slow pipe'

due '' ''
run sheet_words /dev/null
held 'sheet_words: an empty text'
bytes 1048575 ' ' > text
run sheet_words text
held 'sheet_words: as many spaces as a text has'

due '' 'the text has more than 1048575 bytes\n'
bytes 1048576 ' ' > text
run sheet_words text
held 'sheet_words: a text that is too long'

due '\001\000\000\000\000\000\000\000\377\377\377\377\377\377\377\377\000\001\000\000\000\000\000\000' ''
printf '#\n1#2 x\n\t18446744073709551615\r\n000256' > text
run sheet_words text
held 'sheet_words: comments, white space and the largest word'

due '' 'line 7: 12x4 is not a decimal number\n'
printf '4\n0 0\n# 1x\n1\n1\n\n 2 12x4 5y\n' > text
run sheet_words text
held 'sheet_words: a token that is no number'

due '' 'line 1: -5 is not a decimal number\n'
printf '%s' '-5' > text
run sheet_words text
held 'sheet_words: a number with a sign'

due '' 'line 7: 99999999999999999999 is above 64 bits\n'
printf '\n\n\n\n\n\n99999999999999999999\n' > text
run sheet_words text
held 'sheet_words: a number above 64 bits'

due '' 'line 1: 18446744073709551616 is above 64 bits\n'
printf '18446744073709551616' > text
run sheet_words text
held 'sheet_words: the first number above 64 bits'

due '' "line 1: $(bytes 40 a) is not a decimal number\n"
bytes 40 a > text
run sheet_words text
held 'sheet_words: a token of 40 characters'

due '' "line 1: $(bytes 40 a)... is not a decimal number\n"
bytes 41 a > text
run sheet_words text
held 'sheet_words: a token of 41 characters'

due '' "line 1: $(bytes 40 9)... is above 64 bits\n"
bytes 1000 9 > text
run sheet_words text
held 'sheet_words: a number of 1000 digits'

due '' ''
dd if=/dev/zero of=due.out bs=$sheet_bytes_most count=1 2> dd.log
lines $sheet_words_most 0 > text
run sheet_words text
held 'sheet_words: as many words as a sheet has'

due '' "$((sheet_words_most + 1)) words, and a sheet has at most $sheet_words_most\n"
lines $((sheet_words_most + 1)) 0 > text
run sheet_words text
held 'sheet_words: one word more than a sheet has'

due '' "5000 words, and a sheet has at most $sheet_words_most\n"
lines 5000 0 > text
run sheet_words text
held 'sheet_words: 5000 words'

due '' "sheet_words: standard output can't be written\n"
run_full sheet_words deal.txt
held 'sheet_words: standard output is full'

# ---- both programs on the example with dates, and on the same deal in months
# Line 4 comes from the formula, and its weight is this library's choice: the rules admit one more as well.

due 'charge 75072 tranches 4
1 1 200000 1000000 3125 62500000 5000000 3125
2 1 200000 1000000 1500 7500000 600000 1500
3 1 80000 200000 12614 37842000 3027360 12613
4 2 0 80000 124753 499012000 39920960 124752
total 606854000 48548320\n' ''
run sheet_words "$root/examples/dated.txt"
cp out dated.sheet
run tranche_report dated.sheet
held 'tranche_report: the example with dates'
sed 's/^20260630 /0 /; s/ 20290715 / 37 /; s/ 20261231 / 7 /; s/ 20310731 / 62 /; s/ 20360630 / 120 /' "$root/examples/dated.txt" > text
run sheet_words text
cp out months.sheet
cmp -s dated.sheet months.sheet && { echo 'the example in months is the example with dates'; exit 1; }
run tranche_report months.sheet
held 'tranche_report: the same deal in months'

# ---- both programs on the example in hundredths of a percent
# Line 3 comes from the formula, and its weight is this library's choice: the rules admit one more as well, with the amounts and totals that follow from it.

due 'charge 52725 tranches 3
1 1 200799 1000000 5393 134825000 10786000 5393
2 1 80919 200799 25700 77100000 6168000 25699
3 2 999 80919 115058 460232000 36818560 115057
total 672157000 53772560\n' ''
"$bin/sheet_words" "$root/examples/hundredths.txt" | run tranche_report -
held 'tranche_report: the example in hundredths of a percent'

# ---- both programs on the example of a mixed pool, and on the same deal with ratings and statuses that play no part
# In lines 2 to 4 weight and least weight are this library's choice: the rules admit each of these weights or one more, with the amounts and totals that follow
# from it, and each of these least weights or one less.

due 'charge 58160 tranches 5
1 3 111776 1000000 1500 30000000 2400000 1500
2 3 111776 1000000 3566 35660000 2852800 3565
3 3 61876 111776 70873 141746000 11339680 70872
4 3 21956 61876 124643 124643000 9971440 124642
5 3 1996 21956 125000 125000000 10000000 125000
total 457049000 36563920\n' ''
run sheet_words "$root/examples/irba.txt"
cp out irba.sheet
run tranche_report irba.sheet
held 'tranche_report: the example of a mixed pool'
sed 's/^345000000 1 48 200000000 1 0 0/345000000 1 48 200000000 0 18 24/; s/^300000000 300000000  75 0/300000000 300000000  75 1/' "$root/examples/irba.txt" > text
run sheet_words text
cp out other.sheet
cmp -s irba.sheet other.sheet && { echo 'the example with other ratings and statuses is the example'; exit 1; }
run tranche_report other.sheet
held 'tranche_report: the same deal with other ratings and a larger row late'
