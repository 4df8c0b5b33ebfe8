#!/usr/bin/env bash
# The examples and what the header itself defines, against crates/capi/out/libcapi.a, by gcc and g++. The first difference ends it
# with a message and status 1.
set -euo pipefail
cd "$(dirname "$0")/.."

library=crates/capi/out/libcapi.a
strict=(-O2 -Wall -Wextra -Werror -pedantic -Iinclude)
at=build/test

fail() {
    printf 'tests/examples.sh: %s\n' "$1" >&2
    exit 1
}

# same FILE STATUS COMMAND..: the command says what the file holds, on both outputs, and ends with this status
same() {
    local stored=$1 status=$2 ended=0
    shift 2
    "$@" >$at/said 2>&1 || ended=$?
    diff -u "$stored" $at/said || fail "'$*' doesn't say what $stored holds"
    [ "$ended" = "$status" ] || fail "'$*' ended with $ended and not with $status"
}

# says LINE STATUS COMMAND..: the same for one line
says() {
    printf '%s\n' "$1" >$at/line
    shift
    same $at/line "$@"
}

# broken MESSAGE TEXT: both programs report this of the text, and nothing else; the message begins with the line's number
broken() {
    printf '%b' "$2" >$at/broken.txt
    says "$at/broken.txt:$1" 1 $at/sheet $at/broken.txt $at/broken.crout
    says "$at/broken.txt:$1" 1 $at/spy $at/broken.txt
    [ ! -e $at/broken.crout ] || fail "a program was written for the broken text: $1"
}

for tool in gcc g++; do
    command -v $tool >/dev/null || fail "there is no $tool"
done
[ -e $library ] || fail "there is no $library: run rt lib in crates/capi"
rm -rf $at
mkdir -p $at

# the header
gcc -std=c99 "${strict[@]}" tests/c/texts.c -o $at/texts_c
g++ -std=c++11 "${strict[@]}" -x c++ tests/c/texts.c -o $at/texts_cpp
$at/texts_c
$at/texts_cpp

shared=(examples/basics.c examples/plan_text.c examples/plan.c examples/exact.c)
for name in sheet miss refine spy order site weather handbook; do
    gcc -std=c11 "${strict[@]}" examples/$name.c "${shared[@]}" $library -o $at/$name
done

# the program in the README
sed -n '/^```c$/,/^```$/p' README.md | sed '1d;$d' >$at/small.c
gcc -std=c99 "${strict[@]}" $at/small.c $library -o $at/small
says 'x = 1 2, 3 products' 0 $at/small

# sheet: the published systems, then plans that are refused and every ending of a set
same tests/examples/document002.out 0 $at/sheet examples/document002.txt $at/document002.crout
same tests/examples/heating.out 0 $at/sheet examples/heating.txt $at/heating.crout
same tests/examples/nearly_equal.out 0 $at/sheet examples/nearly_equal.txt $at/nearly_equal.crout
same tests/examples/looks_cut_off.out 0 $at/sheet examples/looks_cut_off.txt $at/looks_cut_off.crout
same tests/examples/endings.out 1 $at/sheet tests/examples/endings.txt $at/endings.crout
same tests/examples/missing.out 1 $at/sheet tests/examples/missing.txt $at/refused.crout
same tests/examples/twice.out 1 $at/sheet tests/examples/twice.txt $at/refused.crout
[ ! -e $at/refused.crout ] || fail "a program was written for a refused plan"

# a program file that doesn't keep what is written to it, and one that can't be written
same tests/examples/lost.out 1 $at/sheet examples/document002.txt /dev/null
$at/sheet examples/document002.txt /dev/full >$at/said 2>&1 && fail "a full disk went unnoticed"
grep -q '^/dev/full: ' $at/said || fail "a full disk wasn't reported"
$at/sheet examples/document002.txt $at/document002.crout >/dev/full 2>$at/said && fail "lost output went unnoticed"
says 'usage: sheet FILE.txt PROGRAM.crout' 2 $at/sheet examples/document002.txt

# site: both ways to solve it, and what is said of sweeps that don't settle
same tests/examples/site.out 0 $at/site
$at/site >/dev/full 2>$at/said && fail "site's lost output went unnoticed"
grep -q '^standard output: ' $at/said || fail "site's lost output wasn't reported"

# weather: the table of forty days, and what is said of the one that is refused
same tests/examples/weather.out 0 $at/weather
$at/weather >/dev/full 2>$at/said && fail "weather's lost output went unnoticed"
grep -q '^standard output: ' $at/said || fail "weather's lost output wasn't reported"

# handbook: the page of the documents
same docs/HANDBOOK.md 0 $at/handbook
$at/handbook >/dev/full 2>$at/said && fail "handbook's lost output went unnoticed"
grep -q '^standard output: ' $at/said || fail "handbook's lost output wasn't reported"

# what a picture's legend says of its path
path_legend() {
    $at/spy "$@" | sed -n '/>Why (/,/^<\/g>/s/^<text[^>]*>\(.*\)<\/text>$/\1/p'
}

# path ENTRIES FILE ROW COLUMN: spy draws this path of the place
path() {
    {
        echo "Why ($3, $4) is held: a path of $(wc -w <<<"$1") entries through places of the plan"
        xargs -n 16 <<<"$1"
    } >$at/legend
    same $at/legend 0 path_legend "${@:2}"
}

# spy: the stored pictures, paths, and a plan of the largest order
same docs/pictures/document002.svg 0 $at/spy examples/document002.txt
same docs/pictures/grid.svg 0 $at/spy examples/grid.txt
same docs/pictures/path.svg 0 $at/spy examples/grid.txt 13 12
same tests/examples/missing.svg 0 $at/spy tests/examples/missing.txt
path '13 7 1 2 3 4 5 6 12' examples/grid.txt 13 12
path '7 13' examples/grid.txt 7 13
path '3 1 3' tests/examples/missing.txt 3 3
path '6 2 4' tests/examples/missing.txt 6 4
not_held='  refusal 22, detail 0: the place is not held or lies outside the table, so no path leads from its row to its column: '
not_held+='ask for a place that has a slot'
says "$not_held" 1 $at/spy examples/grid.txt 1 36
says "$not_held" 1 $at/spy examples/grid.txt 0 0
says "$not_held" 1 $at/spy examples/grid.txt 4294967295 36
says "$not_held" 1 $at/spy tests/examples/missing.txt 2 2
usage='usage: spy FILE.txt [ROW COLUMN] > PICTURE.svg'
says "$usage" 2 $at/spy
says "$usage" 2 $at/spy examples/grid.txt 13
says "$usage" 2 $at/spy examples/grid.txt 13 12 11
for number in '' -1 +1 ' 1' 1x 0x1 1.0 4294967296 18446744073709551617; do
    says "$usage" 2 $at/spy examples/grid.txt 13 "$number"
    says "$usage" 2 $at/spy examples/grid.txt "$number" 12
done
$at/spy tests/examples/twice.txt >$at/said 2>&1 && fail "spy drew a plan with a place twice"
{
    echo 'order 600'
    for i in {2..600}; do echo "place $i $i  $i 1  1 $i"; done
    echo 'place 1 1'
} >$at/arrow.txt
[ "$($at/spy $at/arrow.txt | grep -c '<title>slot ')" = 360000 ] || fail "the arrow of order 600 isn't filled"
path '600 1 599' $at/arrow.txt 600 599
{
    echo 'order 600'
    for i in {1..599}; do echo "place $i $((i + 1))"; done
    echo 'place 600 1'
} >$at/longest.txt
path "600 $(echo {1..600})" $at/longest.txt 600 600

# order: a star, the grid drawn, several numbers of trials, and a plan that is refused
same tests/examples/star.out 0 $at/order examples/star.txt
$at/order examples/grid.txt >$at/ordered.txt
same docs/pictures/ordered.svg 0 $at/spy $at/ordered.txt

# what is said of a star's slots after the trials, and of its numbering
ordering() {
    $at/order examples/star.txt "$1" | sed -n -e 's/^# after *slots \([0-9]*\),.*/\1/p' -e 's/^# \([0-9 ]*\)$/\1/p'
}

# ordered TRIALS SLOTS NUMBERING: the star comes to this
ordered() {
    printf '%s\n' "$2" "$3" >$at/ordering
    same $at/ordering 0 ordering "$1"
}

ordered 0 64 '1 2 3 4 5 6 7 8'
ordered 1 52 '2 1 3 4 5 6 7 8'
ordered 2 42 '2 3 1 4 5 6 7 8'
ordered 6 22 '2 3 4 5 6 7 1 8'
ordered 7 22 '2 3 4 5 6 7 1 8'
printf 'order 1\nplace 1 1\n' >$at/single.txt
$at/order $at/single.txt 4294967295 >$at/said
grep -q 'otherwise: trials 0$' $at/said || fail "trials were made for order 1"
missing='  refusal 5, detail 2: a pivot is missing, so no coefficients can be solved: put the place (m, m) into the plan, '
missing+='m being the detail, or number the unknowns otherwise'
says "$missing" 1 $at/order tests/examples/missing.txt
usage='usage: order FILE.txt [TRIALS] > ORDERED.txt'
says "$usage" 2 $at/order
says "$usage" 2 $at/order examples/star.txt 1 2
says "$usage" 2 $at/order examples/star.txt -1
$at/order examples/star.txt >/dev/full 2>$at/said && fail "order's lost output went unnoticed"
grep -q '^standard output: ' $at/said || fail "order's lost output wasn't reported"

# miss: what solutions leave over, also where no double is as small or as large, a set that is refused, and a plan that is
same tests/examples/heating_miss.out 0 $at/miss examples/heating.txt
same tests/examples/extremes.out 0 $at/miss tests/examples/extremes.txt
$at/miss tests/examples/endings.txt >$at/said && fail "miss passed over a set that should have been solved"
says "$missing" 1 $at/miss tests/examples/missing.txt
says 'usage: miss FILE.txt' 2 $at/miss
$at/miss examples/heating.txt >/dev/full 2>$at/said && fail "miss's lost output went unnoticed"
grep -q '^standard output: ' $at/said || fail "miss's lost output wasn't reported"

# refine: the error before and after each step, and a plan that is refused
same tests/examples/refine.out 0 $at/refine examples/grid.txt
says "$missing" 1 $at/refine tests/examples/missing.txt
says 'usage: refine FILE.txt' 2 $at/refine
$at/refine examples/grid.txt >/dev/full 2>$at/said && fail "refine's lost output went unnoticed"
grep -q '^standard output: ' $at/said || fail "refine's lost output wasn't reported"

# bad lines
broken '1: the text ends without an order' '# nothing\n'
broken '1: the order is outside 1 to 600: give an order in that range' 'order 601\n'
broken '1: the order is outside 1 to 600: give an order in that range' 'order 0\n'
broken '1: a whole number is missing' 'order\n'
broken '1: not a whole number below 2^32: 4294967296' 'order 4294967296\n'
broken '1: not a whole number below 2^32: -1' 'order -1\n'
broken '1: the line should end before: 3' 'order 2 3\n'
broken '2: the order is given twice' 'order 2\norder 2\n'
broken '1: the order has to come first' 'place 1 1\n'
broken '1: the order has to come first' 'values some\n'
broken '3: a whole number is missing' 'order 2\n\nplace 1 1  2\n'
broken '2: the table of order 2 has no place (3, 1)' 'order 2\nplace 3 1\n'
broken '2: the table of order 2 has no label 5' 'order 2\nlabels 1 5\n'
broken '2: not order, place, labels, values, right, limit or expect: plase' 'order 2\nplase 1 1\n'
broken '2: not order, place, labels, values, right, limit or expect: 7' 'order 2\n7\n'
broken '2: a right side belongs to values, and there are none yet' 'order 2\nright\n'
broken '2: a limit belongs to values, and there are none yet' 'order 2\nlimit 1\n'
broken '2: a refusal is expected of values, and there are none yet' 'order 2\nexpect 17\n'
broken '2: the values have no name' 'order 1\nvalues # none\n'
broken '4: not a number: 1,5' 'order 1\nplace 1 1\nvalues some\n1,5\nright\n1\n'
broken '4: a number is missing' 'order 1\nplace 1 1\nvalues some\nlimit\n'
broken '4: not a number: 1e' 'order 1\nplace 1 1\nvalues some\nlimit 1e\n'
broken '5: the line should end before: 3' 'order 1\nplace 1 1\nvalues some\n2\nlimit 1e-9 3\n'
broken '4: more than 1 numbers, from here on: 3' 'order 1\nplace 1 1\nvalues some\n2 3\nright\n1\n'
broken '3: some has 0 coefficients, but the plan 1 places' 'order 1\nplace 1 1\nvalues some\nright\n1\n'
broken '3: the right side of some has 0 numbers, but the order is 1' 'order 1\nplace 1 1\nvalues some\n2\nvalues other\n'
broken '7: all places have to come before the first values' 'order 1\nplace 1 1\nvalues some\n2\nright\n1\nplace 1 1\n'
broken '6: not order, place, labels, values, right, limit or expect: 1' 'order 1\nplace 1 1\nvalues some\n2\nexpect 17\n1\n'
broken '2: a zero byte: this is no text' 'order 1\n\0place 1 1\n'
says 'examples/none.txt: No such file or directory' 1 $at/sheet examples/none.txt $at/none.crout

echo 'tests/examples.sh: passed'
