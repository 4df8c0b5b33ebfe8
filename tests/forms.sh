#!/usr/bin/env bash
# The eight forms of docs/SCOPE.md, "Each place and its form", looked for in the source where docs/DECISIONS.md says they stand: a line for
# each, and status 1 where one is gone. Looked at are a file's tokens without comments and contracts, cut to the function or type that has the form.
set -euo pipefail
cd "$(dirname "$0")/.."
export LC_ALL=C

. tests/tokens.sh

# found: says so if, in the tokens read, a loop inside a loop is left by a break with a value or a label, under a test of the work numbers
found() {
    awk '
    {
        for (k = 1; k <= NF; k++) {
            if ($k ~ /^(while|for|loop|if|else|match)$/) {
                kind = $k
                asked = ""
            } else if ($k == "{") {
                opener[++depth] = kind
                condition[depth] = asked
                kind = ""
            } else if ($k == "}") depth--
            else if (kind == "if" || kind == "match") asked = asked " " $k " "
            else if ($k == "break" && $(k + 1) !~ /^[;},]$/) {
                loops = guarded = 0
                for (d = depth; d > 0; d--) {
                    if (opener[d] ~ /^(while|for|loop)$/) loops++
                    if (!loops && opener[d] ~ /^(if|match)$/ && condition[d] ~ / work /) guarded = 1
                }
                if (loops > 1 && guarded) print "found"
            }
        }
    }'
}

missing=()
gone=0

# want WHAT TEXT PATTERN, none WHAT TEXT PATTERN: the text has, or hasn't, what the pattern says; else WHAT is kept for the form's line
want() {
    grep -Eq -- "$3" <<<" $2" || missing+=("$1")
}

none() {
    ! grep -Eq -- "$3" <<<" $2" || missing+=("$1")
}

# form PLACE FORM: ends the form whose parts were looked for since the last one
form() {
    if [ ${#missing[@]} = 0 ]; then
        echo "tests/forms.sh: $1: $2"
    else
        printf 'tests/forms.sh: gone from %s: %s; not found: %s' "$1" "$2" "${missing[0]}" >&2
        [ ${#missing[@]} = 1 ] || printf ', %s' "${missing[@]:1}" >&2
        echo >&2
        gone=$((gone + 1))
    fi
    missing=()
}

# "kind outside 1..9, or an unused operand not 0"
kinds=$(tokens crates/progress/src/lib.rt | block 'fn judge (' | block 'match kind {')
want 'match kind' "$kinds" '^ match kind \{'
want 'a range for the refused kinds' "$kinds" ' 10 \.\.(= u32 :: MAX)? ([|] [0-9]+ )*=> '
want 'one arm for 4 to 6' "$kinds" ' [{,}] (4 [|] 5 [|] 6|4 \.\.= 6) => '
form 'judge in crates/progress' 'a match over the kinds of records'

# "a step takes it and gives it back"
state=$(tokens crates/state/src/lib.rt)
methods=$(block 'impl State {' <<<"$state")
gives='(State|Self) \{.* (self \}|\( self \))|Result < State , Fault > \{.* Ok \( self \)'
for name in open subtract divide close; do
    method=$(block "fn $name (" <<<"$methods")
    want "$name with mut self" "$method" "^ fn $name \( mut self [,)]"
    want "the state that $name gives back" "$method" "\) -> ($gives) "
    want "$name in step" "$(block 'fn step (' <<<"$state")" " \. $name \("
done
form 'State in crates/state' 'methods with mut self for open, subtract, divide and close'

# "Each product, difference and quotient is rounded once"
arith=$(tokens crates/arith/src/lib.rt)
want 'a zero made +0' "$(block 'fn read (' <<<"$arith")" ' \{ value \+ 0\.0 \}'
want 'a product read' "$(block 'fn product (' <<<"$arith")" ' read \( a \* b \) '
want 'a difference read' "$(block 'fn difference (' <<<"$arith")" ' (a \+ read \( - b \)|read \( a - b \)) '
want 'a quotient read' "$(block 'fn quotient (' <<<"$arith")" ' read \( a / b \) '
want 'a difference with a rounded product' "$(block 'fn less (' <<<"$arith")" ' let product = a \* b ; .* acc - product .* acc \+ read \( - product \) '
none 'two roundings for two operations' "$arith" ' (mul_add|f32) '
lent=$(tokens tests/src/lent.rs)
runs=$(tokens tests/tests/run.rs)
want 'the bits of a value in tests/src/lent.rs' "$(block 'impl Entry for f64 {' <<<"$lent")" ' self \. to_bits \( \) '
want 'bits compared in tests/src/lent.rs' "$(block 'fn same <' <<<"$lent")" ' a \. bits \( \) == b \. bits \( \) '
want 'tables compared in tests/tests/run.rs' "$(block 'fn same (' <<<"$runs")" ' self \. c \. same \( .* self \. y \. same \( .* self \. x \. same \( '
want 'dense Crout in tests/tests/run.rs' "$(block 'fn by_dense_crout (' <<<"$runs")" ' dense \( '
want 'a run beside dense Crout in tests/tests/run.rs' "$(block 'fn compare_with_dense (' <<<"$runs")" \
    ' by_dense_crout \( .* assert ! \( tables \. same \( & expected_tables \) '
form 'crates/arith and the tests' 'f64 operations rounded once, zeros made +0, compared bit for bit'

# "the rest of the word slice, from the next free record on"
writer=$(tokens crates/writer/src/lib.rt)
for name in write_place write_forward write_backward; do
    want "a part lent to $name" "$writer" " fn $name \([^{]* : & mut \[ u32 \] [,)]"
    want "$name called with it" "$writer" " $name \([^;{]* & mut words \[ [a-z_]+ \.\. \] "
    none "$name called with nothing else" "$writer" " = $name \([^;{]* words [,)]"
done
form 'crates/writer' 'a &mut part from the middle, lent to the writer of one formula'

# "stops at the first h for which both places are held"
want 'a break with a value or a label from a loop in a loop' "$(tokens crates/slots/src/lib.rt | block 'fn fill_line (' | found)" '^ found'
form 'fill_line in crates/slots' 'a search nested over the places of a line and h, left by a break'

# "The runner's state is the open target, its running number and the counts"
fields=$(block 'struct State {' <<<"$state")
want 'the running number' "$fields" ' running : f64 ,'
want 'the table' "$fields" ' table : u32 ,'
want 'the target' "$fields" ' target : u32 ,'
for name in c y x; do
    want "the closed entries of $name" "$fields" " $name : (usize|u32) ,"
done
want 'the state by value' "$(block 'fn step (' <<<"$state")" '^ fn step \( [a-z]+ : State ,'
form 'State in crates/state' 'a struct with the f64 running number, the target and the closed counts, by value'

# "calls on numbers and byte slices: label of (N, i, j)"
capi=$(tokens crates/capi/src/lib.rt)
header=$(tokens include/crout.h)
called=$(tokens tests/c/calls.c)
sheet=$(tokens examples/sheet.c examples/plan_text.c)
rust=$(tokens tests/src/calls/labels.rs tests/src/calls/file.rs)
exported() {
    want "$1 exported" "$capi" " # \[ unsafe \( no_mangle \) \] pub extern \"C\" fn $1 \( $2 \{"
    want "$1 in the header" "$header" " $3 $1 \( $4 \) ;"
    want "$1 in tests/c/calls.c" "$called" " $1 \( "
    want "$1 in the worked caller" "$sheet" " $1 \( "
    want "$1 in tests/src/calls" "$rust" " extern \"C\" \{ ([^{}]* )?pub fn $1 \( .* exported :: $1 \( "
    want "$1 in $5" "$(tokens "$5")" " $6 \( "
}
exported crout_label 'n : u32 , i : u32 , j : u32 \) -> u32' uint32_t 'uint32_t n , uint32_t i , uint32_t j' tests/tests/labels.rs label
exported crout_place 'n : u32 , label : u32 \) -> u32' uint32_t 'uint32_t n , uint32_t label' tests/tests/labels.rs place
exported crout_check 'file : & \[ u8 \] \) -> u64' uint64_t 'const uint8_t \* file , size_t file_len' tests/tests/file.rs check
form 'crates/capi, include/crout.h and its callers' 'exported extern "C" functions for label, place and file check'

# "One operation gives a number, an overflow or a zero divisor"; with A.5 a number with a product that vanished is a case of its own
want 'the cases' "$(block 'enum Operation {' <<<"$arith")" '^ enum Operation \{ Number \( f64 \) , Vanished \( f64 \) , Overflow , ZeroDivisor (, )?\} $'
for name in product difference quotient; do
    want "the answer of $name" "$(block "fn $name (" <<<"$arith")" "^ fn $name \( a : f64 , b : f64 \) -> Operation \{"
done
form 'Operation in crates/arith' 'an enum: the rounded f64, or one of two refusals'

[ "$gone" = 0 ] || exit 1
