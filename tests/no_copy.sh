#!/usr/bin/env bash
# Document 02, A.3: no buffer stands between a file's bytes and its words. In the source of the file reader, of the check of a file and of the
# crates below these there is no array, neither a type [T; n] nor a value [v; n] or [v, w]: a line for each file, and status 1 at the first array.
# Comments and contracts are left out; the empty slice &[] and a byte string, which no code can write to, are let through. Other files can be named.
set -euo pipefail
shopt -s globstar
cd "$(dirname "$0")/.."
export LC_ALL=C
. tests/tokens.sh

# array: of the tokens read, those of the first array up to the semicolon or comma that tells it from a slice or an index
array() {
    awk '
    {
        for (k = 1; k <= NF; k++) {
            if ($k ~ /^[[({]$/) {
                opener[++depth] = $k
                start[depth] = k
            } else if ($k ~ /^[])}]$/) depth--
            else if ($k ~ /^[;,]$/ && opener[depth] == "[") {
                for (at = start[depth]; at <= k; at++) printf "%s ", $at
                exit
            }
        }
    }'
}

fail() {
    echo "tests/no_copy.sh: $1" >&2
    exit 1
}

# the search itself, tried on lines with an array and on lines with none
while read -r line; do
    [ -n "$(tokens <<<"$line" | array)" ] || fail "not found: $line"
done <<'END'
let mut four: [u8; 4] = four_at(bytes, at);
let mut four = [0; 4];
words[k] = word_of([bytes[at], bytes[at + 1], bytes[at + 2], bytes[at + 3]]);
fn take_words(bytes: &[u8], words: &mut [u32], four: &mut [u8; 4])
struct Buffer { bytes: [u8; 4096], filled: usize }
END
while read -r line; do
    [ -z "$(tokens <<<"$line" | array)" ] || fail "found: $line"
done <<'END'
fn take_words(bytes: &[u8], words: &mut [u32]) { words[k] = word_of(bytes[at], bytes[at + 1]); }
check_records(&Filed { bytes }, 0)
step(z, kind, p, q, a, &[], limit, c, &mut [], &mut [])
let a = bytes[i.min(j)]; read_file(&bytes[..written as usize], again)
#[unsafe(no_mangle)] // let mut four = [0; 4];
ensures { result ≡ fold [a, b] } { 0 }
END

[ $# -gt 0 ] || set -- crates/{codec,checker,progress,numbers,refusal}/src/**/*.rt
for file; do
    found=$(tokens "$file" | array)
    [ -z "$found" ] || fail "$file has an array: $found.."
    echo "tests/no_copy.sh: $file: no array"
done
