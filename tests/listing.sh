#!/usr/bin/env bash
# The listing program on stored inputs: what it writes is the stored output, byte for byte. `rt run` in crates/listing builds the program.
set -euo pipefail
cd "$(dirname "$0")/.."

program=crates/listing/out/listing
[ -x "$program" ] || { echo "tests/listing.sh: no $program; run rt run in crates/listing first" >&2; exit 1; }

count=0
for input in tests/listing/*.in; do
    "$program" <"$input" | cmp - "${input%.in}.out" || { echo "tests/listing.sh: wrong output for $input" >&2; exit 1; }
    count=$((count + 1))
done
echo "tests/listing.sh: $count inputs, each answered as stored"
