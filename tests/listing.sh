#!/usr/bin/env bash
# The listing program: outputs worked out by hand, those of an independent program on many recordings, and input that arrives in pieces.
set -u
cd "$(dirname "${BASH_SOURCE[0]}")/.." || exit 1
work=$(mktemp -d) || exit 1
trap 'rm -rf "$work"' EXIT
ran=0
failed=0

# The program's lines for what comes on standard input are those of a file.
expect() { # NAME FILE [COMMAND..]
    local case=$1 wanted=$2 status
    shift 2
    [ $# -gt 0 ] || set -- ./hawserfen listing
    "$@" >"$work/got" 2>"$work/said"
    status=$?
    ran=$((ran + 1))
    if [ "$status" -ne 0 ] || [ -s "$work/said" ] || ! cmp -s "$work/got" "$wanted"; then
        failed=$((failed + 1))
        echo "listing: $case: wrong (status $status)"
        diff "$wanted" "$work/got" | head -n 6
        head -n 6 "$work/said"
    fi
}

# what is said while the program is proved and built is no complaint of the program
./hawserfen listing </dev/null >/dev/null || exit 1

python3 tests/listing_cases.py "$work" || exit 1
for file in "$work"/*.rec; do
    name=$(basename "$file" .rec)
    python3 tests/listing_second.py <"$file" >"$work/second" || exit 1
    expect "$name" "$work/second" <"$file"
    # what was worked out by hand
    if [ -e "tests/listing/$name.out" ]; then expect "$name, by hand" "tests/listing/$name.out" <"$file"; fi
done
expect 'the sample' samples/evening.out <samples/evening.rec
python3 samples/evening.py | cmp - samples/evening.rec || failed=$((failed + 1))

# a slow line, and pieces of odd sizes
slowly() { # NAME SIZE..
    name=$1
    shift
    python3 tests/listing_second.py <"$work/$name.rec" >"$work/second" || exit 1
    expect "$name, slowly" "$work/second" < <(python3 tests/slowly.py "$work/$name.rec" "$@")
}
slowly example 1
slowly joined 1 2 511 64 3
slowly limit_shortest_chunks 4097 1 8191
slowly limit_longest_chunks 32769
slowly one_byte_too_many 4096 1 4095
slowly odd_bytes 1
expect 'no input' tests/listing/none.out </dev/null

# a megabyte of stack is plenty
small_stack() { (ulimit -S -s 1024 && exec ./hawserfen listing); }
python3 tests/listing_second.py <"$work/limit_shortest_chunks.rec" >"$work/second" || exit 1
expect 'on a small stack' "$work/second" small_stack <"$work/limit_shortest_chunks.rec"

echo "listing: $ran cases, $failed failed"
[ "$failed" -eq 0 ]
