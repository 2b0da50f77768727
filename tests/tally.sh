#!/usr/bin/env bash
# The tally over recordings: its numbers beside those that are known from the making and those of an independent program, several files in several orders,
# files that are not taken, and the limit of its numbers.
set -u
cd "$(dirname "${BASH_SOURCE[0]}")/.." || exit 1
here=$PWD
work=$(mktemp -d) || exit 1
trap 'rm -rf "$work"' EXIT
ran=0
failed=0
# the Python files of this folder that others import leave nothing behind in it
export PYTHONDONTWRITEBYTECODE=1

tally() { "$here/hawserfen" tally "$@"; }

# A command writes the lines of one file to standard output, and those of another to standard error.
expect() { # NAME OUTPUT COMPLAINTS COMMAND..
    local case=$1 wanted=$2 complaints=$3 status
    shift 3
    "$@" >"$work/got" 2>"$work/said"
    status=$?
    ran=$((ran + 1))
    if [ "$status" -ne 0 ] || ! cmp -s "$work/got" "$wanted" || ! cmp -s "$work/said" "$complaints"; then
        failed=$((failed + 1))
        echo "tally: $case: wrong (status $status)"
        diff "$wanted" "$work/got" | head -n 6
        diff "$complaints" "$work/said" | head -n 6 | cut -c 1-200
    fi
}

# The program says of these files what the second one says of them.
beside() { # NAME FILE..
    local case=$1
    shift
    python3 "$here/tests/tally_second.py" "$@" >"$work/answer" 2>"$work/complaints" || exit 1
    expect "$case" "$work/answer" "$work/complaints" tally "$@"
}

# what is said while the programs are proved and built is no complaint of theirs
for name in tally tally_limit; do
    ./hawserfen "$name" 2>"$work/said" >/dev/null || { cat "$work/said"; exit 1; }
done

python3 tests/tally_cases.py "$work" || exit 1
for file in "$work"/*.rec; do
    name=$(basename "$file" .rec)
    beside "$name" "$file"
    # what is known from the making
    if [ -e "${file%.rec}.out" ]; then expect "$name, as it was made" "${file%.rec}.out" /dev/null tally "$file"; fi
done

# the examples
mapfile -t example <crates/tally/args
expect 'the example' crates/tally/stdout /dev/null env -C crates/tally/data "$here/hawserfen" tally "${example[@]}"
cmp "$work/example_first.rec" crates/tally/data/first.rec || failed=$((failed + 1))
cmp "$work/example_second.rec" crates/tally/data/second.rec || failed=$((failed + 1))
beside 'the sample' samples/evening.rec

# the limit of the numbers
limit=crates/tally_limit/data/limit.rec
cmp "$work/example_limit.rec" "$limit" || failed=$((failed + 1))
python3 tests/tally_limit_second.py "$limit" >"$work/answer" || exit 1
expect 'at the limit' "$work/answer" /dev/null ./hawserfen tally_limit "$limit"
cmp "$work/answer" crates/tally_limit/stdout || failed=$((failed + 1))

# Several files at a time, in three orders: the same thirty numbers.
in_any_order() { # NAME FILE..
    local case=$1 first=$2 file
    local -a turned=()
    shift
    beside "$case" "$@"
    for file in "$@"; do turned=("$file" "${turned[@]}"); done
    expect "$case, the last first" "$work/answer" /dev/null tally "${turned[@]}"
    shift
    expect "$case, the first last" "$work/answer" /dev/null tally "$@" "$first"
}
mixtures=("$work"/mixture_*.rec)
for ((i = 0; i < ${#mixtures[@]}; i += 6)); do in_any_order "mixtures from $i" "${mixtures[@]:i:6}"; done
in_any_order 'all mixtures' "${mixtures[@]}"
in_any_order 'at the limit of a recording' "$work"/limit_*.rec "$work"/nothing.rec
awk '{ print 2 * $1 }' "$work/packets.out" >"$work/twice"
expect 'a file named twice' "$work/twice" /dev/null tally "$work/packets.rec" "$work/packets.rec"

# files that are not taken, alone and among others
printf '0\n%.0s' {1..30} >"$work/zeros"
expect 'no file' "$work/zeros" /dev/null tally
mkdir "$work/folder" "$work/listing"
python3 tests/listing_cases.py "$work/listing" || exit 1
bad=("$work"/listing/{odd,none,one_byte,one_byte_too_many,one_word_too_many,far_too_many}.rec "$work/nowhere" "$work/folder" '' /dev/zero)
bad+=("$work/"$'a\xffb' "$work/a name" "$(printf '%04095d' 1)" "$(printf '%04096d' 1)" "$(printf '%05000d' 1)")
between=()
for file in "${bad[@]}"; do
    beside "not taken: ${file:0:40}" "$file"
    cmp "$work/got" "$work/zeros" || failed=$((failed + 1))
    between+=("$file" "$work/packets.rec")
done
beside 'not taken, each before another' "${between[@]}"
awk -v n="${#bad[@]}" '{ print n * $1 }' "$work/packets.out" | cmp - "$work/got" || failed=$((failed + 1))
[ "$(wc -l <"$work/said")" -eq "${#bad[@]}" ] || failed=$((failed + 1))
beside 'a file that is not taken comes last' "$work/packets.rec" "$work/nowhere"
beside 'all that the listing is tried on' "$work"/listing/*.rec
echo 'tally: standard output cannot be written' >"$work/full"
into_full() { tally "$@" >/dev/full; }
expect 'no room for the output' /dev/null "$work/full" into_full "$work/packets.rec"
expect 'no room for the output, and no file' /dev/null "$work/full" into_full

# names are those of the caller's folder, and a file may come slowly, in pieces of odd sizes
expect 'from another folder' "$work/packets.out" /dev/null env -C "$work" "$here/hawserfen" tally packets.rec
expect 'slowly' "$work/twice" /dev/null tally <(python3 tests/slowly.py "$work/packets.rec" 1 2 511) <(python3 tests/slowly.py "$work/packets.rec" 1023 64)

# a megabyte of stack is plenty
small_stack() { (ulimit -S -s 1024 && tally "$@"); }
python3 tests/tally_second.py "$work"/limit_*.rec >"$work/answer" || exit 1
expect 'on a small stack' "$work/answer" /dev/null small_stack "$work"/limit_*.rec

echo "tally: $ran cases, $failed failed"
[ "$failed" -eq 0 ]
