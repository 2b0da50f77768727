#!/usr/bin/env bash
# The comparison of two recordings: its answers beside those of an independent program, both ways round, each recording beside itself, and files that cannot
# be compared.
set -u
cd "$(dirname "${BASH_SOURCE[0]}")/.." || exit 1
here=$PWD
work=$(mktemp -d) || exit 1
trap 'rm -rf "$work"' EXIT
ran=0
failed=0
# the Python files of this folder that others import leave nothing behind in it
export PYTHONDONTWRITEBYTECODE=1

compare() { "$here/hawserfen" compare "$@"; }

# The lines of a command are those of a file; where there are none, the program says in one line what is wrong, and else it says nothing.
expect() { # NAME FILE COMMAND..
    local case=$1 wanted=$2 status complaints=0
    shift 2
    "$@" >"$work/got" 2>"$work/said"
    status=$?
    ran=$((ran + 1))
    [ -s "$work/got" ] || complaints=1
    if [ "$status" -ne 0 ] || ! cmp -s "$work/got" "$wanted" || [ "$(wc -l <"$work/said")" -ne "$complaints" ] || grep -qv '^compare: ' "$work/said"; then
        failed=$((failed + 1))
        echo "compare: $case: wrong (status $status)"
        diff "$wanted" "$work/got" | head -n 6
        head -n 6 "$work/said"
    fi
}

# what is said while the program is proved and built is no complaint of the program
./hawserfen compare 2>"$work/said" >/dev/null || { cat "$work/said"; exit 1; }

example=(crates/compare/data/first.rec crates/compare/data/second.rec)
expect 'the example' crates/compare/stdout compare "${example[@]}"
python3 tests/compare_second.py "${example[@]}" | cmp - crates/compare/stdout || failed=$((failed + 1))

python3 tests/compare_cases.py "$work" || exit 1
for first in "$work"/*.first; do
    second=${first%.first}.second
    name=$(basename "$first" .first)
    python3 tests/compare_second.py "$first" "$second" >"$work/answer" 2>"$work/said" || exit 1
    expect "$name" "$work/answer" compare "$first" "$second"
    # the other order exchanges the leftovers and nothing else
    awk '$1 == "left" { print $1, $3, $2; next } 1' "$work/got" >"$work/wanted"
    awk '$1 == "pair" { pairs++ } $1 == "left" { for (k = 1; k <= pairs + $2; k++) print "pair", k, "same"; print "left 0 0" }' "$work/got" >"$work/alone"
    expect "$name, the other way round" "$work/wanted" compare "$second" "$first"
    # beside itself a recording has all its chunks in pairs
    if [ -s "$work/alone" ]; then expect "$name, the first beside itself" "$work/alone" compare "$first" "$first"; fi
done

# what cannot be compared
good=$work/nothing.first
expect 'no file' /dev/null compare
expect 'one file' /dev/null compare "$good"
expect 'three files' /dev/null compare "$good" "$good" "$good"
expect 'no such first file' /dev/null compare "$work/nowhere" "$good"
expect 'no such second file' /dev/null compare "$good" "$work/nowhere"
expect 'a name with nothing in it' /dev/null compare '' "$good"
expect 'a name that is too long' /dev/null compare "$(printf '%05000d' 1)" "$good"
expect 'a folder first' /dev/null compare "$work" "$good"
expect 'a folder second' /dev/null compare "$good" "$work"
expect 'a refused file beside none' /dev/null compare "$work/bad_odd.second" "$work/nowhere"
into_full() { compare "$@" >/dev/full; }
expect 'no room for the output' /dev/null into_full "$good" "$good"

# names are those of the caller's folder, and a file may come slowly, in pieces of odd sizes
elsewhere() { (cd "$work" && compare "$@"); }
printf 'pair 1 same\nleft 0 0\n' >"$work/alone"
expect 'from another folder' "$work/alone" elsewhere cameras.first ./cameras.first
expect 'slowly' crates/compare/stdout compare <(python3 tests/slowly.py "${example[0]}" 1 2 3) <(python3 tests/slowly.py "${example[1]}" 5 1)

# a megabyte of stack is plenty
small_stack() { (ulimit -S -s 1024 && compare "$@"); }
python3 tests/compare_second.py "$work"/limit_last_pair.{first,second} >"$work/answer" || exit 1
expect 'on a small stack' "$work/answer" small_stack "$work"/limit_last_pair.{first,second}

echo "compare: $ran cases, $failed failed"
[ "$failed" -eq 0 ]
