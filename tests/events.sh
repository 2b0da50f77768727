#!/usr/bin/env bash
# Event packets: the stored output is that of the second program, and the two programs print the same for many packets, also cut short and in pieces.
set -u
cd "$(dirname "${BASH_SOURCE[0]}")/.." || exit 1
stored=crates/event_vectors
work=$(mktemp -d) || exit 1
trap 'rm -rf "$work"' EXIT
ran=0
failed=0

# Two files are the same.
same() { # NAME WANTED GOT
    ran=$((ran + 1))
    cmp -s "$2" "$3" && return
    failed=$((failed + 1))
    echo "events: $1: wrong"
    diff "$2" "$3" | head -n 6
}

# The program prints what the second program prints for a file, and says nothing else. The program's input comes from a command.
agree() { # NAME FILE COMMAND..
    local name=$1 file=$2
    shift 2
    python3 tests/events_second.py <"$file" >"$work/wanted" || exit 1
    "$@" | ./hawserfen event_vectors >"$work/got" 2>"$work/said" || echo "status $?" >>"$work/got"
    cat "$work/said" >>"$work/got"
    same "$name" "$work/wanted" "$work/got"
}

# what is said while the program is proved and built is no complaint of the program
./hawserfen event_vectors </dev/null >/dev/null || exit 1

python3 tests/events_cases.py limits >"$work/limits" || exit 1
python3 tests/events_cases.py refusals >"$work/refusals" || exit 1
python3 tests/events_cases.py mixed >"$work/mixed" || exit 1
cat "$work/mixed" "$work/limits" >"$work/all"

same 'the stored input' "$work/limits" "$stored/stdin"
python3 tests/events_second.py <"$stored/stdin" >"$work/second" || exit 1
same 'the stored output' "$work/second" "$stored/stdout"
sed -n 's/^packet .*/0/p; s/^refused //p' "$stored/stdout" >"$work/numbers"
same 'the stored refusals' "$work/refusals" "$work/numbers"

agree 'all packets' "$work/all" cat "$work/all"
agree 'in pieces' "$work/limits" python3 tests/slowly.py "$work/limits" 279 1 281 3
# no packet, a last piece alone, and one after a packet
for size in 0 1 279 280 281 559; do
    head -c "$size" "$work/mixed" >"$work/piece"
    agree "$size bytes" "$work/piece" cat "$work/piece"
done

# where reading or writing fails, the program says so
echo 'event_vectors: standard input cannot be read' >"$work/wanted"
./hawserfen event_vectors <. >"$work/got" 2>&1
same 'no reading' "$work/wanted" "$work/got"
echo 'event_vectors: standard output cannot be written' >"$work/wanted"
./hawserfen event_vectors <"$stored/stdin" 2>"$work/got" >/dev/full
same 'no writing' "$work/wanted" "$work/got"

echo "events: $ran cases, $failed failed"
[ "$failed" -eq 0 ]
