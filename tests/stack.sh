#!/usr/bin/env bash
# The stack of the unit check, measured in the optimised code that C links, and its answers beside those of a plain check in C that keeps a padded copy of
# the data. All of it is for x86-64, built with the kit's own compiler.
set -u
cd "$(dirname "${BASH_SOURCE[0]}")/.." || exit 1
work=$(mktemp -d) || exit 1
trap 'rm -rf "$work"' EXIT

fail() {
    echo "stack: $1"
    exit 1
}

guide=$(rt doc) || fail "the Rattle kit's rt is needed, and not found"
kit=$(dirname "$guide")
tools=$kit/toolchain
clang=$tools/bin/clang
[ -x "$clang" ] || fail 'the kit has no compiler'

tools/staticlib >"$work/said" 2>&1 || { cat "$work/said"; fail 'exports was not built'; }
archive=target/staticlib/libexports.a
"$tools/bin/ld.lld" -shared --no-undefined --whole-archive "$archive" -o "$work/alone" || fail 'exports needs something else linked'

compile() { # NAME
    "$clang" --target=x86_64-unknown-linux-gnu -nostdinc -isystem tests/stack/include -I crates/exports -std=c11 -Wall -Wextra -Werror -O3 -fPIC \
        -c "tests/stack/$1.c" -o "$work/$1.o" || fail "$1.c was not compiled"
}

# Builds and runs a program of tests/stack with what both share.
run() { # NAME
    compile "$1"
    "$kit/bin/rattle-link" --target x86_64-unknown-linux-gnu --toolchain "$tools" -o "$work/$1" "$work/$1.o" "$work/cases.o" "$work/padded.o" \
        "$archive" 2>"$work/said" || { cat "$work/said"; fail "$1 was not linked"; }
    "$tools/lib/ld-linux-x86-64.so.2" --library-path "$tools/lib" "$work/$1" || fail "$1: status $?"
}

compile cases
compile padded
run stack
run answers
