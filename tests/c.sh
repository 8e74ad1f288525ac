#!/bin/sh
# Builds the C programs over the archive of the stretch judge and runs them.
#
#   tests/c.sh ARCHIVE FOLDER        as: tests/c.sh target/staticlib/libstretch.a target/c
#
# ORDERS and DAMAGED are the numbers of random inputs, 20000 each unless set, and SEED their generator's first number. The compiler for
# C++ is the one in CXX, c++ unless set.
set -u
unset CDPATH # or cd may go elsewhere, and print where

[ $# -eq 2 ] || { echo "usage: tests/c.sh ARCHIVE FOLDER" >&2; exit 2; }
[ -f "$1" ] || { echo "c.sh: there is no archive $1" >&2; exit 2; }
archive=$(cd "$(dirname "$1")" && pwd -P)/$(basename "$1")
mkdir -p "$2" || exit 2
build=$(cd "$2" && pwd -P)
top=$(cd "$(dirname "$0")/.." && pwd -P)
seed=${SEED:-20260101}
status=0

good() { printf 'c: %s\n' "$*"; }
bad() { printf 'c: FAILED: %s\n' "$*"; status=1; }

. "$top/tests/x86.sh"

# ---- what the tests below go by, line by line: without a line they would pass

for name in samples.expected pack.refused edges.expected; do
    [ -s "$top/tests/$name" ] || bad "tests/$name is empty"
done

# ---- the packing script, and the samples that it packed

pack() { python3 "$top/tools/pack" "$@"; }

samples_are_as_packed() {
    while read -r name _; do
        pack "$top/samples/$name.txt" >"$build/$name.bin" || return 1
        cmp "$build/$name.bin" "$top/samples/$name.bin" || return 1
    done <"$top/tests/samples.expected"
    pack --tap "$top/samples/tap.txt" >"$build/tap.card" && cmp "$build/tap.card" "$top/samples/tap.card"
}

# The bytes that document 01 prints for case 15.
case15_is_as_printed() {
    want=0400000A00000780200000000000000000
    want=${want}000000000064420000000014420000000029C00000000000
    got=$(od -An -v -tx1 "$top/samples/case11.bin" | tr -d ' \n' | tr a-f A-F)
    [ "$got" = "$want" ] && return
    printf 'case 15 is %s\nsamples/case11.bin is %s\n' "$want" "$got"
    return 1
}

# Each bad text: the number of its bad line, then the text with \n for its line ends.
bad_texts_are_refused() {
    while IFS='|' read -r number text; do
        printf %b "$text" | pack >"$build/bad.out" 2>"$build/bad.err"
        if [ $? -ne 1 ] || [ -s "$build/bad.out" ] ||
            ! grep -q "^pack: line $number: " "$build/bad.err"; then
            echo "the text: $text"
            cat "$build/bad.err"
            return 1
        fi
    done <"$top/tests/pack.refused"
}

if samples_are_as_packed && case15_is_as_printed && bad_texts_are_refused; then
    good "pack: samples, the bytes of case 15 and refused texts as expected"
else
    bad pack
fi

# ---- the header: by itself in C99 and no later C, and linked in C++

printf '#include "anthegyra.h"\n#include "anthegyra.h"\nint main(void) { return (int)anthegyra_count(anthegyra_version() * 0); }\n' >"$build/header.c"
if compile "$archive" "$build/header.c" "$build/header" -pedantic-errors -Werror && run "$build/header"; then
    good "header: taken by C99"
else
    bad "header: not taken by C99"
fi

if [ -z "$kit" ] && ! command -v "$cxx" >/dev/null; then
    good "header: not shown to C++, there is no $cxx"
elif ! compile_twice "$archive" "$top/tests/header.cpp" "$build/header++" -pedantic-errors -Werror || ! run "$build/header++"; then
    bad "header: not taken by C++"
fi

# ---- the programs

if compile "$archive" "$top/tests/edges.c" "$build/edges" -Werror && run "$build/edges" >"$build/edges.out" &&
    cmp "$build/edges.out" "$top/tests/edges.expected"; then
    good "edges: as expected"
else
    bad edges
fi

if compile "$archive" "$top/tests/stack.c" "$build/stack" -Werror; then
    run "$build/stack" 1000 "$seed" || bad stack
else
    bad "stack: not built"
fi

if compile "$archive" "$top/tests/orders.c" "$build/orders" -Werror; then
    run "$build/orders" "${ORDERS:-20000}" "$seed" || bad orders
else
    bad "orders: not built"
fi

if compile "$archive" "$top/tests/damaged.c" "$build/damaged" -Werror; then
    run "$build/damaged" "${DAMAGED:-20000}" "$seed" || bad damaged
else
    bad "damaged: not built"
fi

# ---- the example: each sample, whose status is 0 after a verdict and 1 after a refusal; and what cannot be read or written

judge() { # STATUS MESSAGE PROPERTY TRACE
    want=$1
    told=$2
    shift 2
    run "$build/judge" "$@" </dev/null 2>"$build/judge.err"
    got=$?
    [ "$got" -eq "$want" ] && [ "$(cat "$build/judge.err")" = "$told" ] && return
    echo "judge $*: status $got, expected $want; its message:" >&2
    cat "$build/judge.err" >&2
    return 1
}

judge_samples() {
    while read -r name line; do
        pack --property "$top/samples/$name.txt" >"$build/property" || return 1
        pack --trace "$top/samples/$name.txt" >"$build/trace" || return 1
        printf '%s ' "$name"
        case $line in
        'refusal 0 '*) judge 0 '' "$build/property" "$build/trace" || return 1 ;;
        *) judge 1 '' "$build/property" "$build/trace" || return 1 ;;
        esac
    done <"$top/tests/samples.expected"
}

judge_gives_up() {
    judge 2 'judge: usage: judge PROPERTY TRACE' "$build/property" &&
        judge 2 "judge: $build/nothing: No such file or directory" "$build/property" "$build/nothing" &&
        judge 2 "judge: $build: Is a directory" "$build" "$build/trace" &&
        judge 2 'judge: standard output: No space left on device' "$build/property" "$build/trace" >/dev/full
}

if compile "$archive" "$top/examples/judge.c" "$build/judge" -Werror && judge_samples >"$build/samples.out" &&
    cmp "$build/samples.out" "$top/tests/samples.expected" && judge_gives_up; then
    good "judge: the samples are judged as expected, and what cannot be read or written is told"
else
    bad "judge: the example and its samples"
fi

exit $status
