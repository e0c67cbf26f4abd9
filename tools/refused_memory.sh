#!/bin/sh
# refused_memory.sh PROGRAM: runs the program on examples again and again, and refuses it each request for memory in turn, the words'
# among them: a replay, an audit, the records of tours, what would be, a caller who is served, one who looks, and one who calls a crew. Each run must end with
# status 6 and `no memory`, and write nothing; or with status 0 and all that is written without a refusal; or, of the caller, with status 0
# and the reply `no memory` to a line that was not taken, to a look or to a crew call, or with `behind n` of what looks do not show yet. It stops where
# 64 runs on end are as without a refusal. It needs a C compiler and a linker that loads before others what LD_PRELOAD names, so it is
# no part of the gate.
program=$(realpath "$1") || exit 2
examples=$(realpath "$(dirname "$0")/../examples") || exit 2
work=$(mktemp -d) || exit 2
trap 'rm -rf "$work"' EXIT

# The C library's requests, the one of the number REFUSED refused.
cat > "$work/refuse.c" <<'C'
#define _GNU_SOURCE
#include <dlfcn.h>
#include <errno.h>
#include <stdlib.h>

static long asked;

static int is_refused(void) {
    const char *number = getenv("REFUSED");
    return number && __atomic_add_fetch(&asked, 1, __ATOMIC_SEQ_CST) == atol(number);
}

void *malloc(size_t size) {
    static void *(*next)(size_t);
    if (!next) next = (void *(*)(size_t))dlsym(RTLD_NEXT, "malloc");
    if (!is_refused()) return next(size);
    errno = ENOMEM;
    return NULL;
}

void *realloc(void *old, size_t size) {
    static void *(*next)(void *, size_t);
    if (!next) next = (void *(*)(void *, size_t))dlsym(RTLD_NEXT, "realloc");
    if (!is_refused()) return next(old, size);
    errno = ENOMEM;
    return NULL;
}
C
cc -shared -fPIC -o "$work/refuse.so" "$work/refuse.c" -ldl || exit 2

# What a run wrote is all that it writes without a refusal.
is_whole() {
    cmp -s "$work/stdout" "$1" && { [ -z "$2" ] || cmp -s "$work/east.out" "$2"; }
}

# The expected output, the expected replies of a caller, if there is one, the input and the words.
refuse() {
    whole=$1 replies=$2 input=$3
    shift 3
    number=1 same=0 refused=0
    while [ $same -lt 64 ]; do
        rm -f "$work/east.out"
        REFUSED=$number LD_PRELOAD=$work/refuse.so "$program" "$@" < "$input" > "$work/stdout" 2> "$work/stderr"
        status=$?
        if [ $status = 0 ] && is_whole "$whole" "$replies"; then
            same=$((same + 1))
        elif [ $status = 6 ] && [ ! -s "$work/stdout" ] && [ "$(cat "$work/stderr")" = 'no memory' ] && [ ! -s "$work/east.out" ]; then
            same=0 refused=$((refused + 1))
        elif [ $status = 0 ] && [ -n "$replies" ] && grep -qxE 'no memory|behind [1-9][0-9]*' "$work/east.out"; then
            same=0 refused=$((refused + 1))
        else
            echo "$*: request $number was refused: status $status" >&2
            cat "$work/stdout" "$work/stderr" >&2
            exit 1
        fi
        number=$((number + 1))
    done
    echo "$1: of $((number - 1)) requests, each refused in turn, $refused were wanted"
}

refuse "$examples/first_offer/stdout" '' "$examples/first_offer/stdin" replay
for example in a_legal_journal the_record_of_a_tour two_commands_supposed who_is_free_when_their_rest_ends; do
    # shellcheck disable=SC2046
    refuse "$examples/$example/stdout" '' "$examples/$example/stdin" $(cat "$examples/$example/args")
done
cp "$examples/callers_of_a_day/east.in" "$work" || exit 2
refuse "$examples/callers_of_a_day/stdout" "$examples/callers_of_a_day/east.out" "$examples/callers_of_a_day/stdin" serve "$work/east"
cp "$examples/looks_at_a_board/screen.in" "$work/east.in" || exit 2
refuse "$examples/looks_at_a_board/stdout" "$examples/looks_at_a_board/screen.out" "$examples/looks_at_a_board/stdin" watch "$work/east"
cp "$examples/a_crew_of_one/caller.in" "$work/east.in" || exit 2
refuse "$examples/a_crew_of_one/stdout" "$examples/a_crew_of_one/caller.out" "$examples/a_crew_of_one/stdin" watch "$work/east"
