#!/bin/sh
# callers.sh PROGRAM: the program serves eight callers at once, whose files are pipes. Each writes a command and reads the reply before
# it writes the next. Some are slow, the sixth goes away in the middle, the seventh writes what is no command, and the eighth says
# nothing. The run has to end well when they do; its journal has to be legal; and each caller's replies have to be just the lines that
# the journal has of that caller, in order. The last line is 'N passed, M failed'.
program=$(realpath "$1") || exit 2
day=$(realpath "$(dirname "$0")/../examples/callers_of_a_day/stdin") || exit 2
work=$(mktemp -d) || exit 2
trap 'rm -rf "$work"' EXIT
cd "$work" || exit 2
passed=0
failed=0

# Counts a check, and says where it failed.
check() {
    if [ "$1" = "$2" ]; then
        passed=$((passed + 1))
    else
        failed=$((failed + 1))
        echo "callers: $3: '$1' is not '$2'"
    fi
}

# What a caller states, one command a line.
commands() {
    case $1 in
        7) echo 'nothing that a desk knows'; echo ''; echo "2024-03-04 00:05,at,P1,$1" ;;
        8) ;;
        *)
            echo "2024-03-04 00:05,next,$1"
            echo "2024-03-04 00:06,vac,$1"
            for place in 1 2 3 4; do echo "2024-03-04 00:0$((place + 5)),at,P1,$place"; done
            ;;
    esac
}

# A caller: each reply is kept before the next command is written, some seconds apart for the first two.
caller() {
    exec 3> "c$1.in" 4< "c$1.out"
    [ "$1" != 8 ] || sleep 2
    commands "$1" | while IFS= read -r command; do
        [ "$1" -gt 2 ] || sleep 0.2
        echo "$command" >&3
        IFS= read -r reply <&4 && echo "$reply" >> "c$1.got"
        [ "$1" != 6 ] || [ "$(wc -l < c6.got)" -lt 3 ] || break
    done
    exec 3>&-
    [ "$1" = 6 ] || cat <&4 >> "c$1.got"
}

names=
callers=
for number in 1 2 3 4 5 6 7 8; do
    names="$names c$number"
    mkfifo "c$number.in" "c$number.out" || exit 2
    : > "c$number.got"
    caller "$number" &
    callers="$callers $!"
done
# shellcheck disable=SC2086
timeout 60 "$program" serve $names < "$day" > journal 2> stderr
check $? 0 'its status'
# Who still stands at a pipe that the program never opened is sent away.
# shellcheck disable=SC2086
(sleep 5 && kill $callers) > /dev/null 2>&1 &
# shellcheck disable=SC2086
wait $callers 2> /dev/null
kill $! 2> /dev/null
check "$(cat stderr)" '' 'standard error'
check "$("$program" audit < journal 2>&1)" "legal $(($(wc -l < journal) - 1))" 'an audit of its journal'
for number in 1 2 3 4 5 6 8; do
    grep "^$number|" journal > "c$number.own"
    check "$(cat "c$number.got")" "$(cat "c$number.own")" "the replies of caller $number"
done
check "$(grep -c '^6|' journal)" 3 'what is taken of the caller who goes away'
check "$(grep -c '^8|' journal)" 0 'what is taken of the caller who says nothing'
check "$(cat c7.got)" "$(printf 'malformed 1\nmalformed 0\n%s' "$(grep '^7|' journal)")" 'the replies of caller 7'
echo "$passed passed, $failed failed"
[ "$failed" = 0 ]
