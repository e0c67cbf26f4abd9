#!/bin/sh
# journals.sh PROGRAM: what the program writes of each example that is replayed is read again. Its journal has to be legal, with as
# many entries as it has lines behind the first; with its last line cut short it must not be. Cut after its first entries, and after
# each hundredth, it has to go on to the whole with the commands of the others. And the records of its tours have to be JSON that
# python3 reads and writes again just so, where python3 is there.
# The last line is 'N passed, M failed'.
program=$(realpath "$1") || exit 2
cd "$(dirname "$0")/../examples" || exit 2
work=$(mktemp -d) || exit 2
trap 'rm -rf "$work"' EXIT
passed=0
failed=0

# Counts a check, and says where it failed.
check() {
    if [ "$1" = "$2" ]; then
        passed=$((passed + 1))
    else
        failed=$((failed + 1))
        echo "examples/$folder: $3: '$1' is not '$2'"
    fi
}

# Whether a text is compact JSON whose keys are in order, and which python3 reads.
is_json() {
    python3 -c '
import json, sys
text = sys.stdin.read()
print("same" if json.dumps(json.loads(text), sort_keys=True, separators=(",", ":")) + "\n" == text else "other")
' < "$1" 2>&1 | tail -n 1
}

for folder in */; do
    folder=${folder%/}
    [ "$(cat "$folder/args")" = replay ] && [ -f "$folder/stdin" ] && [ ! -f "$folder/output" ] || continue
    "$program" replay < "$folder/stdin" > "$work/journal" 2> /dev/null || continue
    entries=$(($(wc -l < "$work/journal") - 1))
    check "$("$program" audit < "$work/journal" 2> /dev/null)" "legal $entries" "an audit of its journal"
    head -c -1 "$work/journal" > "$work/cut"
    "$program" audit < "$work/cut" > /dev/null 2>&1
    case $? in 8|9) cut=refused;; *) cut=passed;; esac
    check "$cut" refused "an audit of its journal without the last line feed"
    for first in 0 1 $(seq 100 100 "$entries"); do
        [ "$first" -le "$entries" ] || continue
        {
            head -n $((first + 1)) "$work/journal"
            echo +
            tail -n +$((first + 2)) "$work/journal" | sed 's/^[^|]*|\([^|]*\)|.*/\1/'
        } | "$program" continue 2> /dev/null | cmp -s - "$work/journal"
        check $? 0 "its journal, which goes on after $first entries"
    done
    "$program" excess < "$work/journal" > "$work/records" 2> /dev/null
    check $? 0 "the records of its tours that were too long"
    if command -v python3 > /dev/null; then
        check "$(is_json "$work/records")" same "the JSON of its tours"
        for person in $(sed -n 's/^[^|]*|[^,]*,enrol,\([0-9]*\),.*/\1/p' "$work/journal" | sort -un | head -n 5); do
            "$program" record "$person" < "$work/journal" > "$work/records" 2> /dev/null
            check "$(is_json "$work/records")" same "the JSON of the tours of person $person"
        done
    fi
done
echo "$passed passed, $failed failed"
[ "$failed" = 0 ]
