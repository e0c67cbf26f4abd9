#!/bin/sh
# compare.sh PROGRAM: runs the program on each folder beside this file, and compares what it does with what the
# folder says: what it shows in `about`, one line, which is printed where it differs; its words in `args`, one a line;
# its input in `stdin`, a file or a folder; what it must write in `stdout`; how it must end in `status`; and what must
# stand on standard error in `stderr`, which is nothing where there is no such file. Where a file `output` names a
# device, the program writes to that. Files `*.in` are those of callers, beside which the program runs; it must make just the
# files `*.out` that the folder has, with the same in them. The last line is 'N passed, M failed'.
program=$(realpath "$1") || exit 2
cd "$(dirname "$0")" || exit 2
work=$(mktemp -d) || exit 2
trap 'rm -rf "$work"' EXIT
passed=0
failed=0
for folder in */; do
    folder=${folder%/}
    set --
    while IFS= read -r word || [ -n "$word" ]; do
        set -- "$@" "$word"
    done < "$folder/args"
    output=$work/stdout
    [ ! -f "$folder/output" ] || output=$(cat "$folder/output")
    : > "$work/stdout"
    rm -f "$work"/*.in "$work"/*.out
    for file in "$folder"/*.in; do [ ! -f "$file" ] || cp "$file" "$work"; done
    here=$(pwd)/$folder
    (cd "$work" && "$program" "$@" < "$here/stdin" > "$output" 2> "$work/stderr")
    status=$?
    wrong=
    about=$(cat "$folder/about")
    [ "$(echo "$about" | wc -l)" = 1 ] && [ -n "$about" ] || wrong="$wrong about"
    [ "$status" = "$(cat "$folder/status")" ] || wrong="$wrong status"
    cmp -s "$work/stdout" "$folder/stdout" || wrong="$wrong stdout"
    stderr=$folder/stderr
    [ -f "$stderr" ] || stderr=/dev/null
    cmp -s "$work/stderr" "$stderr" || wrong="$wrong stderr"
    for file in "$work"/*.out "$folder"/*.out; do
        [ ! -f "$file" ] || cmp -s "$work/${file##*/}" "$folder/${file##*/}" || wrong="$wrong ${file##*/}"
    done
    if [ -z "$wrong" ]; then
        passed=$((passed + 1))
    else
        failed=$((failed + 1))
        echo "examples/$folder differs in:$wrong (status $status)"
        echo "    it shows: $about"
    fi
done
echo "$passed passed, $failed failed"
[ "$failed" = 0 ] && [ "$passed" != 0 ]
