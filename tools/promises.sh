#!/bin/sh
# promises.sh: compares the tables of promises, in docs/PROVED.md and in each crate's README.md, with the sources. Every function, clause and
# definition that a row names is there, and each crate has its README.md.
# A row names functions as `crate::function` or `crate::Type::function`, a trait as `crate::Trait`, each followed by a
# colon and its clauses where these have names, and definitions as `crate.File.name`.
# The last line is 'N passed, M failed': rows.
cd "$(dirname "$0")/.." || exit 2
work=$(mktemp -d) || exit 2
trap 'rm -rf "$work"' EXIT

# What the sources have: a line 'function' for each function with an `ensures`, and 'function clause' for each clause.
find crates -path '*/src/*.rt' ! -path '*/out/*' ! -name 'tests.rt' ! -path '*/tests/*' | sort | xargs awk '
    FNR == 1 { split(FILENAME, part, "/"); crate = part[2]; types = ""; is_trait = 0; name = "" }
    /^(pub )?(unsafe )?(impl|trait)[ <]/ {
        types = $0; gsub(/[^A-Za-z0-9_]+/, " ", types); is_trait = /^(pub )?(unsafe )?trait /; name = ""
        if (is_trait) { trait_name = $0; sub(/^(pub )?(unsafe )?trait /, "", trait_name); sub(/[^A-Za-z0-9_].*/, "", trait_name) }
    }
    /^}/ { types = ""; is_trait = 0; name = "" }
    is_trait && /^ *ghost [a-z_]+:/ { print crate "::" trait_name " " substr($2, 1, length($2) - 1) }
    /^ *(pub(\([a-z]+\))? )?(final )?(unsafe )?fn / { name = $0; sub(/^.*fn /, "", name); sub(/[^A-Za-z0-9_].*/, "", name) }
    name != "" && /^ *ensures\*? / {
        clause = ($2 == "{") ? "" : " " $2
        count = split(types, type, " ")
        for (i = count ? 1 : 0; i <= count; i++) {
            path = crate "::" (i ? type[i] "::" : "") name
            print path
            if (clause != "") print path clause
        }
    }
' | sort -u > "$work/functions"

# And a line 'crate.File.name' for each definition.
find crates -path '*/specs/*.antt' ! -path '*/out/*' | sort | xargs awk '
    FNR == 1 { count = split(FILENAME, part, "/"); file = part[count]; sub(/\.antt$/, "", file); crate = part[2] }
    /^(abbrev pub|unfoldable pub|pub record|pub data) / { print crate "." file "." $3 }
    /^pub [^ ]+ :/ { print crate "." file "." $2 }
' | sort -u > "$work/definitions"

# The rows of the tables of promises, each with what it names that is not there.
awk -v functions="$work/functions" -v definitions="$work/definitions" '
    BEGIN {
        while ((getline line < functions) > 0) there[line] = 1
        while ((getline line < definitions) > 0) there[line] = 1
        FS = "|"
    }
    function bad(what) { print FILENAME ":" FNR ": there is no " what; wrong = 1 }
    !/^\|/ || /^\|[- |]*$/ { next }
    /^\| Promise / { next }
    {
        wrong = 0
        count = split($3, entry, ";")
        for (i = 1; i <= count; i++) {
            marks = split(entry[i], word, "`")
            if (marks < 3) { bad("function in this row"); continue }
            if (marks == 3 && !(word[2] in there)) bad("function with an `ensures` `" word[2] "`")
            for (j = 4; j <= marks; j += 2) if (!((word[2] " " word[j]) in there)) bad("clause `" word[j] "` of `" word[2] "`")
        }
        marks = split($4, word, "`")
        for (j = 2; j <= marks; j += 2) if (!(word[j] in there)) bad("definition `" word[j] "`")
        if (wrong) failed++; else passed++
    }
    END { print passed + 0, failed + 0 }
' docs/PROVED.md crates/*/README.md > "$work/promises"
sed '$d' "$work/promises"

for crate in crates/*/; do
    [ -f "$crate/README.md" ] || echo "$crate has no README.md"
done > "$work/without"
cat "$work/without"

tail -n 1 "$work/promises" | {
    read -r passed failed
    failed=$((failed + $(wc -l < "$work/without")))
    echo "$passed passed, $failed failed"
    [ "$passed" != 0 ] && [ "$failed" = 0 ]
}
