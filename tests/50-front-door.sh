#!/usr/bin/env bash
# Tests what a reader meets first:
# - the table of README.md between `<!-- greatest rows -->` and `<!-- end -->` is what tools/greatest_rows.c prints, byte for byte;
# - the C program of README.md, the fenced block after `<!-- example.c -->`, compiles without a warning and ends with 0;
# - every relative link of README.md and docs/*.md names a file;
# - names in backticks in README.md and docs/ are there: a word with underscores is a definition or a law of crates/*/specs or crates/*/proofs, an
#   edit of crates/*/must-fail, or a function; one with hyphens a folder of rust/; crate::function is a function of that crate. In every file of
#   docs/ names before (File) or (crate, File), or before a table's cell that has only such files, are defined in one of them,
#   crates/crate/specs/File.antt or crates/crate/proofs/File.antt. No other word in backticks is looked for.
set -u
CDPATH='' cd -P -- "$(dirname -- "${BASH_SOURCE[0]}")/.." || exit 2
. tests/faults

compiled() { gcc -std=c99 -O2 -Wall -Wextra -pedantic -Werror -Iinclude "$1" target/staticlib/libfiddlefern.a -o "$2"; }

table() {
    sed -n '/^<!-- greatest rows -->$/,/^<!-- end -->$/p' README.md | sed '1d;$d' >"$room/table"
    compiled tools/greatest_rows.c "$room/greatest_rows" && "$room/greatest_rows" >"$room/rows" || { fault 'tools/greatest_rows.c: no table' && return; }
    diff --label 'README.md' --label 'tools/greatest_rows.c' -u "$room/table" "$room/rows" || fault 'README.md: not the table of tools/greatest_rows.c'
}

example() {
    awk '/^<!-- example.c -->$/ { marked = 1; next }
         marked && /^```/ { if (inside) exit; inside = 1; next }
         inside' README.md >"$room/example.c"
    [ -s "$room/example.c" ] || { fault 'README.md: no block after <!-- example.c -->' && return; }
    compiled "$room/example.c" "$room/example" || { fault 'README.md: the example does not compile' && return; }
    "$room/example" >/dev/null || fault "README.md: the example ends with $?"
}

# The targets of the links of the Markdown file $1, outside fenced blocks and backticks, each without its #part.
targets() {
    awk '/^ *```/ { fenced = !fenced; next } !fenced' "$1" | sed 's/`[^`]*`//g' |
        grep -oE '\]\([^) ]+|^\[[^]]+\]: *[^ ]+|(src|srcset|href)="[^"]+' | sed -E 's/^(\]\(|\[[^]]+\]: *|[a-z]+=")//' |
        grep -vE '^([a-z]+:|#)' | sed 's/#.*//'
}

links() {
    local file target count=0
    for file in README.md docs/*.md; do
        while IFS= read -r target; do
            count=$((count + 1))
            [ -e "$(dirname "$file")/$target" ] || fault "$file: links to $target, which is not there"
        done < <(targets "$file")
    done
    [ "$count" -gt 0 ] || fault 'no link was read'
    printf '%d links\n' "$count"
}

# Every definition and law of the specs and beside the proofs, a line "CRATE FILE NAME" each.
defined() {
    grep -oE '^ *((abbrev|unfoldable|pub) +)*((record|data) +[^ ]+|[^ ]+ +:)' crates/*/{specs,proofs}/*.antt |
        sed -E 's#^crates/([^/]+)/(specs|proofs)/([^.]+)\.antt: *((abbrev|unfoldable|pub) +)*((record|data) +)?([^ ]+)( +:)?$#\1 \3 \8#'
}

# Whether a function or a type $1 stands in the sources of crate $2, or of any; or the word in the C header or the Rust crates.
in_crate() { grep -rqE "(fn|struct|enum) $1\b" crates/$2/src; }
at_boundary() { grep -rqw "$1" include rust/*/src; }

# The words in backticks of the file $1, each looked for where its form says.
words() {
    local word crate
    while IFS= read -r word; do
        if [[ $word =~ ^[A-Za-z]+(-[A-Za-z]+)+$ ]]; then
            [ -d "rust/$word" ] || fault "$1: no folder rust/$word"
        elif [[ $word =~ ^[A-Za-z0-9]+(_[A-Za-z0-9]+)+$ ]]; then
            grep -q " $word\$" "$room/defined" || compgen -G "crates/*/must-fail/$word.edit" >/dev/null || in_crate "$word" '*' ||
                at_boundary "$word" || fault "$1: no law, edit or function $word"
        elif [[ $word =~ ^([a-z_]+)::([a-z_:]+)(\(.*)?$ ]] && crate=${BASH_REMATCH[1]} word=${BASH_REMATCH[2]} && [ -d "crates/$crate" ]; then
            in_crate "${word##*:}" "$crate" || fault "$1: no function $word in crate $crate"
        else
            continue
        fi
        count=$((count + 1))
    done < <(grep -o '`[^`]*`' "$1" | tr -d '`' | sort -u)
}

# The names of the file $1 that stand before their files: `a`, `b` (File) or | `a` | crate File, crate File |.
name='`[A-Za-z][A-Za-z_]*`' files='([a-z]+,? )?[A-Z][A-Za-z]+(, ([a-z]+,? )?[A-Z][A-Za-z]+)*'
placed() {
    local said word crate where
    while IFS= read -r said; do
        crate='[a-z]+' where=''
        for word in $(tr -d '()|,' <<<"${said##*\`}"); do
            if [[ $word == [a-z]* ]]; then crate=$word; else where="$where${where:+|}$crate $word"; fi
        done
        for word in $(grep -oE "$name" <<<"$said" | tr -d '`'); do
            count=$((count + 1))
            grep -qE "^($where) $word\$" "$room/defined" || fault "$1: $word is not defined in $where"
        done
    done < <(tr -s '\n ' ' ' <"$1" | grep -oE "$name((, | and )$name)* (\($files\)|\| $files \|)")
}

names() {
    local count=0 file
    defined >"$room/defined"
    for file in README.md docs/*.md; do words "$file"; done
    for file in docs/*.md; do placed "$file"; done
    [ "$count" -gt 0 ] || fault 'no name was read'
    printf '%d names\n' "$count"
}

table
example
links
names
ended
