#!/usr/bin/env bash
# Tests the manual page docs/fiddlefern.3:
# - its SYNOPSIS declares the functions of the headers, all but the one that is theirs alone, in the same order and with the same parameters;
# - every number and every finding of fiddlefern.h stands in its tables with its name, and its version is that of the header;
# - the program of EXAMPLES compiles without a warning, ends with 0 and prints what the page says;
# - groff and man, where they are there, format every page of docs/ without a warning.
set -u
CDPATH='' cd -P -- "$(dirname -- "${BASH_SOURCE[0]}")/.." || exit 2

page=docs/fiddlefern.3 headers='include/fiddlefern.h include/fiddlefern_layout.h'
room=$(mktemp -d) || exit 2
trap 'rm -rf "$room"' EXIT

fault() {
    printf 'FAULT: %s\n' "$1"
    exit 1
}

# The lines of a section.
section() { sed -n "/^\.SH $1\$/,/^\.SH/p" "$page" | sed '1d;$d'; }

# One function a line, `RESULT NAME(PARAMETERS)`, of declarations and heads of definitions.
functions() { tr -s '[:space:]' ' ' | grep -oE '(const )?[a-z0-9_]+ \*?fiddlefern_[a-z_]+\([^()]*\) ?[;{]' | sed -E 's/ ?[;{]$//'; }
# In the headers every such line begins with the macro or with static inline; the function that stands for SIZE_MAX is theirs alone.
of_headers() {
    awk '/^(FIDDLEFERN_MUST_USE |static inline )/ { head = 1 } head; /[;{]/ { head = 0 }' $headers | functions | grep -v fiddlefern_outside
}
# In the page a parameter's name is an argument of .BI: `"size_t " n ", uint8_t *" stripe );`
of_page() { section SYNOPSIS | sed -nE 's/^\.BI? //p' | sed -E 's/"( |$)/\1/g; s/(^| )"/\1/g; s/\* +/*/g; s/ +([],;)[])/\1/g' | functions; }
of_headers >"$room/headers"
of_page >"$room/page"
diff --label "$headers" --label "$page" -u0 "$room/headers" "$room/page" || fault 'SYNOPSIS is not what the headers declare'
[ "$(wc -l <"$room/page")" -gt 30 ] || fault 'SYNOPSIS was not read'

# Numbers and findings, a line NUMBER|NAME each.
sed -nE 's/^ *(FIDDLEFERN_[A-Z_]+) = ([0-9]+).*/\2|\1/p' include/fiddlefern.h >"$room/numbers"
grep -oE '^[0-9]+\|FIDDLEFERN_[A-Z_]+' "$page" | diff --label include/fiddlefern.h --label "$page" -u0 "$room/numbers" - ||
    fault 'other numbers than in the header'
[ -s "$room/numbers" ] || fault 'include/fiddlefern.h: no number was read'
version=$(sed -nE 's/^#define FIDDLEFERN_VERSION 0x(..)(..)(..)$/\1 \2 \3/p' include/fiddlefern.h)
read -r major minor patch <<<"$version"
version=$((16#$major)).$((16#$minor)).$((16#$patch))
grep -qxF ".TH FIDDLEFERN 3 \"\" \"Fiddlefern $version\"" "$page" || fault "the page is not of version $version"

# The block number K of EXAMPLES, as a reader sees it.
block() { # K
    section EXAMPLES | awk -v k="$1" '/^\.EX$/ { inside = ++m == k; next } /^\.EE$/ { inside = 0 } inside' | sed 's/\\-/-/g; s/\\e/\\/g'
}
block 1 >"$room/example.c"
block 2 >"$room/due"
[ -s "$room/example.c" ] && [ -s "$room/due" ] || fault 'EXAMPLES was not read'
gcc -std=c99 -O2 -Wall -Wextra -pedantic -Werror -Iinclude "$room/example.c" target/staticlib/libfiddlefern.a -o "$room/example" ||
    fault 'the example does not compile'
"$room/example" >"$room/said" || fault "the example ended with $?"
diff --label "$page" --label 'the example' -u0 "$room/due" "$room/said" || fault 'the example prints something else'

for file in docs/*.[1-9]; do
    if command -v groff >/dev/null; then
        groff -t -man -ww -Tutf8 "$file" 2>"$room/warned" >/dev/null && [ ! -s "$room/warned" ] || fault "$file: groff: $(cat "$room/warned")"
    fi
    if LC_ALL=C man --warnings=w -l "$file" >/dev/null 2>&1; then
        LC_ALL=C MANWIDTH=80 man --warnings=w -l "$file" 2>"$room/warned" >/dev/null && [ ! -s "$room/warned" ] || fault "$file: man: $(cat "$room/warned")"
    fi
done
printf '%d functions, %d numbers\n' "$(wc -l <"$room/page")" "$(wc -l <"$room/numbers")"
