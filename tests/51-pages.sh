#!/usr/bin/env bash
# Tests what docs/ and README.md say of each other and of the rest, beside tests/50-front-door.sh:
# - the #part of every relative link is a heading of the file that it names;
# - a path in backticks that begins with a folder of the repository is there; crates/c/ stands for any crate, and out/ is built;
# - "SPEC k" and "SPEC.md k" name a section of docs/SPEC.md wherever they stand, and the sections are numbered 1, 2, ..;
# - every export with its parameters, every number and every finding of include/fiddlefern.h stands in docs/SPEC.md;
# - the table of the bound there is what judge answers, the run of the bench program is the stored one of crates/stripebench, and cases A, B and D are
#   among the stored output of crates/worked;
# - docs/stripe.svg draws each element of case B with its byte.
set -u
CDPATH='' cd -P -- "$(dirname -- "${BASH_SOURCE[0]}")/.." || exit 2
. tests/faults

# The links of the Markdown file $1 that have a #part, outside fenced blocks and backticks.
parted() {
    awk '/^ *```/ { fenced = !fenced; next } !fenced' "$1" | sed 's/`[^`]*`//g' | grep -oE '\]\([^) ]*#[^) ]+' | sed 's/^](//' | grep -vE '^[a-z]+:'
}

# The headings of the Markdown file $1 as links name them.
parts() { sed -nE 's/^#+ //p' "$1" | tr '[:upper:]' '[:lower:]' | sed -E 's/[^a-z0-9 _-]//g; s/ /-/g'; }

links() {
    local file target path count=0
    for file in README.md docs/*.md; do
        while IFS= read -r target; do
            count=$((count + 1))
            path=$file
            [ -z "${target%%#*}" ] || path=$(dirname "$file")/${target%%#*}
            parts "$path" | grep -qxF -- "${target#*#}" || fault "$file: links to $target, which has no such heading"
        done < <(parted "$file")
    done
    [ "$count" -gt 0 ] || fault 'no link to a heading was read'
    printf '%d links to headings\n' "$count"
}

paths() {
    local file word count=0
    for file in README.md docs/*.md; do
        while IFS= read -r word; do
            [[ $word =~ ^(\.ci|crates|docs|examples|include|rust|tests|tools)/[A-Za-z0-9_./-]*$ ]] || continue
            [[ $word != crates/c/* && $word != crates/*/out/* ]] || continue
            count=$((count + 1))
            [ -e "$word" ] || fault "$file: no $word"
        done < <(grep -o '`[^`]*`' "$file" | tr -d '`' | sort -u)
    done
    [ "$count" -gt 0 ] || fault 'no path was read'
    printf '%d paths\n' "$count"
}

# Every text of the repository but what is built.
texts() { grep -rIl '' README.md CHANGELOG.md Makefile crates.txt crates docs examples include rust tests tools .ci --exclude-dir=target; }

citations() {
    local count=0 place section
    sed -nE 's/^## ([0-9]+) .*/\1/p' docs/SPEC.md >"$room/sections"
    seq "$(wc -l <"$room/sections")" | diff -q - "$room/sections" >/dev/null || fault 'docs/SPEC.md: the sections are not numbered 1, 2, ..'
    while IFS= read -r place; do
        for section in $(grep -oE '[0-9]+' <<<"${place##*SPEC}"); do
            count=$((count + 1))
            grep -qx "$section" "$room/sections" || fault "${place%%:*}: cites SPEC $section, which is not there"
        done
    done < <(texts | xargs -d '\n' grep -oHE '\bSPEC(\.md)? [0-9]+( and [0-9]+)?')
    [ "$count" -gt 0 ] || fault 'no citation was read'
    printf '%d citations\n' "$count"
}

# Exports with their parameters, as `name(a, b)`; numbers and findings, as a table's `| 5 | NAME |`.
boundary() {
    local line count=0
    while IFS= read -r line; do
        count=$((count + 1))
        grep -qF -- "$line" docs/SPEC.md || fault "docs/SPEC.md: no $line"
    done < <(
        tr '\n' ' ' <include/fiddlefern.h | grep -oE 'uint64_t +fiddlefern_[a-z]+\([^)]*\);' |
            sed -E 's/^uint64_t +//; s/;$//; s/\(void\)/()/; s/(\(|, *)[^,)]*[ *]([a-z_]+)/\1\2/g; s/, */, /g; s/.*/`&`/'
        sed -nE 's/^ *(FIDDLEFERN_(DONE|REFUSAL_[A-Z_]+)) = ([0-9]+),?.*/| \3 | `\1` |/p' include/fiddlefern.h
        sed -nE 's/^ *(FIDDLEFERN_FINDING_[A-Z_]+) = ([0-9]+),?.*/| \2 | `\1` |/p' include/fiddlefern.h
        sed -nE 's/^#define FIDDLEFERN_VERSION (0x[0-9A-F]{6})$/\1 is version/p' include/fiddlefern.h
    )
    [ "$count" -ge 24 ] || fault "include/fiddlefern.h: $count exports, numbers and findings were read"
    printf '%d exports, numbers and findings\n' "$count"
}

# The section $1 of docs/SPEC.md.
section() { sed -n "/^## $1 /,/^## $(($1 + 1)) /p" docs/SPEC.md; }

# Each row of the table of section 4: judge accepts the greatest r and every smaller one, and names a pair above it.
bound() {
    section 4 | sed -nE 's/^\| ([0-9]+) \| ([0-9]+) \| [0-9]+ \| ([0-9]+|none) \|$/\1 \2 \3/p' | sed 's/none/0/' >"$room/bound"
    cat >"$room/bound.c" <<'END'
#include <stdio.h>
#include "fiddlefern.h"
int main(void) {
    size_t n, s, most, rows = 0;
    for (; scanf("%zu %zu %zu", &n, &s, &most) == 3; rows++)
        for (size_t r = 1; r <= 32; r++)
            if (fiddlefern_number(fiddlefern_judge(n, r, s, 1)) != (r <= most ? FIDDLEFERN_DONE : FIDDLEFERN_REFUSAL_WEAK)) return 1;
    return rows == 12 ? 0 : 2;
}
END
    gcc -std=c99 -Wall -Wextra -pedantic -Werror -Iinclude "$room/bound.c" target/staticlib/libfiddlefern.a -o "$room/bound.run" || exit 2
    "$room/bound.run" <"$room/bound" || fault "docs/SPEC.md: the table of the bound is not what judge answers ($?)"
}

# The two indented blocks of section 8, and the stripes of section 9.
stored() {
    section 8 | sed -nE 's/^    (([0-9A-F]{2} *)+)$/\1/p' | head -n 1 | tr -s ' ' '\n' >"$room/input"
    od -An -v -tx1 crates/stripebench/stdin | tr -s ' ' '\n' | grep . | diff -q - "$room/input" >/dev/null || fault 'docs/SPEC.md: not the stored input of the bench program'
    section 8 | sed -nE '/^in hexadecimal comes/,$s/^    //p' | diff -q - crates/stripebench/stdout >/dev/null ||
        fault 'docs/SPEC.md: not the stored output of the bench program'
    for case in A B; do
        said=$(section 9 | tr '\n' ' ' | sed -nE "s/.*\*\*$case\.\*\*[^\`]*\`([^\`]*)\`.*/\1/p")
        grep -qx "$case 0 $said" crates/worked/stdout || fault "docs/SPEC.md: case $case is not stored in crates/worked/stdout"
    done
    section 9 | grep -q '^\*\*D\.\*\*.*H(0) is then .* = E4, and U(4) is .* = BF\.$' && grep -qx 'D 0 .* BF E4 E6' crates/worked/stdout ||
        fault 'docs/SPEC.md: case D is not stored in crates/worked/stdout'
}

# A box of the drawing is `>NAME</text><text ..>BYTE</text>`; of case B, n=5 and r=2, byte p is that of place p.
drawn() {
    local bytes j
    read -ra bytes < <(section 9 | sed -nE '/^\*\*B\.\*\*/,/^$/s/^`([0-9A-F ]+)`\.$/\1/p')
    for j in 0 1 2 3 4; do printf 'X(0,%d) %s\nX(1,%d) %s\nU(%d) %s\n' "$j" "${bytes[3 * j]-}" "$j" "${bytes[3 * j + 1]-}" "$j" "${bytes[3 * j + 2]-}"; done >"$room/due"
    printf 'H(0) %s\nH(1) %s\n' "${bytes[15]-}" "${bytes[16]-}" >>"$room/due"
    sed -nE 's|.*>([XHU]\([0-9,]+\))</text><text class="byte"[^>]*>([0-9A-F]{2})</text>.*|\1 \2|p' docs/stripe.svg | sort | diff <(sort "$room/due") - >"$room/differs" ||
        { cat "$room/differs" && fault 'docs/stripe.svg: not the elements of case B'; }
}

links
paths
citations
boundary
bound
stored
drawn
ended
