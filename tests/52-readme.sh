#!/usr/bin/env bash
# Tests what README.md says beside what tests/50-front-door.sh reads:
# - the table between `<!-- storage -->` and `<!-- end -->` has the greatest r that tools/greatest_rows.c prints, and every share of data is computed anew,
#   there and in the text;
# - the Rust program, the block after `<!-- main.rs -->`, runs in a crate beside this repository whose Cargo.toml has the block after
#   `<!-- Cargo.toml -->`, without a warning;
# - the version is the one that the archive answers;
# - no text and no example shifts a 1 into a mask of lost strips.
set -u
CDPATH='' cd -P -- "$(dirname -- "${BASH_SOURCE[0]}")/.." || exit 2
. tests/faults

# The fenced block of README.md after `<!-- $1 -->`, in the file $2.
block() { # MARK FILE
    awk -v mark="<!-- $1 -->" '$0 == mark { marked = 1; next }
         marked && /^```/ { if (inside) exit; inside = 1; next }
         inside' README.md >"$2"
    [ -s "$2" ] || { fault "README.md: no block after <!-- $1 -->" && return 1; }
}

compiled() { gcc -std=c99 -O2 -Wall -Wextra -pedantic -Werror -Iinclude "$1" target/staticlib/libfiddlefern.a -o "$2"; }

# Shares of data in percent: nr of n(r+1)+r elements; of the room of n + 1 disks nr of (n+1)(r+1); RAID-6 all disks but two. In the text a share
# stands before `at n=.. r=..`, and that of n copies is one of n.
storage() {
    compiled tools/greatest_rows.c "$room/greatest_rows" && "$room/greatest_rows" >"$room/rows" || { fault 'tools/greatest_rows.c: no table' && return; }
    sed -n '/^<!-- storage -->$/,/^<!-- end -->$/p' README.md | sed '1d;$d' | awk -F ' *[|] *' '
        FNR == NR { for (k = 2; k < NF; k += 3) { n = $k; gsub(/[*]/, "", n); most[n] = $(k + 1) } next }
        FNR > 2 {
            split($3, numbers, /[= ]/); n = numbers[2]; r = most[n]; disks = n + 1; lines++
            due = sprintf("| %d | n=%d r=%d | %.1f %% | %.1f %% |", disks, n, r, 100 * n * r / (n * (r + 1) + r), 100 * (disks - 2) / disks)
            if ($0 != due) { print "README.md: " $0 " must be " due; wrong = 1 } }
        END { exit wrong || lines < 5 }' "$room/rows" - || fault 'README.md: the table of shares'
    tr -s '\n ' ' ' <README.md | grep -oE '[0-9.]+ %( of the room)? at n=[0-9]+ r=[0-9]+' >"$room/shares"
    awk -F '[ =]' '{ n = $(NF - 2); r = $NF; all = /of the room/ ? (n + 1) * (r + 1) : n * (r + 1) + r; due = sprintf("%.1f", 100 * n * r / all) }
        $1 != due { print "README.md: " $0 " must be " due; wrong = 1 }
        END { exit wrong || NR < 3 }' "$room/shares" || fault 'README.md: the shares in the text'
}

crate() {
    mkdir -p "$room/app/src" && ln -s "$PWD" "$room/fiddlefern"
    block main.rs "$room/app/src/main.rs" && block Cargo.toml "$room/dependencies" || return
    printf '[package]\nname = "app"\nversion = "0.0.0"\nedition = "2024"\n\n' | cat - "$room/dependencies" >"$room/app/Cargo.toml"
    RUSTFLAGS='-D warnings' CARGO_TARGET_DIR=$room/target cargo run --quiet --offline --manifest-path "$room/app/Cargo.toml" ||
        fault 'README.md: the Rust program does not run'
}

version() {
    local said answered
    cat >"$room/version.c" <<'END'
#include <stdint.h>
#include <stdio.h>
uint64_t fiddlefern_version(void);
int main(void) {
    unsigned long long answer = fiddlefern_version();
    printf("%llu.%llu.%llu\n", answer >> 16, answer >> 8 & 0xff, answer & 0xff);
    return 0;
}
END
    compiled "$room/version.c" "$room/version" || { fault 'the archive has no fiddlefern_version' && return; }
    answered=$("$room/version")
    grep -oE 'version (= ")?[0-9]+\.[0-9]+\.[0-9]+' README.md | grep -oE '[0-9.]+$' >"$room/versions"
    [ -s "$room/versions" ] || fault 'README.md says no version'
    while IFS= read -r said; do
        [ "$said" = "$answered" ] || fault "README.md says version $said, and the archive answers $answered"
    done <"$room/versions"
}

# A shifted 1 of C is an int, too narrow for a mask of 64 bits; fiddlefern_lost and Shape::lost make one.
masks() {
    if grep -nE '(^|[^[:alnum:]_])1([uU][lL]*|u64|_u64)? *<<' README.md examples/c/*.c rust/fiddlefern/examples/*.rs; then fault 'a mask of lost strips by a shift'; fi
}

storage
crate
version
masks
ended
