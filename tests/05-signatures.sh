#!/usr/bin/env bash
# Tests that the exports, the C header and the Rust declarations have the same calls in the same order, each with the same parameters by name,
# type and order, and the same result. A slice is a pointer and a length at the boundary: the stripe's length is named len, and the length of
# any other slice has the slice's name and _len. What is written in a form that is not read here differs, so it fails.
set -u
CDPATH='' cd -P -- "$(dirname -- "${BASH_SOURCE[0]}")/.." || exit 2

exports=crates/fiddlefern/src/lib.rt header=include/fiddlefern.h declarations=rust/fiddlefern-sys/src/lib.rs
room=$(mktemp -d) || exit 2
trap 'rm -rf "$room"' EXIT

# The text of a file as one line, without comments.
bare() { sed 's://.*::' "$1" | tr -s '[:space:]' ' ' | sed -E 's:/\*([^*]|\*+[^*/])*\*+/: :g'; }

# Brings `NAME( a: A, b: B, ) -> C` into one layout, NAME(a: A, b: B) -> C.
laid_out() { sed -E 's/\( /(/; s/,? ?\)/)/; s/ *;$//'; }

# Each of these gives the calls of a file, one a line, as Rust declares them.
of_exports() {
    bare "$exports" | grep -oE 'pub extern "C" fn [^)]*\)( -> [^ ;{]+)?' | laid_out | sed -E 's/^pub extern "C" fn //
        s/stripe: &mut \[u8\]/stripe: *mut u8, len: usize/
        s/stripe: &\[u8\]/stripe: *const u8, len: usize/
        s/([a-z_]+): &mut \[u8\]/\1: *mut u8, \1_len: usize/g
        s/([a-z_]+): &\[u8\]/\1: *const u8, \1_len: usize/g'
}
of_declarations() {
    bare "$declarations" | grep -oE 'pub (safe |unsafe )?fn [^;{]*;' | laid_out | sed -E 's/^pub (safe |unsafe )?fn //'
}
of_header() {
    bare "$header" | grep -oE '[^;{}#"]*fiddlefern_[a-z_]+\([^()]*\) ?;' | laid_out | sed -E 's/^ +//
        s/^FIDDLEFERN_MUST_USE //
        s/\(void\)$/()/
        s/^uint64_t ([a-z_]+\(.*\))$/\1 -> u64/
        s/([(,] ?)const uint8_t \*([a-z_]+)/\1\2: *const u8/g
        s/([(,] ?)uint8_t \*([a-z_]+)/\1\2: *mut u8/g
        s/([(,] ?)size_t ([a-z_]+)/\1\2: usize/g
        s/([(,] ?)uint64_t ([a-z_]+)/\1\2: u64/g'
}

of_exports >"$room/exports"
of_header >"$room/header"
of_declarations >"$room/declarations"

count=$(wc -l <"$room/exports") marked=$(grep -c '^#\[unsafe(no_mangle)\]' "$exports")
[ "$count" -gt 0 ] && [ "$count" -eq "$marked" ] || { echo "$exports: $count calls read, and $marked are exported" && exit 1; }
diff --label "$exports" --label "$header" -u0 "$room/exports" "$room/header" || exit 1
diff --label "$exports" --label "$declarations" -u0 "$room/exports" "$room/declarations" || exit 1
echo "$count calls, the same in all three"
