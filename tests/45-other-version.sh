#!/usr/bin/env bash
# Tests that the Rust crate refuses an archive of another version when a shape is made, with a sentence and a status that is not 0. The archive is
# one in C that stands in for libfiddlefern.a, and says the version that the environment gives it.
set -u
CDPATH='' cd -P -- "$(dirname -- "${BASH_SOURCE[0]}")/.." || exit 2

room=$(mktemp -d) || exit 2
trap 'rm -rf "$room"' EXIT
export CARGO_TARGET_DIR=$room/built FIDDLEFERN_LIB_DIR=$room
tried=0

fault() {
    printf 'FAULT: %s\n' "$1"
    cat "$room/said"
    exit 1
}

# The header holds its declarations to those of the library.
cat >"$room/stand_in.c" <<'END_OF_STAND_IN'
#include "fiddlefern.h"
#include <stdlib.h>

uint64_t fiddlefern_version(void) { return strtoul(getenv("SAYS"), NULL, 0); }

uint64_t fiddlefern_judge(size_t n, size_t r, size_t s, size_t e) { return (uint64_t)(e * (n * (r + 1) + r) + 0 * s) << 32; }

uint64_t fiddlefern_encode(size_t n, size_t r, size_t s, size_t e, uint8_t *stripe, size_t len) { abort(); }

uint64_t fiddlefern_write(size_t n, size_t r, size_t s, size_t e, uint8_t *stripe, size_t len, size_t row, size_t strip, size_t offset,
                          const uint8_t *run, size_t run_len) { abort(); }

uint64_t fiddlefern_read(size_t n, size_t r, size_t s, size_t e, const uint8_t *stripe, size_t len, size_t row, size_t strip) {
    abort();
}

uint64_t fiddlefern_scrub(size_t n, size_t r, size_t s, size_t e, const uint8_t *stripe, size_t len) { abort(); }

uint64_t fiddlefern_rebuild(size_t n, size_t r, size_t s, size_t e, uint8_t *stripe, size_t len, uint64_t mask) { abort(); }
END_OF_STAND_IN
gcc -std=c99 -Iinclude -c "$room/stand_in.c" -o "$room/stand_in.o" && ar rcs "$room/libfiddlefern.a" "$room/stand_in.o" || exit 1

mkdir -p "$room/program/src" && cat >"$room/program/Cargo.toml" <<END_OF_MANIFEST || exit 2
[package]
name = "program"
version = "0.0.0"
edition = "2024"
[dependencies]
fiddlefern = { path = "$PWD/rust/fiddlefern" }
[workspace]
END_OF_MANIFEST
echo 'fn main() { println!("{}", fiddlefern::Shape::new(7, 5, 1, 4096).unwrap().size()); }' >"$room/program/src/main.rs"
cargo build --quiet --offline --manifest-path "$room/program/Cargo.toml" >"$room/said" 2>&1 || fault 'the program is not built'

own=$(sed -n 's/^version = "\(.*\)"$/\1/p' rust/Cargo.toml)
IFS=. read -r major minor patch <<<"$own"
number=$((major << 16 | minor << 8 | patch))
[ "$(SAYS=$number "$room/built/debug/program" 2>"$room/said")" = $((4096 * 47)) ] || fault "an archive that says $own is refused"
for step in 1 256 65536 16777216 -1 -256; do
    ! SAYS=$((number + step)) "$room/built/debug/program" >"$room/said" 2>&1 || fault "an archive that says $((number + step)) is taken"
    other=$(((number + step) >> 16)).$(((number + step) >> 8 & 255)).$(((number + step) & 255))
    grep -qF "has version $other and the crate fiddlefern has version $own: " "$room/said" || fault "an archive of version $other is not named"
    tried=$((tried + 1))
done
printf '%d other versions refused\n' "$tried"
