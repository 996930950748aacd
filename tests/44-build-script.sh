#!/usr/bin/env bash
# Tests rust/fiddlefern-sys/build.rs in a copy of the crates: which archive it takes, that it notices one that comes, changes or goes and otherwise
# builds nothing anew, what it says where there is none, and which targets it refuses. The archives are small ones that are made here, and
# each says a version of its own, so that a program shows which of them it was linked with.
set -u
CDPATH='' cd -P -- "$(dirname -- "${BASH_SOURCE[0]}")/.." || exit 2

room=$(mktemp -d) || exit 2
trap 'rm -rf "$room"' EXIT
unset FIDDLEFERN_LIB_DIR
export CARGO_TARGET_DIR=$room/built CARGO_TERM_COLOR=never
repo=$room/repo tried=0

fault() {
    printf 'FAULT: %s\n' "$1"
    cat "$room/said"
    exit 1
}

mkdir -p "$repo/rust" "$room/program/src" && cp -R rust/Cargo.* rust/fiddlefern-sys rust/fiddlefern rust/model "$repo/rust" || exit 2
cat >"$room/program/Cargo.toml" <<END_OF_MANIFEST
[package]
name = "program"
version = "0.0.0"
edition = "2024"
[dependencies]
fiddlefern-sys = { path = "$repo/rust/fiddlefern-sys" }
[workspace]
END_OF_MANIFEST
echo 'fn main() { println!("{}", fiddlefern_sys::fiddlefern_version()); }' >"$room/program/src/main.rs"

# Makes an archive that says VERSION.
archive() { # FOLDER VERSION
    mkdir -p "$1" && echo "unsigned long fiddlefern_version(void) { return $2; }" >"$room/version.c" || exit 2
    gcc -c "$room/version.c" -o "$room/version.o" && rm -f "$1/libfiddlefern.a" && ar rcs "$1/libfiddlefern.a" "$room/version.o" || exit 2
}

# Builds and runs the program; it must have been linked with the archive that says VERSION.
linked() { # WHAT VERSION
    cargo run --offline --manifest-path "$room/program/Cargo.toml" >"$room/says" 2>"$room/said" || fault "$1: it does not run"
    [ "$(cat "$room/says")" = "$2" ] || fault "$1: the archive of version $(cat "$room/says") is linked"
    tried=$((tried + 1))
}

# Runs cargo; it must end with STATUS and say CLUE.
cargo_says() { # WHAT STATUS CLUE ARGUMENT..
    local status=0
    cargo "${@:4}" >"$room/said" 2>&1 || status=$?
    [ $((status > 0)) -eq "$2" ] || fault "$1: cargo ${*:4} ended with $status"
    grep -qF -e "$3" "$room/said" || fault "$1: cargo does not say: $3"
    tried=$((tried + 1))
}
crates=(--offline --locked --manifest-path "$repo/rust/Cargo.toml" --package fiddlefern-sys)

# Without an archive: what needs none works, and the rest says what to do.
cargo_says 'no archive' 0 "libfiddlefern.a is not there: run \`make lib\`" check "${crates[@]}" --package fiddlefern
cargo_says 'no archive' 0 'Generated' doc --no-deps "${crates[@]}" --package fiddlefern
cargo_says 'no archive' 1 'run `make lib` at the root of the repository, or set FIDDLEFERN_LIB_DIR' build "${crates[@]}"

# Cargo goes by the times of files.
archive "$repo/target/staticlib" 2
linked 'one that comes into target/staticlib' 2
linked 'again' 2
! grep -q Compiling "$room/said" || fault 'it is built anew though nothing has changed'
sleep 1.1
archive "$repo/target/staticlib" 4
linked 'one that changes' 4
archive "$room/named" 1
FIDDLEFERN_LIB_DIR=$room/named linked 'the one that is named' 1
sleep 1.1
archive "$room/named" 5
FIDDLEFERN_LIB_DIR=$room/named linked 'the one that is named, changed' 5
FIDDLEFERN_LIB_DIR=../../../named linked 'the one that is named from the crate on' 5
FIDDLEFERN_LIB_DIR='' linked 'an empty name' 4
FIDDLEFERN_LIB_DIR=$room/nowhere cargo_says 'a folder without' 1 "$room/nowhere/libfiddlefern.a is not there: run \`make lib\`" check "${crates[@]}"
linked 'the one that was built' 4
rm -r "$repo/target"
cargo_says 'after target/ was removed' 1 "libfiddlefern.a is not there" build --offline --manifest-path "$room/program/Cargo.toml"

# Targets. No library of theirs has to be there: the crate is refused before it is compiled.
for target in aarch64-unknown-linux-gnu i686-unknown-linux-gnu x86_64-unknown-linux-gnux32 x86_64-apple-darwin x86_64-pc-windows-gnu; do
    cargo_says $target 1 "for x86-64 Linux alone (target_arch x86_64, target_os linux, target_pointer_width 64), and the target $target is" \
        check "${crates[@]}" --target $target
done
cargo check "${crates[@]}" --target x86_64-unknown-linux-musl >"$room/said" 2>&1
! grep -qF 'for x86-64 Linux alone' "$room/said" || fault 'x86_64-unknown-linux-musl is refused'
printf '%d builds\n' "$tried"
