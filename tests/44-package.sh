#!/usr/bin/env bash
# Tests the packages of fiddlefern-sys and fiddlefern: cargo packs and verifies them, without the network; their sources, both licences and a README are
# in them; and the README's example is built from the packages and the archive alone, with nothing else of the repository around it, and ends with 0.
set -u
CDPATH='' cd -P -- "$(dirname -- "${BASH_SOURCE[0]}")/.." || exit 2

room=$(mktemp -d) || exit 2
trap 'rm -rf "$room"' EXIT
unset CARGO_TARGET_DIR
export CARGO_TERM_COLOR=never FIDDLEFERN_LIB_DIR=$room/archive
mkdir "$room/archive" && cp target/staticlib/libfiddlefern.a "$room/archive" || exit 2
version=$(sed -n 's/^version = "\(.*\)"$/\1/p' rust/Cargo.toml)

fault() {
    printf 'FAULT: %s\n' "$1"
    cat "$room/said"
    exit 1
}

runs() { # WHAT COMMAND..
    "${@:2}" >"$room/said" 2>&1 || fault "$1: ${*:2} ended with $?"
}

# A folder that stands for the registry, with the packages as cargo packed them.
registry=$room/registry
replaced=(--offline --config 'source.crates-io.replace-with="packed"' --config "source.packed.directory=\"$registry\"")
mkdir -p "$registry" "$room/program/src" || exit 2

# Packs a crate, which builds it from the package, and puts it into the registry.
packs() { # CRATE
    local crate=$room/built/package/$1-$version.crate
    runs "$1" cargo package "${replaced[@]}" --locked --allow-dirty --target-dir "$room/built" --manifest-path rust/Cargo.toml --package "$1"
    grep -q "Verifying $1 v$version" "$room/said" || fault "$1 is not verified"
    tar -xzf "$crate" -C "$registry" || exit 2
    printf '{"files":{},"package":"%s"}\n' "$(sha256sum <"$crate" | cut -d ' ' -f 1)" >"$registry/$1-$version/.cargo-checksum.json"
    [ -z "$(find "$registry" -type l)" ] || fault "$1 has links"
    for file in LICENSE-MIT LICENSE-APACHE "rust/$1/README.md"; do
        cmp "$file" "$registry/$1-$version/${file##*/}" || fault "$1 has not $file"
    done
}

# Tests that a package has these files of its crate beside manifest, lock, licences and README, and no other; cargo's notes are passed over.
has() { # CRATE FILE..
    (cd "$registry/$1-$version" && find . -type f ! -name '.cargo*' -printf '%P\n' | LC_ALL=C sort) >"$room/said"
    printf '%s\n' Cargo.lock Cargo.toml Cargo.toml.orig LICENSE-APACHE LICENSE-MIT README.md "${@:2}" | LC_ALL=C sort | diff - "$room/said" ||
        fault "$1 has not just what it should"
}

packs fiddlefern-sys
has fiddlefern-sys build.rs src/lib.rs
packs fiddlefern
(cd rust/fiddlefern && find src examples -type f) >"$room/files"
mapfile -t files <"$room/files"
has fiddlefern "${files[@]}"

cd "$room/program" || exit 2
printf '%s\n' '[package]' 'name = "program"' 'version = "0.0.0"' 'edition = "2024"' '[dependencies]' "fiddlefern = \"$version\"" >Cargo.toml
sed -n '/^```rust$/,/^```$/p' "$registry/fiddlefern-$version/README.md" | sed '1d;$d' >src/main.rs
[ -s src/main.rs ] || fault 'there is no example in the README'
runs 'the example' cargo run "${replaced[@]}" --target-dir "$room/ran"
runs 'the examples of the package' cargo build "${replaced[@]}" --manifest-path "$registry/fiddlefern-$version/Cargo.toml" --examples \
    --target-dir "$room/ran"
