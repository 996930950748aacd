#!/usr/bin/env bash
# Tests that rustc speaks up where a Rust program drops what it must look at: a finding above all, but also shapes, lost sets, answers and
# what the layout says. Each is compiled as a statement, with warnings denied, and must be refused for that reason and no other; the same
# call compiles where what it gives is looked at.
set -u
CDPATH='' cd -P -- "$(dirname -- "${BASH_SOURCE[0]}")/.." || exit 2

room=$(mktemp -d) || exit 2
trap 'rm -rf "$room"' EXIT
export CARGO_TARGET_DIR=$PWD/rust/target
cargo build --quiet --offline --locked --manifest-path rust/Cargo.toml --package fiddlefern || exit 1
built=$CARGO_TARGET_DIR/debug
tried=0

fault() {
    printf 'FAULT: %s\n' "$1"
    cat "$room/said"
    exit 1
}

# Compiles a function with this statement in it, as a user's crate: types and lints, nothing is linked.
compiled() { # STATEMENT
    cat >"$room/user.rs" <<END_OF_PROGRAM
#![deny(warnings)]
use fiddlefern::{Finding, Lost, Shape};
pub fn look<T>(_: T) {}
pub fn user(shape: Shape, lost: Lost, finding: Finding, stripe: &mut [u8]) -> Result<(), fiddlefern::Refusal> {
    let _ = (shape, lost, finding, &stripe);
    $1
    Ok(())
}
END_OF_PROGRAM
    rustc --edition 2024 --crate-type lib --emit metadata --out-dir "$room" -L "dependency=$built/deps" \
        --extern "fiddlefern=$built/libfiddlefern.rlib" "$room/user.rs" 2>"$room/said"
}

# The expression must be refused where it stands alone, with one error, about this; and taken where it is handed on.
dropped() { # PATTERN EXPRESSION
    compiled "$2;" && fault "$2; is dropped in silence"
    grep -qE "^error: unused $1 that must be used" "$room/said" || fault "$2; is not refused as an unused $1"
    [ "$(grep -c '^error: unused' "$room/said")" -eq 1 ] && ! grep -q '^error\[' "$room/said" || fault "$2; is refused for another reason as well"
    compiled "look($2);" || fault "$2 is refused where it is looked at"
    tried=$((tried + 1))
}

dropped '`Finding`' 'shape.scrub(stripe)?'
dropped '`Result`' 'shape.scrub(stripe)'
dropped '`Result`' 'shape.encode(stripe)'
dropped '`Result`' 'shape.write(stripe, 0, 0, 0, &[1])'
dropped '`Result`' 'shape.read(stripe, 0, 0)'
dropped '`Result`' 'shape.rebuild(stripe, lost)'
dropped '`Shape`' 'Shape::new(7, 5, 1, 512)?'
dropped '`Shape`' '"n=7 r=5 s=1 e=512".parse::<Shape>().unwrap()'
dropped '`Lost`' 'shape.lost(&[0, 1])?'
dropped '`Lost`' 'Lost::strip(3)'
dropped '`Lost`' 'Lost::from_mask(3)'
dropped '`Lost`' 'Lost::from_iter([0, 1])'
dropped '`Lost`' 'finding.strips(shape)'
for call in 'Finding::told(finding, shape)' 'Finding::code(finding)' 'Finding::counts(finding)' 'Lost::contains(lost, 3)' 'Lost::len(lost)' \
    'Lost::mask(lost)' 'Lost::is_empty(lost)' 'Shape::n(shape)' 'Shape::r(shape)' 'Shape::s(shape)' 'Shape::e(shape)' 'Shape::data_strips(shape)' \
    'Shape::rows(shape)' 'Shape::shift(shape)' 'Shape::element_bytes(shape)' 'Shape::capacity(shape)' 'Shape::size(shape)' 'Shape::strips(shape)' \
    'Shape::strip_bytes(shape, 0)' 'Shape::strip_range(shape, 0)' 'Shape::strip_len(shape, 0)' 'Shape::data_range(shape, 0)' \
    'Shape::element_range(shape, 0, 0)' 'Shape::h_range(shape, 0)' 'Shape::u_range(shape, 0)' 'Shape::diagonal(shape, 0, 0)' \
    'Shape::touched(shape, 0, 0)' 'Shape::locate(shape, 0)' 'Shape::byte_at(shape, 0, 0, 0)'; do
    name=${call%%(*}
    dropped "return value of \`.*::${name##*:}\`" "$call"
done
printf '%d expressions\n' "$tried"
