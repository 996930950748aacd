#!/usr/bin/env bash
# Tests how the programs of crates/, which `rt ci` has built, end where a read or a write fails: with status 1, a line on standard error that
# says so, and nothing on standard output.
set -u
CDPATH='' cd -P -- "$(dirname -- "${BASH_SOURCE[0]}")/.." || exit 2

for program in stripebench worked; do
    [ -x crates/$program/out/$program ] || { echo "$program is not there: rt ci builds it, and so does rt run in crates/$program" && exit 1; }
done
room=$(mktemp -d) || exit 2
trap 'rm -rf "$room"' EXIT
runs=0 wrong=0

# Looks at how a run ended that is to fail, by what it left in the room.
failed() { # STATUS WHAT
    runs=$((runs + 1))
    [ "$1" -eq 1 ] && [ ! -s "$room/out" ] && [ "$(wc -l <"$room/error")" -eq 1 ] && grep -q '^Error: ' "$room/error" && return
    wrong=$((wrong + 1))
    printf 'WRONG: %s (status %d)\n' "$2" "$1"
    head -n 3 "$room/out" "$room/error"
}

# A folder cannot be read as a file, and nothing can be written to /dev/full.
crates/stripebench/out/stripebench </ >"$room/out" 2>"$room/error"
failed $? 'stripebench, a read fails'
: >"$room/out"
printf '\1\5\2\2\1\0' | crates/stripebench/out/stripebench >/dev/full 2>"$room/error"
failed $? 'stripebench, a write fails'
crates/worked/out/worked </dev/null >/dev/full 2>"$room/error"
failed $? 'worked, a write fails'

printf '%d runs, %d wrong\n' $runs $wrong
[ $wrong -eq 0 ]
