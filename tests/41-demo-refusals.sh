#!/usr/bin/env bash
# Tests what the example plate refuses: a wrong argument is answered with 2 and one sentence and writes nothing, a folder that is not its own
# is left as it is, and where something cannot be written it ends with 1 and a sentence.
set -u
CDPATH='' cd -P -- "$(dirname -- "${BASH_SOURCE[0]}")/.." || exit 2

room=$(mktemp -d) || exit 2
trap 'rm -rf "$room"' EXIT
export CARGO_TARGET_DIR=$PWD/rust/target
cargo build --quiet --offline --locked --manifest-path rust/Cargo.toml --package fiddlefern --example plate || exit 1
plate=$CARGO_TARGET_DIR/debug/examples/plate
mkdir "$room/here" && cd "$room/here" || exit 2
tried=0 said=$room/said

fault() {
    printf 'FAULT: %s\n' "$1"
    exit 1
}

# What is in the folder that plate is run in: names, kinds, links, and the bytes of files.
all() { find . -printf '%p %y %l\n' -type f -exec cksum {} \; | sort; }

# Runs plate with a wrong argument: it must answer with STATUS and one sentence with CLUE in it, and with 2 leave everything as it was.
refused() { # STATUS CLUE ARGUMENT..
    local before status=0
    before=$(all)
    "$plate" "${@:3}" >"$said" 2>"$room/err" || status=$?
    [ "$status" -eq "$1" ] || fault "plate ${*:3} ended with $status: $(cat "$room/err")"
    [ "$(wc -l <"$room/err")" -eq 1 ] && grep -q '^plate: ' "$room/err" || fault "plate ${*:3} does not say one sentence: $(cat "$room/err")"
    grep -qF -e "$2" "$room/err" || fault "plate ${*:3} says: $(cat "$room/err")"
    [ "$1" -ne 2 ] || { [ ! -s "$said" ] && [ "$before" = "$(all)" ]; } || fault "plate ${*:3} was refused and wrote something"
    tried=$((tried + 1))
}

refused 2 'no argument --colour' --colour 3
refused 2 'no argument 7' 7
refused 2 'no argument --n=7' --n=7
refused 2 '--n needs a value' --n
refused 2 '--n needs a value' --n --r 5
refused 2 '--out needs a value' --size 64 --out
refused 2 '--n is given twice' --n 7 --n 7
for number in seven -1 7.5 '' ' 7' 0x7 99999999999999999999 $'\xff'; do
    for name in --n --r --s --e --size; do refused 2 "$name takes a whole number" $name "$number"; done
    for name in --lose --mode; do
        for pair in "$number,5" "5,$number"; do refused 2 "$name takes two whole numbers" $name "$pair"; done
    done
done
for name in --lose --mode; do
    for numbers in 1 1,2,3 '1,2,' '1;2' ''; do refused 2 "$name takes two whole numbers" $name "$numbers"; done
done
for n in 0 2 33 18446744073709551615; do refused 2 "n is $n and must be 3 to 32" --n $n; done
for r in 0 33; do refused 2 "r is $r and must be 1 to 32" --r $r; done
for s in 0 7; do refused 2 "s is $s and must be 1 to 6" --s $s; done
for e in 0 4097; do refused 2 "e is $e and must be 1 to 4096" --e $e; done
for size in 0 63 4097; do refused 2 "--size is $size and must be 64 to 4096" --size $size; done
refused 2 'weak: strips 0 and 4 cannot both be given back' --n 8 --r 5 --s 1
refused 2 'weak: strips 0 and 3 cannot both be given back' --n 9 --r 5 --s 3
refused 2 'is weak' --n 4 --s 2
refused 2 'disk 3 twice' --lose 3,3
refused 2 'disk 8, and the last disk is 7' --lose 8,2
refused 2 'disk 4, and the last disk is 3' --n 3 --lose 0,4
refused 2 'the two numbers must differ' --mode 5,5
refused 2 'the two numbers must differ' --mode 0,0
refused 2 '--mode has 9, and' --size 64 --mode 9,2

# The folder.
echo mine >file
mkdir foreign pictures empty && echo mine >foreign/notes.txt && echo mine >pictures/plate.png || exit 2
refused 2 'names no folder' --out ''
refused 2 'no is no folder' --out no/such
refused 2 'file cannot be read' --out file
refused 2 'foreign has notes.txt in it' --out foreign
refused 2 'pictures has plate.png in it' --out pictures
"$plate" --size 64 --out empty >"$said" || fault 'an empty folder is refused'
"$plate" --size 64 >"$said" || fault 'a new folder is refused'
diff -r empty plate-demo || fault 'a run is not like the other, or is not in plate-demo'
"$plate" --size 64 --n 3 --out empty >"$said" || fault "plate's own folder is refused"
[ ! -e empty/disk-4.bin ] || fault 'a disk of an earlier run is left'
echo mine >empty/notes.txt
refused 2 'empty has notes.txt in it' --out empty
rm empty/notes.txt empty/lost.png && ln -s ../file empty/lost.png
refused 2 'empty has lost.png in it' --out empty
rm empty/lost.png && echo other >empty/written-by-plate.txt
refused 2 'empty has ' --out empty

# What cannot be written. A full disk is played by a limit to the length of files; what it leaves is plate's own.
said=/dev/full refused 1 'standard output takes no more' --size 64 --out stopped
(
    trap '' XFSZ
    ulimit -f 1
    refused 1 'full/plate.png cannot be written' --size 64 --out full
) || exit 1
"$plate" --size 64 --out full >"$said" || fault 'what a full disk left is refused'
diff -r full plate-demo || fault 'what a full disk left has an influence'
printf '%d refusals\n' "$tried"
