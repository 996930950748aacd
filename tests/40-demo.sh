#!/usr/bin/env bash
# Tests the example plate (make demo): its pictures, decoded by tools/read_png.c, are the figure of the published formula, the picture with
# the lost disks' bytes missing and those alone, and the figure again; disks that were rebuilt are the disks that were laid. What is
# compared with is computed here, by awk.
set -u
CDPATH='' cd -P -- "$(dirname -- "${BASH_SOURCE[0]}")/.." || exit 2

room=$(mktemp -d) || exit 2
trap 'rm -rf "$room"' EXIT
export CARGO_TARGET_DIR=$PWD/rust/target
gcc -std=c99 -O2 -Wall -Wextra -pedantic -Werror tools/read_png.c -o "$room/read_png" || exit 1
cargo build --quiet --offline --locked --manifest-path rust/Cargo.toml --package fiddlefern --example plate || exit 1
plate=$CARGO_TARGET_DIR/debug/examples/plate

fault() {
    printf 'FAULT: %s\n' "$1"
    exit 1
}

# Runs plate into the folder OUT of the room; it must end with 0 and say nothing on standard error, which is no terminal.
run() { # OUT ARGUMENT..
    "$plate" --out "$room/$1" "${@:2}" >"$room/$1.said" 2>"$room/$1.err" || fault "plate ${*:2} ended with $?: $(cat "$room/$1.err")"
    [ ! -s "$room/$1.err" ] || fault "plate ${*:2} says on standard error: $(cat "$room/$1.err")"
}

# Decodes the three pictures of a run into files .raw, one gray a line.
decode() { # OUT SIZE
    local picture
    for picture in plate lost rebuilt; do
        [ "$("$room/read_png" "$room/$1/$picture.png" "$room/pixels")" = "$2 $2" ] || fault "$1/$picture.png is no picture of $2 x $2"
        od -An -v -tu1 -w1 "$room/pixels" >"$room/$1/$picture.raw"
    done
    cmp "$room/$1/plate.raw" "$room/$1/rebuilt.raw" || fault "$1: the rebuilt picture is not the plate"
}

# Tests that sand lies where f changes its sign and not elsewhere: of two neighbours with different signs one has sand, and around a pixel
# with sand f takes both signs within two pixels. Most of the plate is bare.
figure() { # OUT SIZE A B
    awk -v size="$2" -v a="$3" -v b="$4" '
        function f(x, y) {
            x = (x + 0.5) / size * pi; y = (y + 0.5) / size * pi
            return cos(a * x) * cos(b * y) - cos(b * x) * cos(a * y)
        }
        function sand(x, y) { return gray[y * size + x] >= 128 }
        function differ(x, y, u, v) { return sign[x, y] * sign[u, v] < 0 && !sand(x, y) && !sand(u, v) }
        { gray[NR - 1] = $1 }
        END {
            pi = atan2(0, -1)
            for (y = -2; y < size + 2; y++) for (x = -2; x < size + 2; x++) {
                value = f(x, y)
                sign[x, y] = value > 1e-9 ? 1 : value < -1e-9 ? -1 : 0
            }
            for (y = 0; y < size; y++) for (x = 0; x < size; x++) {
                if (x + 1 < size && differ(x, y, x + 1, y) || y + 1 < size && differ(x, y, x, y + 1)) bare++
                if (!sand(x, y)) continue
                grains++; plus = minus = 0
                for (v = y - 2; v <= y + 2; v++) for (u = x - 2; u <= x + 2; u++) {
                    plus = plus || sign[u, v] >= 0; minus = minus || sign[u, v] <= 0
                }
                if (!(plus && minus)) stray++
            }
            printf "mode %d,%d: %d of %d pixels have sand, %d stray, %d bare\n", a, b, grains, NR, stray, bare
            exit !(NR == size * size && grains * 50 > NR && grains * 3 < NR && !stray && !bare)
        }' "$room/$1/plate.raw" || fault "$1: the sand does not lie along the still lines"
}

# Tests that the bytes of the lost disks, and no others, are missing from the lost picture, and that as many were told; and the disks' sizes.
lost() { # OUT SIZE n r e A B
    local out=$1 size=$2 n=$3 r=$4 e=$5 told disk stripes elements
    told=$(sed -n "s/^Disks $6 and $7 are taken away, and with them \([0-9]*\) of .*/\1/p" "$room/$out.said")
    paste "$room/$out/plate.raw" "$room/$out/lost.raw" | awk -v n="$n" -v strip="$((r * e))" -v A="$6" -v B="$7" -v told="$told" '
        { disk = int((NR - 1) / strip) % n; gone = disk == A || disk == B; all += gone }
        gone ? $2 != 128 : $2 != $1 { wrong++ }
        $1 != $2 { differ++ }
        END { exit !(told != "" && told == all && differ && !wrong) }' || fault "$out: the lost picture is not the plate without disks $6 and $7"
    stripes=$(((size * size + n * r * e - 1) / (n * r * e)))
    for ((disk = 0; disk <= n; disk++)); do
        elements=$((disk < n ? r + 1 : r))
        [ "$(wc -c <"$room/$out/disk-$disk.bin")" -eq $((stripes * elements * e)) ] || fault "$out: disk $disk has not $stripes strips"
    done
    [ "$(find "$room/$out" -name 'disk-*' | wc -l)" -eq $((n + 1)) ] || fault "$out: there are not $((n + 1)) disks"
}

# What the program usually does: n=7 r=5 s=1, an element a line, disks 2 and 5. A picture of this size takes two deflate blocks.
run usual
decode usual 256
figure usual 256 3 7
lost usual 256 7 5 256 2 5
for sentence in 'refused as weak, with the number 5:' 'strips 0 and 4 lost together could not be given back' 'It answers 10: ' \
    'every byte of the lost strips is zero' 'the rebuild answers 0' 'So scrub before disks are lost'; do
    grep -qF "$sentence" "$room/usual.said" || fault "it does not say: $sentence"
done

# Other modes, shapes and pairs, with strip n and with a last stripe that is not full; each pair's disks are those that the other pair left as laid.
while read -r n r s e size mode one two; do
    for pair in "$one" "$two"; do
        run "$pair" --n "$n" --r "$r" --s "$s" --e "$e" --size "$size" --mode "$mode" --lose "$pair"
        decode "$pair" "$size"
        figure "$pair" "$size" ${mode/,/ }
        lost "$pair" "$size" "$n" "$r" "$e" ${pair/,/ }
    done
    for ((disk = 0; disk <= n; disk++)); do
        cmp "$room/$one/disk-$disk.bin" "$room/$two/disk-$disk.bin" || fault "disk $disk differs after losing $one and after losing $two"
    done
    rm -r "${room:?}/$one" "${room:?}/$two"
done <<'END_OF_SHAPES'
7 5 1 64 64 3,5 0,1 2,7
9 5 4 50 100 2,9 0,8 3,9
8 3 5 1 64 4,7 0,4 1,8
3 1 1 4096 80 0,3 0,2 1,3
31 29 2 4 64 1,6 5,30 29,31
END_OF_SHAPES

# The bar is for terminals.
if command -v script >/dev/null; then
    script -qec "$plate --size 64 --out $room/bar" /dev/null | grep -qE '\[#{40}\] [0-9]+ of [0-9]+ stripes' || fault 'there is no bar on a terminal'
fi

# make demo, with the archive as it is.
if command -v make >/dev/null; then
    make --silent --old-file=lib demo PLATE='--mode 2,9 --n 9 --s 4 --lose 0,9' >"$room/made" || fault "README's make demo did not end with 0"
    make --silent --old-file=lib demo PLATE='--mode 3,7' >"$room/made" || fault 'make demo did not end with 0'
    cmp "$room/usual/rebuilt.png" target/demo/rebuilt.png || fault 'make demo does not leave its pictures in target/demo'
fi
