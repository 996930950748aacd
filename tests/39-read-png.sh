#!/usr/bin/env bash
# Tests that tools/read_png.c, by which the demo's pictures are judged, reads a picture that is made here by hand, its sums computed by gzip
# and awk, and refuses it with any byte changed, each check of its own.
set -u
CDPATH='' cd -P -- "$(dirname -- "${BASH_SOURCE[0]}")/.." || exit 2

room=$(mktemp -d) || exit 2
trap 'rm -rf "$room"' EXIT
gcc -std=c99 -O2 -Wall -Wextra -pedantic -Werror tools/read_png.c -o "$room/read_png" || exit 1
cd "$room" || exit 2
tried=0

fault() {
    printf 'FAULT: %s\n' "$1"
    exit 1
}

bytes() { # HEX..
    printf '%b' "$(printf '\\x%s' "$@")"
}

# A number in four bytes, high first.
four() { bytes $(printf '%08x' "$1" | sed 's/../& /g'); }

# The CRC-32 of standard input in four bytes, high first; gzip ends with it, low first, and a length.
crc() { bytes $(gzip -c | tail -c 8 | head -c 4 | od -An -tx1 | awk '{ print $4, $3, $2, $1 }'); }

chunk() { # TYPE FILE
    four "$(wc -c <"$2")"
    { printf '%s' "$1" && cat "$2"; } >typed
    cat typed && crc <typed
}

# A picture of 3 x 2 pixels from its zlib stream, which stands in the file FILE.
picture() { # FILE
    bytes 00 00 00 03 00 00 00 02 08 00 00 00 00 >head
    bytes 89 50 4e 47 0d 0a 1a 0a
    chunk IHDR head && chunk IDAT "$1" && chunk IEND /dev/null
}

# The file FILE with the byte at OFFSET changed by VALUE, which is added.
changed() { # FILE OFFSET VALUE
    head -c "$2" "$1"
    bytes "$(printf '%02x' $((($(od -An -tu1 -j "$2" -N 1 "$1") + $3) % 256)))"
    tail -c +$(($2 + 2)) "$1"
}

refuses() { # CLUE WHAT
    ! ./read_png tried.png out >said 2>&1 || fault "$2 is not noticed"
    grep -qF -e "$1" said || fault "$2: $(cat said)"
    tried=$((tried + 1))
}

# Two stored blocks, of 5 and of 3 bytes: a byte 0 before each line, and the pixels 10 20 30, 40 50 255.
lines='0 10 20 30 0 40 50 255'
{
    bytes 78 01 00 05 00 fa ff 00 0a 14 1e 00 01 03 00 fc ff 28 32 ff
    four "$(awk -v lines="$lines" 'BEGIN { a = 1; count = split(lines, v, " "); for (k = 1; k <= count; k++) { a += v[k]; b += a }; print b * 65536 + a }')"
} >stream
picture stream >good.png
[ "$(./read_png good.png out)" = '3 2' ] || fault 'a good picture is refused'
[ "$(od -An -tu1 out | xargs)" = '10 20 30 40 50 255' ] || fault 'the pixels are read wrong'

size=$(wc -c <good.png)
for ((k = 0; k < size; k++)); do
    changed good.png $k 1 >tried.png && refuses '' "byte $k changed"
    head -c $k good.png >tried.png && refuses '' "a file of $k bytes"
done
{ cat good.png && bytes 00; } >tried.png && refuses 'something follows the end' 'a byte after the end'

# A changed byte of the zlib stream with the CRC made right: what is inside is tested by itself.
while read -r offset value clue; do
    changed stream "$offset" "$value" >other && picture other >tried.png && refuses "$clue" "byte $offset of the stream changed by $value"
done <<'END_OF_CHANGES'
0 1 not deflate
1 1 the check of the zlib header
2 2 not stored
2 1 the Adler-32
3 1 its complement
5 1 its complement
8 1 the Adler-32
12 255 ends before its last block
19 1 the Adler-32
23 1 the Adler-32
END_OF_CHANGES
printf '%d pictures refused\n' "$tried"
