#!/usr/bin/env bash
# Tests the program stripebench, which `rt ci` has built: records of every kind go in, and what it prints must be the lines that 01 asks for.
# Every expected line is written here by hand, from 01.
set -u
CDPATH='' cd -P -- "$(dirname -- "${BASH_SOURCE[0]}")/.." || exit 2

bench=crates/stripebench/out/stripebench
[ -x $bench ] || { echo "$bench is not there: rt ci builds it, and so does rt run in crates/stripebench" && exit 1; }
room=$(mktemp -d) || exit 2
trap 'rm -rf "$room"' EXIT
runs=0 wrong=0

# The bytes of hexadecimal digits; spaces do not count.
bytes() { # HEX
    local hex=${1// /}
    printf '%b' "$(sed 's/../\\x&/g' <<<"$hex")"
}

# Compares what the program prints of standard input with the file `due`.
compare() { # WHAT
    local status=0
    runs=$((runs + 1))
    $bench >"$room/out" || status=$?
    if [ $status -ne 0 ] || ! cmp -s "$room/due" "$room/out"; then
        wrong=$((wrong + 1))
        printf 'WRONG: %s (status %d; due <, printed >)\n' "$1" $status
        diff "$room/due" "$room/out" | head -n 10
    fi
}

# Feeds the records; the lines must be printed, and nothing else.
try() { # WHAT HEX LINE..
    if [ $# -gt 2 ]; then printf '%s\n' "${@:3}"; fi >"$room/due"
    compare "$1" < <(bytes "$2")
}

b='01 05 02 02 01 00'     # case B's shape: n=5 r=2 s=2 e=1, 17 bytes
w='02 00 00 00 00 07'     # 07 written at row 0, strip 0
none='00 00 00 00 00 00 00' # the upper seven bytes of a mask
ones='01 01 01 01 01 01 01 01 '

try "01's run" "$b $w 03 03 $none 04 05 00 00" '1 0 17' '2 0' '3 0 2' '4 0 0 0' '5 0 7'
try 'no records' ''

# ---- what ends the run

for kind in 0:00 6:06 255:ff; do
    try "kind ${kind%:*}, first" "${kind#*:} $b" "bad ${kind%:*}"
    try "kind ${kind%:*}, after a shape" "$b ${kind#*:} 04" '1 0 17' "bad ${kind%:*}"
done
for kind in 1:5 2:5 3:8 5:2; do
    for ((short = 0; short < ${kind#*:}; short++)); do
        body=${ones:0:3 * short}
        try "kind ${kind%:*} cut after $short bytes, without a shape" "0${kind%:*} $body" "cut ${kind%:*}"
        try "kind ${kind%:*} cut after $short bytes" "$b 0${kind%:*} $body" '1 0 17' "cut ${kind%:*}"
    done
done

# ---- 11, and the body is still read: it looks like other records

try '11 for kinds 2 to 5' "02 04 04 04 04 04 03 04 04 04 04 04 04 04 04 04 05 04 04 $b" '2 11' '3 11' '4 11' '5 11' '1 0 17'
try '11 comes before 7 and 9' "03 ff ff ff ff ff ff ff ff 02 ff ff ff ff ff 05 ff ff" '3 11' '2 11' '5 11'
try 'a refused shape is none' '01 02 01 01 01 00 04' '1 1' '4 11'

# ---- kind 1

try '1' '01 02 01 01 01 00 01 21 01 01 01 00' '1 1' '1 1'
try '2' '01 05 00 01 01 00 01 05 21 01 01 00' '1 2' '1 2'
try '3' '01 05 02 00 01 00 01 05 02 05 01 00' '1 3' '1 3'
try '4: e = 0 and 4097' '01 05 02 02 00 00 01 05 02 02 01 10' '1 4' '1 4'
try '5: n=4 s=2 has no r; n=9 s=3 has r up to 3' '01 04 01 02 01 00 01 09 05 03 01 00' '1 5' '1 5'
try 'n=9 s=4 has r up to 5: 59 bytes' '01 09 05 04 01 00' '1 0 59'
try 'the first number whose line holds' '01 00 00 00 00 00 01 05 00 00 00 00 01 05 02 00 00 00' '1 1' '1 2' '1 3'
try '4 comes before 5' '01 04 01 02 00 00' '1 4'
try '5 comes before 6: 36864 bytes' '01 04 01 02 00 10' '1 5'
try 'e is low byte first: 7 places of 1, 256 and 258 bytes' '01 03 01 01 01 00 01 03 01 01 00 01 01 03 01 01 02 01' '1 0 7' '1 0 1792' '1 0 1806'
# 32 places of 1024 bytes; 9 places of 3640 and of 3641 bytes; 959 places of 4096 bytes
try '6 above 32768, not at it' '01 0a 02 01 00 04 01 04 01 01 38 0e 01 04 01 01 39 0e 01 1f 1d 02 00 10' '1 0 32768' '1 0 32760' '1 6' '1 6'
# row 1, strip 9, byte 1023; strips 9 and 10 lost: the last bytes of a stripe of 32768
try 'a stripe of 32768 bytes to its end' '01 0a 02 01 00 04 02 01 09 ff 03 2a 02 01 09 00 00 63 03 00 06 00 00 00 00 00 00 04 05 01 09' \
    '1 0 32768' '2 0' '2 0' '3 0 2' '4 0 0 0' '5 0 99'

# ---- which stripe it is

try 'a refused shape leaves the former' "$b $w 01 02 02 02 01 00 01 04 01 02 01 00 01 04 01 01 39 0e 04 05 00 00" \
    '1 0 17' '2 0' '1 1' '1 5' '1 6' '4 0 0 0' '5 0 7'
try 'the same shape again is a new stripe' "$b $w 05 00 00 $b 05 00 00 04" '1 0 17' '2 0' '5 0 7' '1 0 17' '5 0 0' '4 0 0 0'
# strip 4 stands beyond the 7 bytes of case A's stripe
try 'and so is a larger one after a smaller' "$b 02 01 04 00 00 07 01 03 01 01 01 00 04 $b 05 01 04 04" \
    '1 0 17' '2 0' '1 0 7' '4 0 0 0' '1 0 17' '5 0 0' '4 0 0 0'

# ---- kind 3

try 'an empty mask' "$b $w 03 00 $none 05 00 00" '1 0 17' '2 0' '3 0 0' '5 0 7'
try '7: a one above bit n' "$b $w 03 40 $none 03 00 00 00 00 00 00 00 80 03 ff ff ff ff ff ff ff ff 04 05 00 00" \
    '1 0 17' '2 0' '3 7' '3 7' '3 7' '4 0 0 0' '5 0 7'
try '8: more than two strips' "$b $w 03 07 $none 03 23 $none 03 3f $none 04 05 00 00" '1 0 17' '2 0' '3 8' '3 8' '3 8' '4 0 0 0' '5 0 7'
# n=32 r=1 s=1 e=1: strip 32 has a bit of the fifth byte
try 'bit 32 is strip n of 32' '01 20 01 01 01 00 03 01 00 00 00 01 00 00 00 03 00 00 00 00 02 00 00 00' '1 0 65' '3 0 2' '3 7'

# ---- 9

try '9 for row, strip and offset of a write' "$b 02 02 00 00 00 07 02 00 05 00 00 07 02 00 00 01 00 07 02 00 00 00 01 07 02 ff ff ff ff 07 04 05 00 00" \
    '1 0 17' '2 9' '2 9' '2 9' '2 9' '2 9' '4 0 0 0' '5 0 0'
try '9 for row and strip of a read' "$b 05 02 00 05 00 05 05 ff ff 05 01 04" '1 0 17' '5 9' '5 9' '5 9' '5 0 0'
# n=3 r=1 s=1 e=258, 1806 bytes: offset 257 is the last
try 'offsets up to e - 1, low byte first' '01 03 01 01 02 01 02 00 01 01 01 ff 05 00 01 02 00 01 02 01 ff 02 00 01 00 00 fe 05 00 01 04' \
    '1 0 1806' '2 0' '5 0 0' '2 9' '2 0' '5 0 254' '4 0 0 0'

# ---- case B: all ten data elements, and every set of at most two strips lost

row0=(01 02 04 08 10) row1=(20 40 80 03 05)
write='' read='' read_due=()
for strip in 0 1 2 3 4; do
    write+=" 02 00 0$strip 00 00 ${row0[strip]} 02 01 0$strip 00 00 ${row1[strip]}"
    read+=" 05 00 0$strip 05 01 0$strip"
    read_due+=("5 0 $((16#${row0[strip]}))" "5 0 $((16#${row1[strip]}))")
done
for ((one = 0; one <= 5; one++)); do
    for ((two = one; two <= 5; two++)); do
        lost=2
        [ $one -ne $two ] || lost=1
        try "case B, strips $one and $two lost" "$b $write 03 $(printf '%02x' $((1 << one | 1 << two))) $none 04 $read" \
            '1 0 17' '2 0' '2 0' '2 0' '2 0' '2 0' '2 0' '2 0' '2 0' '2 0' '2 0' "3 0 $lost" '4 0 0 0' "${read_due[@]}"
    done
done

# ---- how the input comes, and how long it is

# one byte at a time, each a write of its own
dribble() { # HEX
    local byte
    for byte in $1; do
        printf '%b' "\\x$byte"
        sleep 0.01
    done
}
printf '%s\n' '1 0 17' '2 0' '3 0 2' '4 0 0 0' '5 0 7' 'cut 3' >"$room/due"
compare 'byte by byte' < <(dribble "$b $w 03 03 $none 04 05 00 00 03 03 00")

# a shape, and then 100 times 250 values written, rebuilt, scrubbed and read: 100,001 records
for ((value = 0; value < 250; value++)); do
    bytes "02 01 03 00 00 $(printf '%02x' $value) 03 0a $none 04 05 01 03" >&3
    printf '%s\n' '2 0' '3 0 2' '4 0 0 0' "5 0 $value" >&4
done 3>"$room/part" 4>"$room/part_due"
bytes "$b" >"$room/in" && echo '1 0 17' >"$room/due"
for ((turn = 0; turn < 100; turn++)); do
    cat "$room/part" >&3
    cat "$room/part_due" >&4
done 3>>"$room/in" 4>>"$room/due"
[ "$(wc -l <"$room/due")" -eq 100001 ] || { echo 'the long input is not what it should be' && exit 1; }
compare '100,001 records' <"$room/in"

printf '%d runs, %d wrong\n' $runs $wrong
[ $wrong -eq 0 ]
