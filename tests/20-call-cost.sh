#!/usr/bin/env bash
# Tests what the calls cost, in instructions counted by valgrind's callgrind, against the limits of docs/PERFORMANCE.md, and that they answer
# right; prints the counts that stand there. Passes by where valgrind is not there.
set -u
CDPATH='' cd -P -- "$(dirname -- "${BASH_SOURCE[0]}")/.." || exit 2
command -v valgrind >/dev/null || { echo 'valgrind is not there: nothing counted' && exit 0; }

room=$(mktemp -d) || exit 2
trap 'rm -rf "$room"' EXIT
gcc -std=gnu99 -O2 -Wall -Wextra -Werror -Iinclude tools/call_cost.c target/staticlib/libfiddlefern.a -o "$room/call_cost" || exit 1

# The instructions of a run of call_cost.
instructions() { # CALL COUNT n r s e
    valgrind --tool=callgrind --callgrind-out-file=/dev/null "$room/call_cost" "$@" >"$room/said" 2>&1 || { cat "$room/said" >&2 && return 1; }
    sed -n 's/.*Collected : //p' "$room/said"
}

# The instructions of one call, apart from the call itself.
cost() { # CALL COUNT n r s e
    local with without
    with=$(instructions "$@") && without=$(instructions nothing "${@:2}") || return 1
    [ "${with:-0}" -gt "${without:-0}" ] || { echo 'nothing was counted' >&2 && return 1; }
    echo $(((with - without) / $2))
}

# Counts a call and prints what it costs, which it leaves in k; fails above LIMIT thousandths of an instruction a byte (0: no limit).
counted() { # WHAT BYTES LIMIT CALL COUNT n r s e
    local each
    k=$(cost "${@:4}") || exit 1
    each=$((k * 1000 / $2))
    printf '%s, n r s e = %s: %d instructions' "$1" "${*:6}" "$k"
    if [ "$2" -gt 1 ]; then printf ', %d.%03d a byte' $((each / 1000)) $((each % 1000)); fi
    echo
    [ "$3" -eq 0 ] || [ "$each" -le "$3" ] || { echo "above the limit, $3 thousandths" && exit 1; }
}

for shape in '7 5 1 4096' '9 5 4 1' '31 29 2 4096'; do
    counted 'judge, a good shape' 1 79000 judge 1000 $shape
done
for shape in '8 5 1 1' '32 16 16 1'; do
    counted 'judge, a weak shape' 1 0 judge 100 $shape
done

# 35 data elements
data=$((7 * 5 * 4096))
counted 'encode' $data 450 encode 20 7 5 1 4096
encode=$k
counted 'scrub, a sound stripe' $data 500 scrub 20 7 5 1 4096
counted 'write of 4096 bytes' 4096 2200 write 100 7 5 1 4096
counted 'write of one byte' 1 0 write1 1000 7 5 1 4096
counted 'read' 1 0 read 1000 7 5 1 4096

# A rebuild may cost 1.3 times what encode costs, whichever strips are lost: two data strips, one, strip n, one of each.
rebuilt() { # WHAT MASK
    counted "rebuild, $1 lost" 1 $((encode * 1300)) "rebuild:$2" 20 7 5 1 4096
}
rebuilt 'strips 1 and 3' 10
rebuilt 'strip 1' 2
rebuilt 'strip 7' 128
rebuilt 'strips 1 and 7' 130
