#!/usr/bin/env bash
# Tests that tools/elimination.out and tools/erasures.out are what elimination gives, and that the program
# `worked` is held to them: the lines of each stand in crates/worked/stdout, in one block and unchanged.
set -u
CDPATH='' cd -P -- "$(dirname -- "${BASH_SOURCE[0]}")/.." || exit 2

room=$(mktemp -d) || exit 2
trap 'rm -rf "$room"' EXIT

# Tests the output of one program of tools/.
held() { # NAME
    gcc -std=c99 -O2 -Wall -Wextra -pedantic -Werror "tools/$1.c" -o "$room/$1" && "$room/$1" >"$room/out" || return 1
    diff "$room/out" "tools/$1.out" || { echo "tools/$1.out is not what elimination gives" && return 1; }
    awk 'NR == FNR { want[wanted++] = $0; next }
         { have[got++] = $0 }
         END {
             for (from = 0; from + wanted <= got; from++) {
                 for (k = 0; k < wanted && have[from + k] "" == want[k] ""; k++);
                 if (k == wanted) exit 0
             }
             exit 1
         }' "tools/$1.out" crates/worked/stdout ||
        { echo "the lines of tools/$1.out do not stand in crates/worked/stdout" && return 1; }
}

for name in elimination erasures; do
    held "$name" || exit 1
done
