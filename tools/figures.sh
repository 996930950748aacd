#!/usr/bin/env bash
# Prints the figures of docs/PERFORMANCE.md, each part below the command that gives it. `make lib` builds the archive that is measured. With --anew
# every crate is checked from nothing first, one after the other, for the seconds that this takes.
set -u
CDPATH='' cd -P -- "$(dirname -- "${BASH_SOURCE[0]}")/.." || exit 2

# The lines of all files named *.$2 below crates/$1.
lines() { find "crates/$1" -name "*.$2" -exec cat {} + 2>/dev/null | wc -l; }
functions() { find "crates/$1/src" -name '*.rt' -exec cat {} + | grep -cE '^ *(pub(\([a-z]+\))? )?(extern "C" )?fn '; }
edits() { find "crates/$1" -name '*.edit' | wc -l; }
seconds() { awk -v name="$1" '$1 == name { print $2 - last " s" } { last = $2 }' target/log/checks 2>/dev/null; }

# Leaves in target/log/checks each crate and the second in which its check ended.
checks() {
    mkdir -p target/log && SECONDS=0
    rt all verdict --jobs 1 </dev/null | while IFS= read -r line; do
        [[ $line != '== '* ]] || printf '%s %d\n' "${line#== }" $SECONDS
    done >target/log/checks
    return "${PIPESTATUS[0]}"
}

row() { printf '| %s | %s | %s | %s | %s | %s | %s |\n' "$@"; }

# As a Markdown table, how large each crate is: lines of code with contracts (src/), of definitions and laws (specs/) and of proofs (proofs/),
# blank lines and comments with them; functions; must-fail edits; and the seconds of its last check from nothing, where --anew has taken them.
sizes() {
    row crate functions code specs proofs 'must-fail edits' 'last check'
    echo '|---|---|---|---|---|---|---|'
    total=(0 0 0 0 0)
    while IFS=: read -r name _; do
        figures=("$(functions "$name")" "$(lines "$name/src" rt)" "$(lines "$name/specs" antt)" "$(lines "$name/proofs" antt)" "$(edits "$name")")
        for k in "${!figures[@]}"; do total[k]=$((total[k] + figures[k])); done
        time=$(seconds "$name")
        row "$name" "${figures[@]}" "${time:--}"
    done < <(sed -E 's/#.*//; s/^[[:blank:]]*([^:[:blank:]]+)[^:]*/\1/' crates.txt | grep ':')
    row all "${total[@]}" ''
}

# One part, below its command.
part() { # COMMAND..
    printf '\n== %s\n\n' "$*"
    "$@" || printf '%s ended with status %d\n' "$*" $?
}

if [ "${1:-}" = --anew ]; then checks || exit 1; fi
sizes
[ -e target/staticlib/libfiddlefern.a ] || { printf '\nno archive is there to measure: make lib builds it\n' && exit 0; }
part tests/20-call-cost.sh
.ci/c-tests >/dev/null && part target/c/small_stack depth
part make --silent bench
