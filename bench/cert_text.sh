#!/usr/bin/env bash
# Checks certificates of 25, 50 and 100 MB with a proved and built program, beside the same in C, and prints the
# seconds of processor time of each and the ratio. It takes some minutes, since the program is proved first.
set -euo pipefail
. "$(dirname "$0")/copied.sh"
copy_program cert_text "cert_text gate_graph" \
    gate_graph lemma_checker watch_lists clause_solver unroll_cnf invariant_miner k_induction cert_text
run_program cert_text 2 > "$work/first.txt"
program="$(built_program cert_text)"
cc -O2 -march=x86-64-v2 -o "$work/in_c" "$here"/cert_text/*.c

# user seconds of the fastest of three runs
fastest() {
    for _ in 1 2 3; do
        ( TIMEFORMAT=%U; time "$@" > "$work/output.txt" ) 2>&1
    done | sort -n | head -n 1
}
for megabytes in 25 50 100; do
    chains=$((megabytes * 1000000 / 22))
    ours="$(fastest "$program" "$chains")"
    text="$(cat "$work/output.txt")"
    theirs="$(fastest "$work/in_c" "$chains")"
    if [ "$text" != "$(cat "$work/output.txt")" ]; then
        echo "the two programs differ: $text, $(cat "$work/output.txt")"
        exit 1
    fi
    awk -v m="$megabytes" -v a="$ours" -v b="$theirs" 'BEGIN {
        printf "%3d MB: proved program %.2f s, C %.2f s, ratio %.2f\n", m, a, b, a / b
    }'
done
