#!/usr/bin/env bash
# Times a proved and built program beside the same in C: units of work per second of processor time
# for each, and the ratio of their times.
#   beside_c.sh CRATE FOLDER COUNT UNIT
# CRATE is the crate that the program uses, FOLDER below bench/ has its src/, its proofs/ and one C
# file, and COUNT says how many UNITs of work a run does. It takes some minutes, since the program is
# proved first.
set -euo pipefail
crate="$1" folder="$2" count="$3" unit="$4"
. "$(dirname "$0")/copied.sh"
copy_program "$folder" "$crate" "$crate"
run_program "$folder" 1 > "$work/first.txt"
program="$(built_program "$folder")"
cc -O2 -march=x86-64-v2 -o "$work/in_c" "$here/$folder"/*.c

# user seconds of the fastest of three runs
fastest() {
    for _ in 1 2 3; do
        ( TIMEFORMAT=%U; time "$1" > "$work/output.txt" ) 2>&1
    done | sort -n | head -n 1
}
ours="$(fastest "$program")"
text="$(cat "$work/output.txt")"
theirs="$(fastest "$work/in_c")"
if [ "$text" != "$(cat "$work/output.txt")" ]; then
    echo "the two programs differ: $text, $(cat "$work/output.txt")"
    exit 1
fi
echo "$text"
awk -v a="$ours" -v b="$theirs" -v n="$count" -v unit="$unit" 'BEGIN {
    printf "proved program: %.1f million %s a second\n", n / a / 1e6, unit
    printf "C:              %.1f million %s a second\n", n / b / 1e6, unit
    printf "ratio of times: %.2f\n", a / b
}'
