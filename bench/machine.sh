#!/usr/bin/env bash
# Builds the register machine of a map of 1,024 words and 4,096 field bits as gates with a proved and
# built program, three times, and prints the seconds that each takes. Run it from anywhere; it takes
# long, since the program and all crates below it are proved first.
set -euo pipefail
. "$(dirname "$0")/copied.sh"
declare -A seen=()
# the crates of the repository among these, with all below them
add() {
    local crate
    for crate in "$@"; do
        if [ -z "${seen[$crate]:-}" ] && [ -d "$here/../crates/$crate" ]; then
            seen[$crate]=1
            add $(sed -n "s/^$crate://p" "$here/../crates.txt")
        fi
    done
}
uses="machine_map_tests rdl_tree rdl_parse rdl_regmap gate_graph"
add $uses
copy_program machine "$uses anyhow" "${!seen[@]}"
run_program machine 2 | tail -n 3
