#!/usr/bin/env bash
# Mines and decides the twelve product circuits of bench/circuits, with the proved and built program of
# crates/engine_tests, and prints for each the verdict, how many clauses are listed and kept, milliseconds by part,
# user seconds and peak memory, and the user seconds of berkeley-abc's pdr where it is installed. It ends with status 1
# where a verdict, or what is listed or kept, isn't the expected one. Run it from anywhere; the program is proved first,
# which takes some minutes.
set -euo pipefail
here="$(cd "$(dirname "${BASH_SOURCE[0]}")" && pwd)"
(cd "$here/../crates/engine_tests" && rt run --jobs 2 < /dev/null > /dev/null)
python3 "$here/engine_table.py" "$here/../crates/engine_tests/out/engine_tests"
