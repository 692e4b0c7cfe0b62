#!/usr/bin/env bash
# Reads a description of 1 MiB with a proved and built program, and prints the seconds that its tokens and its tree
# take. Run it from anywhere; it takes some minutes, since the program is proved first.
set -euo pipefail
. "$(dirname "$0")/copied.sh"
copy_program rdl_parse "bit_base rdl_tree rdl_parse anyhow" bit_base parsing rdl_tree rdl_parse
run_program rdl_parse 1 | tail -n 3
