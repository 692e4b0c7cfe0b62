#!/usr/bin/env bash
# Prepares and parses a Verilog text of about 1 MiB with a proved and built program, and prints the seconds that each
# takes. Run it from anywhere; it takes some minutes, since the program is proved first.
set -euo pipefail
. "$(dirname "$0")/copied.sh"
copy_program vlog_parse "bit_base vlog_tree vlog_prep vlog_parse anyhow" bit_base parsing vlog_tree vlog_prep vlog_parse
run_program vlog_parse 1 | tail -n 2
