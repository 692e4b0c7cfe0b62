#!/usr/bin/env bash
# Prepares a Verilog text of about 1 MiB with a proved and built program, and prints the seconds that it takes. Run it
# from anywhere; it takes some minutes, since the program is proved first.
set -euo pipefail
. "$(dirname "$0")/copied.sh"
copy_program vlog_prep "bit_base vlog_tree vlog_prep anyhow" bit_base parsing vlog_tree vlog_prep
run_program vlog_prep 1 | tail -n 2
