#!/usr/bin/env bash
# Checks a flat design of 1,000 processes and a cost of nearly 100,000 with a proved and built program, and prints the
# seconds until its nets and items fit each other, and until it is checked. Run it from anywhere; it takes some minutes,
# since the program is proved first.
set -euo pipefail
. "$(dirname "$0")/copied.sh"
copy_program design "bit_base sqlite_items flat_design flat_raw vlog_design anyhow" \
    bit_base bit_words parsing vlog_tree flat_sets flat_design flat_orders flat_paths flat_cost flat_rules flat_raw \
    flat_flows flat_latches flat_loads flat_offences flat_drives flat_driven flat_loops flat_cycles flat_ordered \
    flat_latched flat_races flat_ties flat_clocks flat_checks vlog_design
run_program design 2 | tail -n 2
