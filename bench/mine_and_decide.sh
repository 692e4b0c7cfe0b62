#!/usr/bin/env bash
# Makes a circuit of 5,000 nodes and 500 latches, mines it and decides it with a proved and built
# program, and prints the seconds that its candidates, the set that is kept and the verdict take. Run
# it from anywhere; it takes some minutes, since the program is proved first.
set -euo pipefail
. "$(dirname "$0")/copied.sh"
copy_program mine_and_decide "k_induction invariant_miner unroll_cnf gate_graph anyhow" \
    gate_graph lemma_checker watch_lists clause_solver unroll_cnf invariant_miner k_induction
run_program mine_and_decide 2 | tail -n 4
