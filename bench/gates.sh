#!/usr/bin/env bash
# Evaluates a graph of 100,000 nodes 4,000 times, beside the same loop in C.
exec "$(dirname "$0")/beside_c.sh" gate_graph gates 400000000 nodes
