#!/usr/bin/env bash
# Checks 200,000 chains of 8 clauses over a formula of 1,000,000 clauses of two literals, beside the
# same in C; building the formula counts too.
exec "$(dirname "$0")/beside_c.sh" lemma_checker lemma_checker 3200000 literals
