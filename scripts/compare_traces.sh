#!/usr/bin/env bash
# make compare SEED=n COUNT=m: runs m generated traces of seed n through the proved replay_trace and through the oracle and
# compares the number and every byte of the answer buffer. Both stand in one process; with BY_PROGRAM=1 the proved call stands in
# a C program that answers one trace after the other.
set -euo pipefail
cd "$(dirname "$0")/.." || exit 1
me="make compare"
. scripts/common.sh

compare_proved 20000 compare_proved compare_traces answer_traces "the traces were not answered as the oracle answers them"
