#!/usr/bin/env bash
# Simulates several stations on one bus by the proved calls and by the oracle and compares what each returned and every byte of
# the report and of each trace: setups with every two faults, every room, borders, every damage, and COUNT setups made at random of
# seed SEED. Both stand in one process, and each station's part of the proved report is held to the proved trace call on the proved
# trace; with BY_PROGRAM=1 the proved calls stand in a C program that makes many calls at a time.
set -euo pipefail
cd "$(dirname "$0")/.." || exit 1
me="compare simulations"
. scripts/common.sh

compare_proved 1000 compare_simulations_proved compare_simulations answer_calls "the setups were not simulated as the oracle does"
