#!/usr/bin/env bash
# Reads and writes frames by the proved calls and by the oracle and compares what each returned and every byte of each buffer:
# every frame of up to six bytes over an alphabet, frames of each length and damage, COUNT frames made at random of seed
# SEED, and words to write with room for none to all of their frame. Both stand in one process; with BY_PROGRAM=1 the
# proved calls stand in a C program that makes many calls at a time.
set -euo pipefail
cd "$(dirname "$0")/.." || exit 1
me="compare frames"
. scripts/common.sh

compare_proved 1000000 compare_frames_proved compare_frames answer_calls "the frames were not read and written as the oracle does"
