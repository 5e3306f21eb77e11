#!/usr/bin/env bash
# Imports and exports captures by the proved calls and by the oracle and compares what each returned, the line or entry, the
# bytes written and every byte of each buffer: lines of good and bad pieces, every short text over an alphabet, texts and
# entries with every damage, every room, and COUNT texts and as many lists of entries made at random of seed SEED. Both
# stand in one process; with BY_PROGRAM=1 the proved calls stand in a C program that makes many calls at a time.
set -euo pipefail
cd "$(dirname "$0")/.." || exit 1
me="compare captures"
. scripts/common.sh

compare_proved 200000 compare_captures_proved compare_captures answer_calls "the captures were not imported and exported as the oracle does"
