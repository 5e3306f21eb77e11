#!/usr/bin/env bash
# Prints what a poll costs: the instructions of a poll in each of some cases, counted on the program run_polls by valgrind.
# A case is a start and a round of polls that is repeated; the counts of two runs are subtracted, so that what comes
# before the rounds and after them falls away. PROGRAM in the environment measures another build of the program.
set -euo pipefail
cd "$(dirname "$0")/.." || exit 1
me="measure"
. scripts/common.sh

program=${PROGRAM:-target/bin/run_polls}
[ -n "${PROGRAM:-}" ] || build_program run_polls
[ -x "$program" ] || fail "$program is not there"
need valgrind valgrind
need cargo cargo
# The cases are a program over the Rust host, so that records are written in one way.
host_cargo build --package rounds || fail "hosts/rust/rounds does not build"
folder=$(mktemp -d) || fail "no temporary folder could be made"
trap 'rm -rf "$folder"' EXIT

# instructions CASE ROUNDS: the instructions of a run.
instructions() {
    target/hosts/release/rounds "$1" "$2" >"$folder/input" || fail "the polls of $1 were not written"
    valgrind --tool=callgrind --callgrind-out-file=/dev/null "$program" <"$folder/input" >/dev/null 2>"$folder/said" ||
        fail "$program did not run"
    sed -n 's/.*Collected : //p' "$folder/said"
}

echo "| Case | Polls a round | Instructions a poll |"
echo "|---|---|---|"
target/hosts/release/rounds >"$folder/cases" || fail "the cases were not listed"
while IFS=$'\t' read -r -u 3 name polls says; do
    few=$(instructions "$name" 20)
    many=$(instructions "$name" 120)
    echo "| $says | $polls | $(((many - few) / (100 * polls))) |"
done 3<"$folder/cases"
