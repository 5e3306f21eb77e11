#!/usr/bin/env bash
# Prints what a poll costs as a step of a station in the caller's memory, beside the same poll in a trace: instructions, counted as
# scripts/measure.sh counts them, on a C program that does either. The polls are those of scripts/measure.sh. That both answer alike
# is looked at too. Then the instructions of a quiet step in ListenToken, by who is in the ring: so many others next above our address,
# or next below it.
set -euo pipefail
cd "$(dirname "$0")/.." || exit 1
me="measure_station"
. scripts/common.sh

need cargo cargo
need_c_compiler
build_staticlib
need valgrind valgrind
host_cargo build --package rounds || fail "hosts/rust/rounds does not build"
folder=$(mktemp -d) || fail "no temporary folder could be made"
trap 'rm -rf "$folder"' EXIT
program=target/hosts/c/polls_station
rings=target/hosts/c/speed_station
c_host "$program" hosts/c/polls_station.c
c_host "$rings" hosts/c/speed_station.c

# counted OUTPUT PROGRAM WORD..: the instructions of a run of a program on the input.
counted() {
    local output=$1
    shift
    valgrind --tool=callgrind --callgrind-out-file=/dev/null "$@" <"$folder/input" >"$output" 2>"$folder/said" || fail "$1 did not run"
    sed -n 's/.*Collected : //p' "$folder/said"
}

# instructions CASE ROUNDS WAY: the instructions of a run, which leaves its answers in a file with the way's name.
instructions() {
    target/hosts/release/rounds "$1" "$2" >"$folder/input" || fail "the polls of $1 were not written"
    counted "$folder/$3" "$program" "$3"
}

# a_step OTHERS WAY: the instructions of a step with so many others in the ring.
a_step() {
    local few many
    few=$(counted /dev/null "$rings" "$1" "$2" 20)
    many=$(counted /dev/null "$rings" "$1" "$2" 120)
    echo $(((many - few) / 100))
}

echo "| Case | Polls a round | Instructions a poll in a trace | Instructions a step |"
echo "|---|---|---|---|"
target/hosts/release/rounds >"$folder/cases" || fail "the cases were not listed"
while IFS=$'\t' read -r -u 3 name polls says; do
    line="| $says | $polls |"
    for way in trace step; do
        few=$(instructions "$name" 20 "$way")
        many=$(instructions "$name" 120 "$way")
        line="$line $(((many - few) / (100 * polls))) |"
    done
    cmp "$folder/trace" "$folder/step" || fail "$name is answered otherwise where it is stepped"
    echo "$line"
done 3<"$folder/cases"

echo
echo "| Others in the ring | Instructions a step, above our address | Below it |"
echo "|---|---|---|"
for others in 0 1 2 4 8 16 32 64 125; do
    echo "| $others | $(a_step "$others" above) | $(a_step "$others" below) |"
done
