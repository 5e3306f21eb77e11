#!/usr/bin/env bash
# Prints what reading a frame costs: the instructions of the proved program run_frames and of a plain C reader
# (hosts/c/plain_frames.c) on the same frames, counted by valgrind. The C reader is built with -O2, and with -O3, by which gcc
# adds many bytes at a time.
# The counts of a run on 3 frames are taken from those on 13, so that what comes before and after falls away; the walk from
# frame to frame is counted with both. PROGRAM in the environment measures another build of the program.
set -euo pipefail
cd "$(dirname "$0")/.." || exit 1
me="measure frames"
. scripts/common.sh

program=${PROGRAM:-target/bin/run_frames}
[ -n "${PROGRAM:-}" ] || build_program run_frames
[ -x "$program" ] || fail "$program is not there"
need valgrind valgrind
need_c_compiler
plain=target/hosts/c/plain_frames
mkdir -p "$(dirname "$plain")"
for level in 2 3; do
    "${compile[@]}" "-O$level" -DPLAIN_MEASURED hosts/c/plain_frames.c -o "$plain-$level" || fail "hosts/c/plain_frames.c does not build"
done
folder=$(mktemp -d) || fail "no temporary folder could be made"
trap 'rm -rf "$folder"' EXIT

# bytes NUMBER..: these bytes.
bytes() {
    # shellcheck disable=SC2059 # the format is the bytes
    printf "$(printf '\\x%02x' "$@")"
}

# frame NAME: a frame, preceded by a byte with its length.
frame() {
    local data
    case $1 in
    SC) bytes 1 0xe5 ;;
    SD4) bytes 3 0xdc 5 9 ;;
    SD1) bytes 6 0x10 5 9 0x49 0x57 0x16 ;;
    SD3) bytes 14 0xa2 5 9 8 1 1 1 1 1 1 1 1 0x1e 0x16 ;;
    # a response with 246 bytes of 01: 05 + 09 + 08 + f6 = 10c
    SD2)
        mapfile -t data < <(yes 1 | head -n 246)
        bytes 255 0x68 249 249 0x68 5 9 8 "${data[@]}" 0x0c 0x16
        ;;
    esac
}

# count FRAMES PROGRAM: the instructions of a run on so many frames; what it prints goes to the file said.
count() {
    local frames=$1 i
    for ((i = 0; i < frames; i++)); do cat "$folder/frame"; done >"$folder/input"
    valgrind --tool=callgrind --callgrind-out-file=/dev/null "$2" <"$folder/input" >"$folder/said" 2>"$folder/counted" ||
        fail "$2 did not run"
    sed -n 's/.*Collected : //p' "$folder/counted"
}

# a_frame PROGRAM: the instructions of one frame more.
a_frame() {
    local few many
    few=$(count 3 "$1")
    many=$(count 13 "$1")
    echo $(((many - few) / 10))
}

# Both read the same: the proved program prints what it made of the last frame, the plain one how many frames there were and
# the sum of what it made of them.
agree() {
    local frames sum
    read -r frames sum <"$folder/plain-said" || fail "$plain-2 prints nothing"
    if [ "$frames" != 13 ] || [ "$(<"$folder/said")" != "$(printf '%016x' $((sum / 13)))" ]; then
        fail "$program prints '$(<"$folder/said")', and the plain reader '$(<"$folder/plain-said")'"
    fi
}

echo "| Frame | Bytes | Proved, instructions a frame | Plain C, -O2 | Plain C, -O3 |"
echo "|---|---|---|---|---|"
for name in SC SD4 SD1 SD3 SD2; do
    frame "$name" >"$folder/frame"
    level_3=$(a_frame "$plain-3")
    level_2=$(a_frame "$plain-2")
    cp "$folder/said" "$folder/plain-said"
    proved=$(a_frame "$program")
    agree
    echo "| $name | $(($(wc -c <"$folder/frame") - 1)) | $proved | $level_2 | $level_3 |"
done
