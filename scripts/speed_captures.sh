#!/usr/bin/env bash
# The speed of the proved calls on captures: a text of MB million bytes, 100 if it is not said, imported in one call, and its
# entries exported in one call, beside the same two in plain C (hosts/c/plain_captures.c, -O2) and a search for the line feeds,
# five runs of each in turn in one process, and wc -l on the same file. Both must leave the same bytes. The text is the site's
# capture of traces/captures over and over, its times rising.
set -euo pipefail
cd "$(dirname "$0")/.." || exit 1
me="speed of captures"
. scripts/common.sh

megabytes=${MB:-100}
[[ "$megabytes" =~ ^[1-9][0-9]{0,3}$ ]] || fail "MB is a whole number above 0 of at most 4 digits, not '$megabytes'"

need_c_compiler
build_staticlib
folder=target/captures
mkdir -p "$folder"
text=$folder/speed-$megabytes.capture
# The site's 500 lines take 125,000 us.
[ -f "$text" ] || {
    awk -v bytes="$((megabytes * 1000000))" '
        { time[NR] = $1; frame[NR] = $2 }
        END {
            for (;; later += 125000)
                for (i = 1; i <= NR; i++) {
                    line = sprintf("%d %s", time[i] + later, frame[i])
                    written += length(line) + 1
                    if (written > bytes) exit
                    print line
                }
        }' traces/captures/site.capture >"$text.part-$$" && mv "$text.part-$$" "$text"
} || fail "$text could not be written"
c_host target/hosts/c/plain_captures -O2 -DPLAIN_MEASURED hosts/c/plain_captures.c
begun=$EPOCHREALTIME
lines=$(wc -l <"$text")
ended=$EPOCHREALTIME
target/hosts/c/plain_captures "$text" || fail "the speed was not measured"
awk -v begun="$begun" -v ended="$ended" -v bytes="$(wc -c <"$text")" -v lines="$lines" 'BEGIN {
    printf "%-24s %7.0f MB/s, %11.0f lines/s, one run, with its start\n", "wc -l", bytes / 1e6 / (ended - begun), lines / (ended - begun)
}'
