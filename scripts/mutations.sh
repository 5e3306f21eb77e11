#!/usr/bin/env bash
# Plants each error of oracle/mutants/list.rs in a copy of the oracle, runs traces, moves, questions who was heard, counts or the
# settings table until one shows it, each error of oracle/mutants/frames.rs in a copy of the reader and writer of frames, each of
# oracle/mutants/captures.rs in a copy of the importer and exporter of captures, each of oracle/mutants/simulations.rs in a copy of
# the simulated bus, and writes the tables of oracle/MUTATIONS.md. Not part of the gate: it takes some minutes.
set -euo pipefail
cd "$(dirname "$0")/.." || exit 1
me="mutations"
. scripts/common.sh

need cargo cargo
build_oracle --profile planted -p mutants
found=yes
table=$(target/oracle/planted/mutants) || found=no
[ -n "$table" ] || fail "the planted errors were not tried"
frames=$(target/oracle/planted/mutants frames) || found=no
[ -n "$frames" ] || fail "the planted errors in frames were not tried"
captures=$(target/oracle/planted/mutants captures) || found=no
[ -n "$captures" ] || fail "the planted errors in captures were not tried"
simulations=$(target/oracle/planted/mutants simulations) || found=no
[ -n "$simulations" ] || fail "the planted errors in simulations were not tried"
part=oracle/MUTATIONS.md.part-$$
trap 'rm -f "$part"' EXIT
cat >"$part" <<EOF_TABLE || fail "$part cannot be written"
# Planted errors

That the comparison can fail: each line is one error planted in a copy of the oracle (the published \`active.rs\` and
\`parameters.rs\`, document 01's helpers in them, ring, records, trace, editions, heard, counts, port), the run that shows it, and where.
"traces" is the first generated trace of seed 1; "Shortest" is how many entries the shortened trace has. "moves" is the first
of these traces whose header moves otherwise to the other edition, "questions" the first of which an address was heard
otherwise, "counts" the first whose life is counted otherwise. "settings table" is the table of the published
\`parameters.rs\`. "none" says why no run can. Made by \`bash scripts/mutations.sh\`.

$table

## Frames

The same for the oracle's reader and writer of frames (\`src/frames/frame.rs\`): the part of the comparison that shows each
error, and the shortest start of the first frame that does, or the word and the room.

$frames

## Captures

The same for the oracle's importer and exporter of captures (\`src/captures/capture.rs\`): the part of the comparison that shows
each error, and the smallest text or entries, in hexadecimal digits, with the room, that do.

$captures

## Simulations

The same for the oracle's simulated bus (\`src/simulations/simulation.rs\`): the part of the comparison that shows each error, and
the smallest setup, in hexadecimal digits, with the place and the room, that does.

$simulations
EOF_TABLE
mv -f "$part" oracle/MUTATIONS.md || fail "oracle/MUTATIONS.md cannot be written"
tail -n 1 <<<"$table"
tail -n 1 <<<"$frames"
tail -n 1 <<<"$captures"
tail -n 1 <<<"$simulations"
[ "$found" = yes ] || fail "an error was not found; see oracle/MUTATIONS.md"
