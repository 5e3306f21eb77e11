#!/usr/bin/env bash
# Shows the differences of docs/DIFFERENCES.md by runs of the published text: with document 01's helpers, with the
# published helpers, and without overflow checks. Each answer is held to the list in oracle/src/bin/differences.rs.
set -euo pipefail
cd "$(dirname "$0")/.." || exit 1
me="differences"
. scripts/common.sh

# differences_of FOLDER WORD..: builds the program by cargo's words into the folder, and runs it.
differences_of() {
    local folder=$1
    shift
    build_oracle "$@" --bin differences
    "target/oracle/$folder/differences" || fail "an answer is not as listed ($*)"
}

need cargo cargo
differences_of release --release
differences_of release --release --features published_helpers
differences_of plain --profile plain
