#!/usr/bin/env bash
# make speed: entries per second of the proved replay_trace and of the oracle on one long ordinary trace, in one
# process, both built without checks, three runs each. ENTRIES changes the trace's length.
set -euo pipefail
cd "$(dirname "$0")/.." || exit 1
me="make speed"
. scripts/common.sh

entries=${ENTRIES:-2000000}
[[ "$entries" =~ ^[1-9][0-9]{0,8}$ ]] || fail "ENTRIES is a whole number above 0 of at most 9 digits, not '$entries'"

need_library
need cargo cargo
build_oracle --profile plain -p linked
target/oracle/plain/speed "$entries" || fail "the speed was not measured"
