#!/usr/bin/env bash
# The speed of the proved simulation: TICKS ticks, 1,000,000 if it is not said, of 8 stations in one call, in station polls a second,
# beside the proved trace call on the 8 traces of the same setup, three runs of each in turn in one process.
set -euo pipefail
cd "$(dirname "$0")/.." || exit 1
me="speed of simulations"
. scripts/common.sh

ticks=${TICKS:-1000000}
[[ "$ticks" =~ ^[1-9][0-9]{0,6}$ ]] || fail "TICKS is a whole number from 1 to 1000000, not '$ticks'"

need_library
need cargo cargo
build_oracle --profile plain -p linked
target/oracle/plain/speed_simulations "$ticks" || fail "the speed was not measured"
