#!/usr/bin/env bash
# make watchdog MS=n: shows how the two watchdog factors of n milliseconds come about, as the proved calls give them: the
# units, the two divisions, the factors and the time that they make; of a refused time the number and the limit.
set -euo pipefail
cd "$(dirname "$0")/.." || exit 1
me="make watchdog"
. scripts/common.sh

MS=${MS:-}
[ -n "$MS" ] || fail "it needs a time in milliseconds, as in: make watchdog MS=10000"
[[ $MS != *[!0-9]* ]] || fail "MS=$MS is not a whole number of milliseconds"
[ "${#MS}" -le 19 ] || fail "MS=$MS is too large: a time has at most 19 digits"
build_program run_watchdog
target/bin/run_watchdog "$MS"
