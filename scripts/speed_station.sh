#!/usr/bin/env bash
# Nanoseconds of a step of a station in the caller's memory, from C, by who is in its ring, beside the same poll in a trace. `make
# speed` has steps along an ordinary trace beside the published Rust station in one process.
set -euo pipefail
cd "$(dirname "$0")/.." || exit 1
me="speed_station"
. scripts/common.sh

need_c_compiler
build_staticlib
c_host target/hosts/c/speed_station -O2 hosts/c/speed_station.c
target/hosts/c/speed_station || fail "the speed was not measured"
