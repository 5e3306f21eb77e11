#!/usr/bin/env bash
# Writes the traces anew from their stories (hosts/rust/stories): into crates/run_traces, where rt ci runs the program run_traces on
# them, and from there the copy traces/, which people open. make test compares the two.
set -euo pipefail
cd "$(dirname "$0")/.." || exit 1
me="traces"
. scripts/common.sh

need cargo cargo
host_cargo build --package amsulfezd-stories --bin make_traces || fail "the stories of hosts/rust do not build"
target/hosts/release/make_traces write crates/run_traces/data
target/hosts/release/make_traces program crates/run_traces
{ rm -rf traces && cp -r crates/run_traces/data traces; } || fail "the copy traces/ could not be written"
