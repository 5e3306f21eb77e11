#!/usr/bin/env bash
# Builds the Rust programs and tests that do not link the proved library, and fetches the service desk's crates. make test runs it
# beside the proofs; the parts that need them find them built.
set -euo pipefail
cd "$(dirname "$0")/.." || exit 1
me="build early"
. scripts/common.sh

need cargo cargo
build_oracle --release
oracle_cargo test --release --no-run
build_oracle --profile plain --bin differences
host_cargo test --no-run
need_crates
