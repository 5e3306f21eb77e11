#!/usr/bin/env bash
# Compares the proved code with Rust: the settings with the published parameters.rs, the trace call with the published
# active.rs, the calls on frames and on captures with a reader, a writer, an importer and an exporter from document 02, and the
# simulated bus with one over the published station. SEED, TRACES, FRAMES, CAPTURES and SIMULATIONS in the environment change what
# is generated.
set -euo pipefail
cd "$(dirname "$0")/.." || exit 1
me=compare
. scripts/common.sh

seed=${SEED:-1}
traces=${TRACES:-20000}
frames=${FRAMES:-1000000}
captures=${CAPTURES:-200000}
simulations=${SIMULATIONS:-1000}

need cargo cargo

# The static library is proved while the oracle is built and tested. If that fails, it fails below again, and is said.
(build_staticlib) >/dev/null 2>&1 &
library=$!
trap 'wait "$library" || true' EXIT
build_oracle --release

# That the comparison can fail: wrong calls, each of which must be reported.
tests=$(oracle_cargo test --release 2>&1) || {
    echo "$tests"
    fail "the tests of oracle/ fail"
}
echo "oracle: its tests pass, each wrong call is found"

# The published files are as they were published, and the table that rt ci holds the program to is theirs.
(cd oracle/published && sha256sum --quiet --check SHA256SUMS) || fail "a file of oracle/published is not as published"
table=crates/run_settings_table/stdout
target/oracle/release/settings_table | cmp - "$table" || fail "$table is not what the published parameters.rs answers"
echo "settings: $(wc -l <"$table") lines of the published parameters.rs, 0 differ"
shown=crates/run_watchdog/stdout
mapfile -t times <crates/run_watchdog/args
target/oracle/release/watchdog_lines "${times[@]}" | cmp - "$shown" || fail "$shown is not what the published parameters.rs answers"
echo "watchdog: ${#times[@]} times by the published parameters.rs, 0 differ"

# The whole station: the proved trace call and the published active.rs. Some go through a program that answers them too.
wait "$library" || true

# by_program COUNT SCRIPT FAILURE: a comparison that goes that way. The last line that it prints is shown.
by_program() {
    local count=$1 script=$2 failure=$3 said
    said=$(SEED=$seed COUNT=$count BY_PROGRAM=1 bash "$script") || {
        echo "$said"
        fail "$failure (seed $seed)"
    }
    echo "by a program: $(tail -n 1 <<<"$said")"
}

by_program 500 scripts/compare_traces.sh "the trace call in a program is not the published station's"
by_program 1000 scripts/compare_frames.sh "the calls on frames in a program are not document 02's"
by_program 1000 scripts/compare_captures.sh "the calls on captures in a program are not document 02's"
by_program 50 scripts/compare_simulations.sh "the calls on a simulated bus in a program are not document 02's"
SEED=$seed COUNT=$frames bash scripts/compare_frames.sh || fail "the calls on frames are not document 02's (seed $seed)"
SEED=$seed COUNT=$captures bash scripts/compare_captures.sh || fail "the calls on captures are not document 02's (seed $seed)"
SEED=$seed COUNT=$simulations bash scripts/compare_simulations.sh || fail "the calls on a simulated bus are not document 02's (seed $seed)"
SEED=$seed COUNT=$traces bash scripts/compare_traces.sh || fail "the trace call is not the published station's (seed $seed)"
