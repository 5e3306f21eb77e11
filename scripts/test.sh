#!/usr/bin/env bash
# make test: first what is checked in seconds; then rt ci: every crate of crates.txt proved from nothing, the files' layout, the
# must-fail edits and the programs (of what it passed before on this machine nothing but the programs again); then the comparisons and,
# beside them, the hosts' tests. Each part says how long it took. The last line printed is rt ci's own, 'N passed, 0 failed', and only
# if all of it held.
set -euo pipefail
cd "$(dirname "$0")/.." || exit 1
me="make test"
. scripts/common.sh

# part NAME COMMAND..: one part of the gate. The command ends with a failure where it does not hold, and says why.
part() {
    local name=$1 begun=$SECONDS
    shift
    "$@" || fail "this does not hold: $name"
    echo "$me: $name: $((SECONDS - begun)) s"
}

# beside NAME COMMAND..: a part that runs beside those after it. What it prints is shown by `joined`, which waits for it.
beside() {
    beside_name=$1
    (part "$@") >"$log.beside" 2>&1 &
    beside_job=$!
}
joined() {
    local status=0
    wait "$beside_job" || status=$?
    cat "$log.beside"
    [ "$status" -eq 0 ] || fail "this does not hold: $beside_name"
}

# Builds the Rust that needs no proof while the proofs go on, on what they leave of the processors. What fails here fails again in its
# part, and is said there.
build_early() {
    nice -n 19 bash scripts/build_early.sh >/dev/null 2>&1 || true
}

# RT_JOBS says how many crates or edits rt proves at a time; without it rt decides that, by the processors and the memory that is free.
check_jobs() {
    [ -n "${RT_JOBS:-}" ] || return 0
    [[ "$RT_JOBS" =~ ^[1-9][0-9]?$ ]] || fail "RT_JOBS is a whole number from 1 to 99, not '$RT_JOBS'"
    echo "$me: $RT_JOBS crates at a time, as RT_JOBS says"
}

# traces/, which people open, is a copy of crates/run_traces/data, on which rt ci runs the program run_traces.
same_traces() {
    local said
    said=$(diff -rq traces crates/run_traces/data 2>&1) ||
        fail "${said%%$'\n'*}: traces/ is a copy of crates/run_traces/data, which 'bash scripts/traces.sh' makes"
}

# Runs rt ci on the checkout as it stands. All that it prints goes on at once but for its last line, which is kept back in `verdict`.
# rt ci says how many must-fail edits are bad, as one that cannot be applied, and passes all the same; here that is a failure. The
# programs that it built and ran are kept for the scripts that run them.
prove() {
    local ok sum program
    sum=$(sources_sum) || fail "the sources could not be read"
    # Where nothing was built before, the libraries that stand in the crates' folders out/ after rt ci are those that it proved.
    compgen -G 'crates/*/out' >/dev/null || export OVER_CI=yes
    build_early &
    rt ci 2>&1 | tee "$log" | awk 'NR > 1 { print line; fflush() } { line = $0 }' ||
        fail "rt ci ended with status ${PIPESTATUS[0]}: $(tail -n 1 "$log")"
    verdict=$(tail -n 1 "$log")
    [[ "$verdict" =~ ^[1-9][0-9]*\ passed,\ 0\ failed$ ]] || fail "rt ci's last line is not a verdict: $verdict"
    ok=$(grep '^rt: ok' "$log") || fail "rt ci does not say 'rt: ok'"
    [[ ! "$ok" =~ ,\ [0-9]+\ bad ]] || fail "must-fail edits are bad: $ok"
    [ "$(sources_sum)" = "$sum" ] || fail "the sources changed while they were proved"
    for program in crates/run_*/src/main.rt; do
        program=${program#crates/} && program=${program%%/*}
        keep "$sum" "crates/$program/out/$program" "target/bin/$program"
    done
}

# All that any part needs, before the first one runs.
need_rt
need python3 python3
need shellcheck shellcheck
need cargo cargo
need capinfos wireshark-common
need tshark tshark
need_c_compiler
check_jobs
log=$(mktemp) || fail "no temporary file could be made"
trap 'rm -f "$log" "$log.beside"; jobs -pr | xargs -r kill 2>/dev/null || true' EXIT

part "the shell scripts (shellcheck)" shellcheck --external-sources .ci/run scripts/*.sh
part "traces/ is a copy of crates/run_traces/data" same_traces
part "docs/FUNCTIONS.md" python3 scripts/functions.py --check
part "the tables of crates" python3 scripts/figures.py --check
part "a claim for each public call" python3 scripts/determined.py
part "two must-fail edits for each public call" python3 scripts/edits.py --check
part "the proofs (rt ci)" prove
part "the library" build_staticlib
export LIBRARY_BUILT=yes
beside "the hosts" bash scripts/hosts.sh
part "the comparison with Rust" bash scripts/compare.sh
part "the listed differences" quietly "an answer is not as listed" bash scripts/differences.sh
joined

echo "$verdict"
