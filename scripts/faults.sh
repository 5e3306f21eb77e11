#!/usr/bin/env bash
# Tries what a careless host or a broken disk would do to the proved calls and the replay program: the C host's test under
# valgrind, a trace of 1 GiB, a million polls in which nothing comes, a trace of nothing but bad records, ten million stations of
# random or changed bytes (STATIONS says otherwise), and replay on odd inputs and a closed output. Each line says what was done and
# what came. Not part of the gate: it takes a minute and some memory.
set -euo pipefail
cd "$(dirname "$0")/.." || exit 1
me="faults"
. scripts/common.sh

need_c_compiler
build_staticlib
build_replay
built=target/hosts/c
c_host "$built/test" hosts/c/test.c
c_host "$built/large" hosts/c/large.c
c_host "$built/random_station" hosts/c/random_station.c

# The header of example 12.
header() {
    head -c 16 traces/example12.trace
}

# expect WORDS OUTPUT LINE: the last line that came is the one expected.
expect() {
    [ "$(tail -n 1 <<<"$2")" = "$3" ] || fail "$1: $(tail -n 1 <<<"$2"), not $3"
    echo "faults: $1: $3"
}

# replay on standard input, its last line.
replay() {
    target/bin/run_replay
}

need valgrind valgrind
said=$(valgrind --quiet --error-exitcode=9 "$built/test" 2>&1) || {
    echo "$said" >&2
    fail "valgrind finds fault with the C host's test"
}
echo "faults: the C host's test under valgrind: $(tail -n 1 <<<"$said")"
for size in 1073741824 15000032; do
    said=$("$built/large" polls "$size") || fail "a trace of $size bytes of polls was not answered"
    echo "faults: $said"
done
said=$("$built/large" bad 1000000) || fail "a trace of bad records was not answered"
echo "faults: a trace of nothing but bad records: $said"

mapfile -t traces < <(find traces/ hosts/rust -name '*.trace' | sort)
said=$("$built/random_station" "${STATIONS:-10000000}" "${traces[@]}") ||
    fail "a station of random bytes was neither refused nor sound"
echo "faults: $said"

expect "replay on empty input" "$(replay </dev/null)" "0 17"
expect "replay on 15 bytes" "$(head -c 15 traces/example12.trace | replay)" "0 17"
expect "replay on a header alone" "$(header | replay)" "0 0"
expect "replay on 4,096 bytes, 4,080 of them online" "$({ header && head -c 4080 /dev/zero; } | replay)" "4080 0"
expect "replay on 4,097 bytes, the last one ignored" "$({ header && head -c 4081 /dev/zero; } | replay)" "4080 0"
expect "replay on 4,110 bytes, cut inside a poll record" \
    "$({ header && head -c 4079 /dev/zero && printf '\x0e' && head -c 14 /dev/zero; } | replay)" "4079 17"
said=$(replay 2>&1 <traces/example12.trace >&-) || true
expect "replay with its output closed" "$said" "replay: the answers could not all be written"
# The reader is gone before replay writes. The signal of a broken pipe is ignored, so that replay meets the error itself.
exec 3> >(:)
wait $!
said=$(trap '' PIPE && replay 2>&1 <traces/example12.trace >&3) || true
exec 3>&-
expect "replay whose reader is gone" "$said" "replay: the answers could not all be written"
