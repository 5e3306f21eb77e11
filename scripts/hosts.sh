#!/usr/bin/env bash
# Builds the C and Rust hosts of the proved library and runs their tests and examples. Part of make test.
set -euo pipefail
cd "$(dirname "$0")/.." || exit 1
me="hosts"
. scripts/common.sh

built=target/hosts/c

# The long trace says online this many times, which changes nothing.
long=100000

# How many traces are made at random to measure the stack, and how many stations to be refused or stepped (STATIONS says otherwise).
at_random=1000
stations=${STATIONS:-200000}

# What a C test is given: see test_c.
test_words=()

# test_c TEST FAULTY CALL..: the C test holds, run with test_words, and it finds each fault that the file FAULTY plants in these calls.
test_c() {
    local test=hosts/c/$1.c faulty=hosts/c/$2.c calls=() call faults fault
    shift 2
    for call in "$@"; do calls+=("-Damsulfezd_$call=faulty_$call"); done
    c_host "$built/test" "$test"
    "$built/test" "${test_words[@]}" || fail "the C host's $test does not hold"
    faults=$(grep -c '^    case [0-9]' "$faulty") || fail "$faulty has no faults"
    "${compile[@]}" "${calls[@]}" -c "$test" -o "$built/renamed.o" || fail "$test does not build with other calls"
    for fault in $(seq "$faults"); do
        "${compile[@]}" -DFAULT="$fault" -c "$faulty" -o "$built/faulty.o" || fail "$faulty does not build"
        c_host "$built/test-faulty" "$built/renamed.o" "$built/faulty.o"
        ! "$built/test-faulty" "${test_words[@]}" >/dev/null 2>&1 ||
            fail "the C host's $test does not find planted fault $fault"
    done
    echo "C host: that test finds each of $faults planted faults"
}

# compiles COMPILER WORD..: the header and all that is in it compile without a warning.
compiles() {
    "$@" -Wall -Wextra -Wpedantic -Wconversion -Wshadow -Werror -c hosts/c/fields.c -o "$built/fields.o" ||
        fail "hosts/c/amsulfezd.h does not compile without a warning by $*"
    compiled=$((compiled + 1))
}

# The header is C99 and C++11 by gcc and, where it is there, by clang, with the call and without it; its readers and
# writers are right in both languages; and it says which processor it is for.
test_header() {
    local cc=("${compile[0]}" -x c -std=c99) cpp=(c++ -x c++ -std=c++11) compiler said compiled=0
    need c++ g++
    compiles "${cc[@]}"
    compiles "${cc[@]}" -DAMSULFEZD_WITHOUT_CALL
    compiles "${cpp[@]}"
    compiles "${cpp[@]}" -DAMSULFEZD_WITHOUT_CALL
    if command -v clang >/dev/null 2>&1; then
        compiles clang --target=x86_64-linux-gnu "${cc[@]:1}"
        compiles clang --target=x86_64-linux-gnu "${cpp[@]:1}"
    fi
    # Without the call it is for any processor, this machine's as well.
    if command -v cc >/dev/null 2>&1; then
        compiles cc "${cc[@]:1}" -DAMSULFEZD_WITHOUT_CALL
    fi
    ! said=$("${cc[@]}" -U__ELF__ -fsyntax-only hosts/c/fields.c 2>&1) || fail "hosts/c/amsulfezd.h compiles for any processor"
    [[ "$said" = *"libamsulfezd.a is for x86-64"* ]] || fail "hosts/c/amsulfezd.h does not say which processor it is for: $said"
    echo "C host: its header compiles as C99 and C++11 without a warning, in $compiled ways"
    for compiler in cc cpp; do
        local -n words=$compiler
        "${words[@]}" hosts/c/fields.c -o "$built/fields" || fail "hosts/c/fields.c does not build"
        said=$("$built/fields") || fail "the C host's readers and writers are not right (${words[*]})"
    done
    echo "$said, as C99 and as C++11"
    test_planted_fields "${cc[@]}"
}

# test_planted_fields COMPILER WORD..: the test of the readers and writers finds each number of the header that is one
# too large.
test_planted_fields() {
    local folder=$built/planted count at
    mkdir -p "$folder"
    cp hosts/c/fields.c "$folder"
    count=$(awk -v at=0 -f hosts/c/plant.awk hosts/c/amsulfezd.h)
    [ "$count" -ge 60 ] || fail "hosts/c/plant.awk finds only $count numbers in hosts/c/amsulfezd.h"
    for at in $(seq "$count"); do
        awk -v at="$at" -v by=1 -f hosts/c/plant.awk hosts/c/amsulfezd.h >"$folder/amsulfezd.h"
        "$@" -w "$folder/fields.c" -o "$folder/fields" || fail "hosts/c/fields.c does not build with planted fault $at"
        ! "$folder/fields" >/dev/null 2>&1 ||
            fail "hosts/c/fields.c does not find: $(diff hosts/c/amsulfezd.h "$folder/amsulfezd.h")"
    done
    echo "C host: that test finds each of $count planted faults"
}

# A call takes no more stack than the header says, and one that takes more is found.
test_stack() {
    local files
    mapfile -t files < <(find traces/ hosts/rust -name '*.trace' -o -name '*.capture' | sort)
    c_host "$built/stack" hosts/c/stack.c
    "$built/stack" "$at_random" "${files[@]}" || fail "a call takes more stack than amsulfezd.h says"
    c_host "$built/stack-faulty" -DFAULT hosts/c/stack.c
    ! "$built/stack-faulty" "$at_random" >/dev/null 2>&1 || fail "a call that takes more stack is not found"
}

# The calls on a station and those beside it, on every stored trace, and on bytes made at random.
test_stations() {
    local traces
    [[ "$stations" =~ ^[1-9][0-9]{0,8}$ ]] || fail "STATIONS is a whole number above 0 of at most 9 digits, not '$stations'"
    mapfile -t traces < <(find traces/ hosts/rust -name '*.trace' | sort)
    test_words=("${traces[@]}")
    test_c test_station faulty_station open_station step_station
    test_c test_beside faulty_beside station_counts table_heard step_heard
    test_words=("$stations" "${traces[@]}")
    test_c random_station faulty_random step_station
    test_words=()
}

# The C example prints what is stored.
test_c_example() {
    c_host "$built/example" hosts/c/example.c
    "$built/example" | cmp - hosts/c/example.txt || fail "hosts/c/example.c does not print what is stored"
    echo "C host: its example prints what is stored"
}

# test_logger HOST COMMAND..: the logger on its simulated bus prints what is stated, also where it is restarted in the middle: its
# station is saved to a file, which is there after it, and loaded again.
test_logger() {
    local host=$1 saved=target/hosts/logger.station
    shift
    "$@" | cmp - hosts/c/logger.txt || fail "the $host host's logger does not print what is stated"
    rm -f "$saved"
    "$@" "$saved" | cmp - hosts/c/logger.txt || fail "the $host host's logger does not go on after a restart"
    [ -s "$saved" ] || fail "the $host host's logger was not restarted"
    echo "$host host: its logger prints what is stated, restarted in the middle too"
}

# replay_all HOST COMMAND..: each trace of traces/ and of the pictures' tests, replayed by the host's example, is
# answered as its story says.
replay_all() {
    local host=$1 count=0 trace
    shift
    while read -r trace; do
        "$@" "$trace" | cmp - "${trace%.trace}.answers" || fail "the $host host answers $trace otherwise than its story"
        count=$((count + 1))
    done < <(find traces/ hosts/rust -name '*.trace' | sort)
    [ "$count" -gt 0 ] || fail "there are no traces"
    { head -c 16 traces/example12.trace && head -c "$long" /dev/zero; } >target/hosts/long.trace
    awk -v n="$long" 'BEGIN { for (i = 0; i < n; i++) print "00000000000001fc"; print n, 0 }' >target/hosts/long.answers
    "$@" target/hosts/long.trace | cmp - target/hosts/long.answers || fail "the $host host answers a long trace wrongly"
    echo "$host host: $count traces replayed from files, each answered as its story says, and one of $long entries"
}

# asked_all KIND LEAST WORDS: each story of traces/ that states who was heard (KIND heard), or the counts (KIND counts): the proved
# call gives that and nothing else. So many stories do so at least.
asked_all() {
    local kind=$1 least=$2 words=$3 count=0 stated
    c_host "$built/${kind}_file" "hosts/c/${kind}_file.c"
    while read -r stated; do
        "$built/${kind}_file" "${stated%."$kind"}.trace" | cmp - "$stated" ||
            fail "the C host asks otherwise than $stated"
        count=$((count + 1))
    done < <(find traces/ -name "*.$kind" | sort)
    [ "$count" -ge "$least" ] || fail "only $count stories state it: $words"
    echo "C host: $count traces asked for $words, each as its story says"
}

# test_rust WORDS COMMAND..: the Rust host's tests hold, run so.
test_rust() {
    local words=$1 said
    shift
    said=$("$@" 2>&1) || {
        echo "$said" >&2
        fail "the Rust host's tests do not hold, $words"
    }
    echo "Rust host: $(awk '/^test result: ok/ { n += $4 } END { print n + 0 }' <<<"$said") tests hold, $words"
}

# Each capture of traces/captures is imported, and each list of entries exported, as its story says.
test_stored_captures() {
    local folder=traces/captures count=0 given left
    c_host "$built/capture_file" hosts/c/capture_file.c
    for left in "$folder"/*.imported "$folder"/*.exported; do
        given=${left%.*ported}.capture
        [ "${left##*.}" = imported ] || given=${left%.*ported}.entries
        "$built/capture_file" "${left##*.}" "$given" "$(sed -n '1s/^room //p' "$left")" | cmp - "$left" ||
            fail "the C host leaves otherwise than its story: $left"
        count=$((count + 1))
    done
    echo "C host: $count captures from files, each as its story says"
}

# The Rust host's tests hold with the proved library linked, and its example replays every trace.
test_rust_linked() {
    test_rust "the proved library linked" linked_cargo test --package amsulfezd
    linked_cargo build --package amsulfezd --examples || fail "the Rust host's examples do not build"
    replay_all Rust "$linked/examples/replay_file"
    test_logger Rust "$linked/examples/logger"
}

# The service desk's program: its tests; each story's trace answered, the stored pictures drawn anew; captures as other programs
# open them; the tour; make's lines over it, and its installation.
test_desk() {
    build_desk
    export DESK_BUILT=yes
    test_rust "the service desk" desk_cargo test
    test_terminal
    desk_answers
    test_pictures
    test_pcap
    bash scripts/tour.sh
    test_lines
}

# What the service desk does for a person at a terminal, and for nobody else: a bar on standard error after a second; no waiting for
# words that are not typed; no bytes that are no text on the screen.
test_terminal() {
    local folder=target/hosts/terminal entries=300000 said
    { rm -rf "$folder" && mkdir -p "$folder"; } || fail "$folder could not be made"
    need script bsdutils
    python3 scripts/browser.py --repeat traces/night.trace "$folder/long.trace" "$entries" || fail "no long trace is made"
    said=$("$desk" heard "$folder/long.trace" -o "$folder/heard" 2>&1) || fail "amsulfezd heard fails"
    [ -z "$said" ] || fail "a bar where standard error is no terminal: $said"
    said=$(at_terminal heard "$folder/long.trace" -o "$folder/again") || fail "amsulfezd heard fails at a terminal"
    [[ "$said" = *"asking for each address"* ]] || fail "no bar at a terminal after a second: $said"
    cmp "$folder/heard" "$folder/again" || fail "the bar is written where the answers are"
    # A machine that stands still for a second shows the bar; not three times.
    for _ in 1 2 3; do
        said=$(at_terminal heard traces/night.trace -o "$folder/again") || fail "amsulfezd heard fails at a terminal"
        [ -n "$said" ] || break
    done
    [ -z "$said" ] || fail "a bar before a second is over: $said"
    said=$(at_terminal replay || true)
    [[ "$said" = *"no file is named, and standard input is a terminal"* ]] || fail "amsulfezd replay waits, or says: $said"
    said=$(at_terminal export traces/night.trace --as pcap || true)
    [[ "$said" = *"the output is no text and does not go to a terminal"* ]] || fail "a pcap file goes to the screen: $said"
    echo "Service desk: a bar at a terminal after a second, and nowhere else"
}

# at_terminal WORD..: what the service desk writes to a terminal with these words.
at_terminal() {
    local line
    line=$(printf '%q ' "$desk" "$@")
    script -qec "$line" /dev/null </dev/null
}

# Each trace of traces/ is answered as its story says. Where one is refused the status is 1.
desk_answers() {
    local trace count=0 status wanted
    while read -r trace; do
        status=0
        "$desk" replay "$trace" >target/hosts/desk.answers 2>/dev/null || status=$?
        cmp target/hosts/desk.answers "${trace%.trace}.answers" || fail "the service desk answers $trace otherwise than its story"
        wanted=1
        [ "$(awk 'END { print $2 }' target/hosts/desk.answers)" != 0 ] || wanted=0
        [ "$status" -eq "$wanted" ] || fail "the service desk ends with $status after $trace"
        count=$((count + 1))
    done < <(find traces/ -name '*.trace' | sort)
    echo "Service desk: $count traces replayed, each answered as its story says"
}

# Each stored picture is drawn anew, byte for byte, README's too, and one of 500 entries. That of a trace in a folder of traces/ has
# the folder's name before the first dash.
test_pictures() {
    local folder=target/hosts/pictures tests=hosts/rust/tools/tests/pictures stored name trace count=0
    { rm -rf "$folder" && mkdir -p "$folder"; } || fail "$folder could not be made"
    for stored in "$tests"/*.svg; do
        name=$(basename "$stored" .svg)
        trace=traces/$name.trace
        [ -f "$trace" ] || trace=traces/${name/-//}.trace
        # A trace that ends inside an entry is drawn, and refused.
        "$desk" picture "$trace" -o "$folder/$name.svg" 2>/dev/null || [ "$name" = cut-entry ] ||
            fail "amsulfezd picture does not draw $trace"
        cmp "$stored" "$folder/$name.svg" || fail "amsulfezd picture draws $trace otherwise than it is stored"
        count=$((count + 1))
    done
    "$desk" picture traces/night.trace --from 18 --to 30 | cmp docs/night.svg - ||
        fail "amsulfezd picture draws entries 18 to 30 of traces/night.trace otherwise than docs/night.svg"
    "$desk" picture "$tests/long.trace" -o "$folder/long.svg" || fail "amsulfezd picture does not draw the long trace"
    [ "$(grep -c '<g class="entry"' "$folder/long.svg")" -eq 500 ] || fail "the picture of the long trace does not have 500 entries"
    [ "$(find "$folder" -type f | wc -l)" -eq $((count + 1)) ] || fail "amsulfezd picture left other files in $folder"
    echo "Pictures: $count and README's drawn as they are stored, and one of 500 entries"
}

# The site's capture as pcap: capinfos counts its frames, tshark lists them with their times. Debian 12's Wireshark does not know
# link type 257, so the file for private use is opened; the two differ in the link type alone.
test_pcap() {
    local folder=target/hosts/pcap text=traces/captures/site.capture said
    { rm -rf "$folder" && mkdir -p "$folder"; } || fail "$folder could not be made"
    need capinfos wireshark-common
    need tshark tshark
    "$desk" export "$text" -o "$folder/site.pcap" || fail "amsulfezd export makes no pcap file"
    "$desk" export "$text" --private -o "$folder/private.pcap" || fail "amsulfezd export makes no pcap file"
    said=$({ cmp -l "$folder/site.pcap" "$folder/private.pcap" || true; } | awk '{ printf "%d:%s-%s ", $1, $2, $3 }')
    [ "$said" = "21:1-223 22:1-0 " ] || fail "the two pcap files differ in more than the link type: $said"
    said=$(capinfos -r -T -m -c "$folder/private.pcap") || fail "capinfos does not open the pcap file"
    [ "$said" = "$folder/private.pcap,$(wc -l <"$text")" ] || fail "capinfos says: $said"
    tshark -n -r "$folder/private.pcap" -o 'uat:user_dlts:"User 0 (DLT=147)","data","0","","0",""' \
        -T fields -e frame.time_epoch -e data.data >"$folder/listed" 2>/dev/null || fail "tshark does not open the pcap file"
    awk '{ printf "%d.%06d000\t%s\n", $1 / 1000000, $1 % 1000000, tolower($2) }' "$text" | cmp - "$folder/listed" ||
        fail "tshark lists other frames or times than $text has"
    echo "Captures: capinfos and tshark open the site's as pcap, with its $(wc -l <"$text") frames and their times"
}

# make's lines over the program, and what make install puts where.
test_lines() {
    local folder=target/hosts/lines said
    { rm -rf "$folder" && mkdir -p "$folder"; } || fail "$folder could not be made"
    make --no-print-directory replay | cmp - traces/example12.answers || fail "make replay does not replay example 12"
    said=$(make --no-print-directory explain TRACE=traces/night.trace FROM=24 TO=27) || fail "make explain fails"
    [ "$(grep -c '^ *[0-9*]' <<<"$said")" -eq 5 ] || fail "make explain does not give four entries and a note: $said"
    said=$(make --no-print-directory counts TRACE=traces/night.trace) || fail "make counts fails"
    grep -q '^ *1  neighbours removed' <<<"$said" || fail "make counts does not give the night's counts: $said"
    said=$(make --no-print-directory picture TRACE=traces/night.trace FROM=18 TO=30 OUT="$folder/night.svg") || fail "make picture fails"
    { [ "$said" = "$folder/night.svg" ] && cmp docs/night.svg "$said"; } || fail "make picture says: $said"
    said=$(make --no-print-directory import CAPTURE=traces/captures/site.capture OUT="$folder/site.trace" HSA=100 EDITION=2) ||
        fail "make import fails"
    [ "$(head -c 1 "$said" | od -An -tx1)" = " 82" ] || fail "make import does not hand its settings on"
    said=$(make --no-print-directory export TRACE=traces/captures/site.trace OUT="$folder/site.capture") || fail "make export fails"
    cmp "$said" traces/captures/site-again.capture || fail "make export gives another text"
    said=$(make --no-print-directory simulate SETUP=traces/simulations/bad-slot-time.setup OUT="$folder/bench" FROM=8000) || fail "make simulate fails"
    { head -n -5 <<<"$said" | cmp - traces/simulations/bad-slot-time.said && [ -s "$folder/bench/station-0.trace" ]; } ||
        fail "make simulate says: $said"
    said=$(make --no-print-directory install PREFIX="$PWD/$folder/usr") || fail "make install fails"
    "$said" replay traces/example12.trace | cmp - traces/example12.answers || fail "the installed program does not replay example 12"
    { [ -s "$folder/usr/share/man/man1/amsulfezd.1" ] && [ -s "$folder/usr/share/bash-completion/completions/amsulfezd" ]; } ||
        fail "make install puts no manual page or completion"
    echo "Service desk: make's lines over it, and installed"
}

need cargo cargo
need_c_compiler
build_staticlib
export LIBRARY_BUILT=yes
mkdir -p "$built"

test_c test faulty replay_trace other_edition
test_c test_frames faulty_frames read_frame write_frame
test_c test_captures faulty_captures import_capture export_capture
test_c test_simulate faulty_simulate simulate simulated_trace
test_c test_heard faulty_heard trace_heard
test_c test_counts faulty_counts trace_counts
test_c test_settings faulty_settings new_settings set_slot_bits set_max_retry_limit finish_settings
test_stations
test_header
test_stack
test_c_example
c_host "$built/logger" hosts/c/logger.c
test_logger C "$built/logger"
c_host "$built/replay_file" hosts/c/replay_file.c
replay_all C "$built/replay_file"
test_stored_captures
asked_all heard 6 "every address that was heard"
asked_all counts 40 "their counts"

test_rust "without the library" host_cargo test
test_rust_linked

test_desk
