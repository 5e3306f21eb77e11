/*
 * Measures the stack that the proved calls use, and holds it to AMSULFEZD_STACK_BYTES, that of the calls on a simulated bus to
 * AMSULFEZD_SIMULATION_STACK_BYTES. A call runs on a stack of its
 * own that is filled with a pattern; afterwards the deepest byte that changed is looked for. The traces: those of the
 * files named, example 12's header with 100,000 times online, and as many made at random as are asked for, with headers
 * of both editions; each is replayed, asked for an address that was heard and for its counts, its header moved to the other
 * edition, its entries exported as a capture, and its station stepped one entry at a time, without a table of who was heard and with
 * one, which is then asked for that address, and asked for its counts; each state and each kind of send, moves both ways, an address
 * that was heard, and each of the counts must have been seen. Frames: one of each start byte, and a word of each kind. Captures: those of the files named, whose names end in
 * .capture, and one of each start byte. Simulations: eight stations that form a ring, and eight whose telegrams meet. Built with -DFAULT the call takes more, which must be found.
 *
 * usage: stack TRACES FILE..
 */
#define _DEFAULT_SOURCE
#include "amsulfezd.h"

#include <stdio.h>
#include <stdlib.h>
#include <string.h>
#include <ucontext.h>

/* The stack that the call gets, and what it is filled with. */
enum { STACK = 1 << 16, PATTERN = 0xa5 };

/* The longest trace made at random, in entries, and the number of entries in the long one. */
enum { RANDOM_ENTRIES = 250, LONG = 100000 };

static uint8_t stack[STACK] __attribute__((aligned(16)));
static ucontext_t here, there;

/* The moves of a header that are to be seen: to edition 1 and to edition 2. */
enum { TO_FIRST = 1, TO_SECOND = 2 };

/* The calls that are measured. */
typedef uint64_t measured(const uint8_t *lent, size_t length, uint8_t *buffer, size_t room);

/* The call, its arguments and what it returned: a context's function takes no pointers. */
static measured *call;
static const uint8_t *trace;
static size_t trace_len;
static uint8_t *answers;
static size_t answers_len;
static uint64_t returned;

/* The first byte above the call's stack, its return address included. */
static uintptr_t above;

static unsigned states_seen, sent_seen, moves_seen, heard_seen, counts_seen;
static size_t deepest, deepest_simulation;

static void fail(const char *why, const char *what)
{
    fprintf(stderr, "stack: %s: %s\n", what, why);
    exit(EXIT_FAILURE);
}

static void *take(size_t size)
{
    void *memory = malloc(size);
    if (memory == NULL) {
        fail("there is not enough memory", "malloc");
    }
    return memory;
}

/* Takes as much stack as the call may, and then calls. */
static __attribute__((noinline)) uint64_t greedy_call(void)
{
    volatile uint8_t taken[AMSULFEZD_STACK_BYTES];
    taken[0] = 0;
    return call(trace, trace_len, answers, answers_len) + taken[0];
}

/* What runs on the stack of its own. At the call the stack pointer is at or below this frame's address. */
static void on_stack(void)
{
    above = (uintptr_t)__builtin_frame_address(0);
#ifdef FAULT
    returned = greedy_call();
#else
    (void)greedy_call;
    returned = call(trace, trace_len, answers, answers_len);
#endif
}

/* Runs the call on the stack of its own. */
static void run_on_stack(void)
{
    memset(stack, PATTERN, sizeof stack);
    if (getcontext(&there) != 0) {
        fail("getcontext", "the stack");
    }
    there.uc_stack.ss_sp = stack;
    there.uc_stack.ss_size = sizeof stack;
    there.uc_link = &here;
    makecontext(&there, on_stack, 0);
    if (swapcontext(&here, &there) != 0) {
        fail("swapcontext", "the stack");
    }
}

/* Simulates the setup that is lent. */
static uint64_t simulate(const uint8_t *lent, size_t length, uint8_t *buffer, size_t room)
{
    return amsulfezd_simulate(lent, length, buffer, room);
}

/* The trace of the station of a setup with the highest address. */
static uint64_t simulated_trace(const uint8_t *lent, size_t length, uint8_t *buffer, size_t room)
{
    return amsulfezd_simulated_trace(lent, length, (uint8_t)(lent[0] - 1), buffer, room);
}

/* Runs a call on the stack of its own, and notes how deep that went. */
static void run(measured *which, const char *name)
{
    size_t low = 0;
    call = which;
    run_on_stack();
    while (low < sizeof stack && stack[low] == PATTERN) {
        low++;
    }
    if (above < (uintptr_t)stack + low || above > (uintptr_t)stack + sizeof stack) {
        fail("the call did not run on the stack that it was given", name);
    }
    size_t *most = which == simulate || which == simulated_trace ? &deepest_simulation : &deepest;
    if (above - ((uintptr_t)stack + low) > *most) {
        *most = above - ((uintptr_t)stack + low);
    }
}

/* What the calls on captures say beside what they return. */
static uint64_t place, written;

/* Imports the text that is lent. */
static uint64_t import_capture(const uint8_t *lent, size_t length, uint8_t *buffer, size_t room)
{
    return amsulfezd_import_capture(lent, length, buffer, room, &place, &written);
}

/* Exports the entries of the trace that is lent. */
static uint64_t export_capture(const uint8_t *lent, size_t length, uint8_t *buffer, size_t room)
{
    size_t head = amsulfezd_header_length(lent, length);
    if (length < head) {
        return AMSULFEZD_OK;
    }
    return amsulfezd_export_capture(lent + head, length - head, buffer, room, &place, &written);
}

/* Asks when address 9 was heard. */
static uint64_t trace_heard(const uint8_t *lent, size_t length, uint8_t *buffer, size_t room)
{
    return amsulfezd_trace_heard(lent, length, 9, buffer, room);
}

/* Opens the station of the trace that is lent and steps it along the entries; returns what the trace call would. */
static uint64_t step_trace(const uint8_t *lent, size_t length, uint8_t *buffer, size_t room)
{
    static uint8_t station[AMSULFEZD_STATION_LENGTH];
    size_t at = amsulfezd_header_length(lent, length);
    uint64_t count = 0, stepped = amsulfezd_open_station(lent, length, station, sizeof station);
    while (amsulfezd_number(stepped) == AMSULFEZD_OK && at < length) {
        stepped = amsulfezd_step_station(station, sizeof station, lent + at, length - at, buffer, room);
        at += amsulfezd_stepped(stepped);
        count += amsulfezd_number(stepped) == AMSULFEZD_OK;
    }
    return 256 * count + amsulfezd_number(stepped);
}

/* The station and the table that step_heard leaves. */
static uint8_t live[AMSULFEZD_STATION_LENGTH], table[AMSULFEZD_HEARD_TABLE_LENGTH];

/* The same with a table of who was heard beside the station. */
static uint64_t step_heard(const uint8_t *lent, size_t length, uint8_t *buffer, size_t room)
{
    size_t at = amsulfezd_header_length(lent, length);
    uint64_t count = 0, stepped = amsulfezd_open_station(lent, length, live, sizeof live);
    memset(table, 0, sizeof table);
    while (amsulfezd_number(stepped) == AMSULFEZD_OK && at < length) {
        stepped = amsulfezd_step_heard(live, sizeof live, lent + at, length - at, buffer, room, table, sizeof table);
        at += amsulfezd_stepped(stepped);
        count += amsulfezd_number(stepped) == AMSULFEZD_OK;
    }
    return 256 * count + amsulfezd_number(stepped);
}

/* Asks that table when address 9 was heard. */
static uint64_t table_heard(const uint8_t *lent, size_t length, uint8_t *buffer, size_t room)
{
    (void)lent;
    (void)length;
    return amsulfezd_table_heard(table, sizeof table, 9, buffer, room);
}

/* Asks that station for its counts. */
static uint64_t station_counts(const uint8_t *lent, size_t length, uint8_t *buffer, size_t room)
{
    (void)lent;
    (void)length;
    return amsulfezd_station_counts(live, sizeof live, buffer, room);
}

/*
 * Replays a trace, asks who was heard and for the counts, moves its header, exports its entries and steps its station, and notes what
 * came.
 */
static void measure(const uint8_t *bytes, size_t length, const char *name)
{
    struct amsulfezd_counts counts;
    uint8_t heard[AMSULFEZD_HEARD_LENGTH], counted[AMSULFEZD_COUNTS_LENGTH];
    uint64_t i, replayed;
    trace = bytes;
    trace_len = length;
    run(amsulfezd_replay_trace, name);
    replayed = returned;
    if (amsulfezd_ending(returned) == AMSULFEZD_REFUSAL_NO_ROOM) {
        fail("there was not room enough for the answers", name);
    }
    for (i = 0; i < amsulfezd_entries(returned); i++) {
        uint64_t answer = amsulfezd_answer(answers + AMSULFEZD_ANSWER_LENGTH * i);
        states_seen |= 1u << amsulfezd_answer_state(answer);
        sent_seen |= 1u << amsulfezd_answer_sent(answer);
    }
    memset(answers, 0, AMSULFEZD_HEARD_LENGTH);
    run(trace_heard, name);
    heard_seen |= amsulfezd_heard_of(answers).times != 0;
    memcpy(heard, answers, sizeof heard);
    memset(answers, 0, AMSULFEZD_COUNTS_LENGTH);
    run(amsulfezd_trace_counts, name);
    counts = amsulfezd_counts_of(answers);
    memcpy(counted, answers, sizeof counted);
    counts_seen |= (counts.claims != 0 ? 1u : 0) | (counts.removals != 0 ? 2u : 0) | (counts.meetings != 0 ? 4u : 0);
    run(amsulfezd_other_edition, name);
    if (amsulfezd_written(returned) != 0) {
        moves_seen |= amsulfezd_written(returned) == AMSULFEZD_HEADER_LENGTH ? TO_FIRST : TO_SECOND;
    }
    run(export_capture, name);
    run(step_trace, name);
    if (returned != replayed) {
        fail("its station is not stepped as it is replayed", name);
    }
    run(step_heard, name);
    if (returned != replayed) {
        fail("its station is not stepped with a table as it is replayed", name);
    }
    if (amsulfezd_entries(replayed) != 0) {
        run(table_heard, name);
        if (returned != AMSULFEZD_OK || memcmp(heard, answers, sizeof heard) != 0) {
            fail("its table does not say what the trace says of an address", name);
        }
        run(station_counts, name);
        if (returned != AMSULFEZD_OK || memcmp(counted, answers, sizeof counted) != 0) {
            fail("its station does not have the trace's counts", name);
        }
    }
}

/* Imports a capture. */
static void measure_capture(const uint8_t *text, size_t length, const char *name)
{
    trace = text;
    trace_len = length;
    run(import_capture, name);
}

/* Imports a line of each start byte, and further lines of one time. */
static void measure_captures(void)
{
    static const char text[] = "0 e5\n1 dc0909\n1 E5\n1 100509495716\n2 68040468050949005716\n"
                               "281474976710655 a205094900000000000000005716\n7 e5\n";
    measure_capture((const uint8_t *)text, sizeof text - 1, "a capture");
    if (written != 4 * AMSULFEZD_CAPTURE_ENTRY + 2 * AMSULFEZD_CAPTURE_ADDED) {
        fail("it was not imported", "a capture");
    }
}

/* Reads the frame that is lent. */
static uint64_t read_frame(const uint8_t *lent, size_t length, uint8_t *buffer, size_t room)
{
    (void)buffer;
    (void)room;
    return amsulfezd_read_frame(lent, length);
}

/* Writes the word whose four bytes are lent. */
static uint64_t write_frame(const uint8_t *lent, size_t length, uint8_t *buffer, size_t room)
{
    uint32_t word = (uint32_t)lent[0] << 24 | (uint32_t)lent[1] << 16 | (uint32_t)lent[2] << 8 | lent[3];
    return length == 4 ? amsulfezd_write_frame(word, buffer, room) : AMSULFEZD_OK;
}

/* Reads a frame of each start byte, the longest among them, and writes a word of each kind. */
static void measure_frames(void)
{
    static const struct {
        size_t length;
        uint8_t bytes[AMSULFEZD_FRAME_READ_LENGTH];
    } frames[] = {
        {1, {0xe5}},
        {3, {0xdc, 9, 9}},
        {6, {0x10, 5, 9, 0x49, 0x57, 0x16}},
        {14, {0xa2, 5, 9, 0x49, 0, 0, 0, 0, 0, 0, 0, 0, 0x57, 0x16}},
        {255, {[0] = 0x68, [1] = 249, [2] = 249, [3] = 0x68, [254] = 0x16}},
    };
    static const uint8_t words[][4] = {{0x40, 0, 0, 0}, {0x04, 0x89, 0, 0}, {0x82, 0x89, 0x80, 0}, {0xff, 0xfe, 0x7e, 0}};
    size_t i;
    for (i = 0; i < sizeof frames / sizeof frames[0]; i++) {
        trace = frames[i].bytes;
        trace_len = frames[i].length;
        run(read_frame, "a frame");
        if (amsulfezd_frame_bytes(returned) != trace_len) {
            fail("it was not read", "a frame");
        }
    }
    for (i = 0; i < sizeof words / sizeof words[0]; i++) {
        trace = words[i];
        trace_len = sizeof words[i];
        run(write_frame, "a word");
        if (amsulfezd_frame_bytes(returned) == 0) {
            fail("it was not written", "a word");
        }
    }
}

/* Makes settings, sets each of them and finishes them. */
static uint64_t settings(const uint8_t *lent, size_t length, uint8_t *buffer, size_t room)
{
    (void)lent;
    (void)length;
    return amsulfezd_new_settings(5, 6, 1, buffer, room) | amsulfezd_set_slot_bits(buffer, room, 300) |
           amsulfezd_set_highest_station_address(buffer, room, 100) |
           amsulfezd_set_token_rotation_bits(buffer, room, 5000) | amsulfezd_set_gap_wait_rotations(buffer, room, 5) |
           amsulfezd_set_max_retry_limit(buffer, room, 2) | amsulfezd_set_min_tsdr_bits(buffer, room, 20) |
           amsulfezd_set_watchdog_timeout(buffer, room, 650000) | amsulfezd_finish_settings(buffer, room);
}

/* Calls each call on settings. */
static void measure_settings(void)
{
    static const uint8_t nothing[1] = {0};
    trace = nothing;
    trace_len = 0;
    run(settings, "settings");
    if (returned != AMSULFEZD_OK) {
        fail("a call was refused", "settings");
    }
}

/* Simulates eight stations, at 500 kbaud with ticks of 50 us and at 12 Mbaud with ticks of 500 us. */
static void measure_simulations(void)
{
    static const uint8_t begins[][AMSULFEZD_SETUP_LENGTH] = {{8, 0, 0, 0, 50, 0, 0, 3, 232}, {8, 0, 0, 1, 244, 0, 0, 0, 200}};
    static const uint8_t stations[][AMSULFEZD_SETUP_STATION] = {
        {0, 6, 0, 200, 0, 0, 0x7e, 0xb4, 1, 9, 1, 11, 0, 0},
        {0, 10, 3, 232, 0, 0, 0x7e, 0xb4, 1, 9, 1, 11, 0, 0},
    };
    uint8_t setup[AMSULFEZD_SETUP_LENGTH + 8 * AMSULFEZD_SETUP_STATION];
    size_t i, station;
    for (i = 0; i < sizeof begins / sizeof begins[0]; i++) {
        memcpy(setup, begins[i], sizeof begins[i]);
        for (station = 0; station < 8; station++) {
            uint8_t *to = setup + AMSULFEZD_SETUP_LENGTH + AMSULFEZD_SETUP_STATION * station;
            memcpy(to, stations[i], sizeof stations[i]);
            to[0] = (uint8_t)station;
        }
        trace = setup;
        trace_len = sizeof setup;
        run(simulate, "a setup");
        if (amsulfezd_ticks(returned) == 0) {
            fail("it was not simulated", "a setup");
        }
        run(simulated_trace, "a setup");
        if (amsulfezd_written(returned) == 0) {
            fail("its trace was not given", "a setup");
        }
    }
}

/* The next of a row of numbers, below a limit. */
static uint32_t below(uint32_t limit)
{
    static uint64_t row = 1;
    row = row * UINT64_C(6364136223846793005) + UINT64_C(1442695040888963407);
    return (uint32_t)(row >> 33) % limit;
}

/* One of a few addresses, so that stations meet; seldom any. */
static uint8_t address(uint8_t own)
{
    static const uint8_t others[] = {2, 4, 6, 9, 20, 125};
    uint32_t choice = below(16);
    return choice < 6 ? own : choice < 15 ? others[below(sizeof others)] : (uint8_t)below(128);
}

static struct amsulfezd_telegram telegram(uint8_t own)
{
    uint8_t source = address(own), destination = address(own);
    switch (below(5)) {
    case 0:
        return amsulfezd_short_confirmation();
    case 1:
        return amsulfezd_status_request(source, destination);
    case 2:
        return amsulfezd_response(source, destination, (uint8_t)below(4), (uint8_t)(below(4) / 3));
    default:
        return amsulfezd_token(source, destination);
    }
}

static struct amsulfezd_decision decision(void)
{
    uint8_t length = (uint8_t)(1 + below(255));
    switch (below(4)) {
    case 0:
        return amsulfezd_tells(length);
    case 1:
        return amsulfezd_asks((uint8_t)below(128), length);
    default:
        return amsulfezd_declines();
    }
}

/* A trace made at random. Its clock moves by steps around the pause, the slot and the lost-token time. */
static size_t make(uint8_t *to, size_t room)
{
    static const uint32_t steps[] = {1, 40, 66, 67, 132, 400, 500, 6400, 30000};
    struct amsulfezd_header header = amsulfezd_new_header(address(5), 6, (uint8_t)(1 + below(8)));
    size_t length, entries = below(RANDOM_ENTRIES), i;
    uint64_t clock = 1000;
    header.hsa = 126;
    length = below(2) == 0 ? amsulfezd_write_header(to, room, &header) : amsulfezd_write_header_2(to, room, &header);
    length += amsulfezd_write_command(to + length, room - length, AMSULFEZD_COMMAND_ONLINE);
    for (; entries != 0; entries--) {
        struct amsulfezd_decisions decisions[8];
        struct amsulfezd_telegram telegrams[8];
        struct amsulfezd_poll poll = amsulfezd_poll_at(clock, header.applications);
        for (i = 0; i < header.applications; i++) {
            decisions[i].normal = decision();
            decisions[i].high = decision();
        }
        poll.telegram_count = below(3) == 0 ? below(9) : 0;
        for (i = 0; i < poll.telegram_count; i++) {
            telegrams[i] = telegram(header.address);
        }
        poll.decisions = decisions;
        poll.telegrams = telegrams;
        poll.transmitting = below(32) == 0;
        poll.pending = (uint16_t)(below(8) == 0 ? below(2048) : 0);
        length += below(256) == 0 ? amsulfezd_write_command(to + length, room - length, below(3))
                                  : amsulfezd_write_poll(to + length, room - length, &poll);
        clock += steps[below(sizeof steps / sizeof steps[0])];
    }
    return length;
}

/* The bytes of a file. */
static size_t read_file(const char *name, uint8_t *to, size_t room)
{
    FILE *file = fopen(name, "rb");
    size_t length = file == NULL ? 0 : fread(to, 1, room, file);
    if (file == NULL || ferror(file) || length == room) {
        fail("the file cannot be read whole", name);
    }
    fclose(file);
    return length;
}

int main(int count, char **words)
{
    const struct amsulfezd_header header = amsulfezd_new_header(5, 6, 1);
    const unsigned all_states = (1u << (AMSULFEZD_STATE_PASSIVE_IDLE + 1)) - 1;
    const unsigned all_sent = (1u << (AMSULFEZD_SENT_APPLICATION + 1)) - 1;
    const size_t room = AMSULFEZD_HEADER_LENGTH + LONG;
    uint8_t *bytes = (uint8_t *)take(room);
    char *end = NULL;
    unsigned long traces = count < 2 ? 0 : strtoul(words[1], &end, 10), i;
    int file;
    if (count < 2 || *end != '\0') {
        fail("usage: stack TRACES FILE..", "arguments");
    }
    answers_len = AMSULFEZD_ANSWER_LENGTH * (size_t)LONG;
    answers = (uint8_t *)take(answers_len);
    measure_frames();
    measure_settings();
    measure_captures();
    measure_simulations();
    for (file = 2; file < count; file++) {
        const char *end_of_name = strrchr(words[file], '.');
        size_t length = read_file(words[file], bytes, room);
        if (end_of_name != NULL && strcmp(end_of_name, ".capture") == 0) {
            measure_capture(bytes, length, words[file]);
        } else {
            measure(bytes, length, words[file]);
        }
    }
    memset(bytes, AMSULFEZD_COMMAND_ONLINE, room);
    amsulfezd_write_header(bytes, room, &header);
    measure(bytes, room, "a long trace");
    for (i = 0; i < traces; i++) {
        measure(bytes, make(bytes, room), "a trace made at random");
    }
    if (states_seen != all_states || sent_seen != all_sent || moves_seen != (TO_FIRST | TO_SECOND) || !heard_seen ||
        counts_seen != 7) {
        fail("not every state, every kind of send, both moves, an address that was heard and each count were reached",
             "the traces");
    }
    if (deepest > AMSULFEZD_STACK_BYTES) {
        fprintf(stderr, "stack: a call used %zu bytes of stack, more than the %d that amsulfezd.h names\n", deepest,
                AMSULFEZD_STACK_BYTES);
        return EXIT_FAILURE;
    }
    if (deepest_simulation > AMSULFEZD_SIMULATION_STACK_BYTES) {
        fprintf(stderr, "stack: a simulation used %zu bytes of stack, more than the %d that amsulfezd.h names\n",
                deepest_simulation, AMSULFEZD_SIMULATION_STACK_BYTES);
        return EXIT_FAILURE;
    }
    printf("C host: a call used at most %zu bytes of stack, over %d files, a trace of %d entries and %lu at random; one on a "
           "simulated bus at most %zu\n",
           deepest, count - 2, LONG, traces, deepest_simulation);
    free(answers);
    free(bytes);
    return EXIT_SUCCESS;
}
