/*
 * Amsulfezd: a proved PROFIBUS FDL active station, for C (C99 and later) and C++ (C++11 and later).
 *
 * A trace is a header and then entries: commands and poll records. A header has 16 bytes (edition 1), or 14 that begin
 * with 82h (edition 2, for slow lines). The proved call amsulfezd_replay_trace runs a trace and writes an answer of 8
 * bytes for each entry; amsulfezd_trace_heard says of one address when a trace's station heard it;
 * amsulfezd_trace_counts says how often the station claimed the token, removed a neighbour and met its own address;
 * amsulfezd_other_edition moves a header to the other edition. amsulfezd_read_frame reads a frame as it stands on the
 * bus, amsulfezd_write_frame writes one. amsulfezd_import_capture makes entries of a bus monitor's text,
 * amsulfezd_export_capture text of entries. amsulfezd_simulate runs several stations on one simulated bus,
 * amsulfezd_simulated_trace gives the trace of one of them. amsulfezd_new_settings makes a header with the defaults, amsulfezd_set_.. sets
 * one setting of it, amsulfezd_finish_settings checks it as a whole. amsulfezd_open_station makes a station in the caller's
 * memory, amsulfezd_step_station takes it one entry further: a program that is on the bus itself. amsulfezd_step_heard does the
 * same and keeps beside the station who was heard, of whom amsulfezd_table_heard tells; amsulfezd_station_counts says how often
 * that station claimed the token, removed a neighbour and met its own address. In this file, in this order:
 *
 *   the numbers in traces and answers      enum amsulfezd_..
 *   the calls on traces                    amsulfezd_replay_trace, amsulfezd_entries, amsulfezd_ending;
 *                                          amsulfezd_trace_heard, amsulfezd_heard_of;
 *                                          amsulfezd_trace_counts, amsulfezd_counts_of;
 *                                          amsulfezd_other_edition, amsulfezd_written; amsulfezd_number
 *   the calls on frames                    amsulfezd_read_frame, amsulfezd_write_frame, amsulfezd_frame_..
 *   the calls on captures                  amsulfezd_import_capture, amsulfezd_export_capture
 *   the calls on a simulated bus           amsulfezd_simulate, amsulfezd_simulated_trace, amsulfezd_ticks
 *   the calls on settings                  amsulfezd_new_settings, amsulfezd_set_.., amsulfezd_finish_settings
 *   the calls on a station                 amsulfezd_open_station, amsulfezd_step_station, amsulfezd_stepped;
 *                                          amsulfezd_step_heard, amsulfezd_table_heard; amsulfezd_station_counts
 *   readers of an answer                   amsulfezd_answer, amsulfezd_answer_..; amsulfezd_state_name,
 *                                          amsulfezd_refusal_words
 *   writers of a trace                     amsulfezd_write_header, amsulfezd_write_header_2, amsulfezd_write_command,
 *                                          amsulfezd_write_poll
 *
 * example.c replays a trace; logger.c is on a bus, with settings, a station, frames, counts and who was heard. The field widths are document 01's, "Station"
 * and "Trace", and document 02's, P6, P7 and P9; a frame's bytes are document 02's, P1, a setup's P12, a capture's text P13.
 *
 * Linking. `rt lib` in crates/amsulfezd_c proves the library and writes out/libamsulfezd_c.a there, which every command of
 * the repository's Makefile that needs it does and copies to target/staticlib/libamsulfezd.a. From the repository's root,
 * after `make replay`:
 *
 *   cc -Ihosts/c program.c target/staticlib/libamsulfezd.a -o program
 *   cc -Ihosts/c program.c -Ltarget/staticlib -lamsulfezd -o program
 *
 * The library needs no other one. It is for x86-64 with the System V calling convention (ELF, 64-bit pointers), and
 * for no other target. Readers and writers are plain C, inline, and work anywhere: with AMSULFEZD_WITHOUT_CALL
 * defined this file has them and not the calls.
 *
 * Stack. A call uses at most AMSULFEZD_STACK_BYTES of the caller's stack, its return address included, whatever the trace's
 * length; the two calls on a simulated bus, which keep eight stations there, at most AMSULFEZD_SIMULATION_STACK_BYTES.
 * Measured: at most 21,368 bytes for these two, else at most 4,408, with the library of the toolchain rattle-kit-13f. The
 * method: the call runs on a stack of its own that was filled with a pattern, and the deepest byte that changed is looked
 * for, over all traces of traces/, one of 100,000 entries and 1,000 traces made at random, which reach every state and every
 * kind of send; each is replayed, asked for an address that was heard and for its counts, its header moved to the other
 * edition, its entries exported and its station stepped, without a table and with one, which is asked for an address, and
 * asked for its counts; over a frame of each start byte and a word of each kind; over the captures of traces/; over each
 * call on settings; and over two setups of eight stations. hosts/c/stack.c does this and is part of the tests, so that a
 * library that uses more is found. The library's code has no recursion, takes no stack by a computed length and calls
 * nothing outside itself but memcpy and memset.
 */
#ifndef AMSULFEZD_H
#define AMSULFEZD_H

#if !defined(AMSULFEZD_WITHOUT_CALL) && !(defined(__x86_64__) && defined(__LP64__) && defined(__ELF__))
#error "libamsulfezd.a is for x86-64 System V; define AMSULFEZD_WITHOUT_CALL to have the readers and writers without the call"
#endif

#include <stddef.h>
#include <stdint.h>

#ifdef __cplusplus
extern "C" {
#endif

/* ---- The numbers in traces and answers --------------------------------------------------------------------------- */

/* The length of a header of edition 1, of one of edition 2, and of an answer, in bytes. */
#define AMSULFEZD_HEADER_LENGTH 16
#define AMSULFEZD_HEADER_LENGTH_2 14
#define AMSULFEZD_ANSWER_LENGTH 8

/* The first byte of a header of edition 2. Any other begins a header of edition 1, where it is the address. */
#define AMSULFEZD_EDITION_2 0x82

/* The length of what amsulfezd_trace_heard and amsulfezd_table_heard write, in bytes, and the last address that they are asked for. */
#define AMSULFEZD_HEARD_LENGTH 17
#define AMSULFEZD_LAST_ADDRESS 125

/* The length of what amsulfezd_trace_counts and amsulfezd_station_counts write, in bytes. */
#define AMSULFEZD_COUNTS_LENGTH 12

/* The length of a table of who was heard, in bytes: see amsulfezd_step_heard. */
#define AMSULFEZD_HEARD_TABLE_LENGTH (AMSULFEZD_HEARD_LENGTH * (AMSULFEZD_LAST_ADDRESS + 1))

/*
 * The length of a station, in bytes, see amsulfezd_open_station, and where the 12 bytes of its counts begin, which
 * amsulfezd_station_counts reads.
 */
#define AMSULFEZD_STATION_LENGTH 96
#define AMSULFEZD_STATION_COUNTS 64

/* The longest entry, in bytes: a byte with the record's length, and the record. */
#define AMSULFEZD_ENTRY_LENGTH 256

/* The next station of a station that is alone in its ring: see amsulfezd_answer_next_station. */
#define AMSULFEZD_NOBODY 127

/* The most stack that a call uses, in bytes, and that one on a simulated bus uses: see above. */
#define AMSULFEZD_STACK_BYTES 8192
#define AMSULFEZD_SIMULATION_STACK_BYTES 24576

/*
 * The refusal numbers of documents 01 and 02. As ending number of a run: 0, the number of a refused header (1 to 8, 10, 11,
 * 14, 25), 17 or 18; of amsulfezd_trace_heard also 26. In an answer: 0, or 12 to 15. Of a frame that is read: 0, 19 to 24 or
 * 34; of a word to be written: 0, 14, 18 or 34. Of a capture's line: 0, 18 to 24, 31 to 34; of an entry to be exported: 0,
 * 12 to 15, 17 or 18. Of a call on settings: 0, the number of a refused header, 17 or 18. Of a setup: 0, 17, 18, 27 to 30, 35, or
 * the number of a station's settings (1 to 8, 10, 25). Of a station that is opened: 0, the number of a refused header, 17 or 18; of one
 * that is stepped, with a table or without: 0, 36, 17 or 18; of one that is asked for its counts: 0, 36 or 18. Of a table that is asked
 * for an address: 0, 26 or 18.
 * Number 9 is never answered here. Number 16 belongs to earlier versions,
 * which refused the command passive; stored answers of theirs may have it, and no call answers with it any more.
 */
enum amsulfezd_refusal {
    AMSULFEZD_OK = 0,
    AMSULFEZD_REFUSAL_ADDRESS = 1,          /* address above 125 */
    AMSULFEZD_REFUSAL_SLOT = 2,             /* slot too small */
    AMSULFEZD_REFUSAL_HSA = 3,              /* HSA not above the address, or above 126 */
    AMSULFEZD_REFUSAL_ROTATION = 4,         /* rotation outside 256..16,777,960 */
    AMSULFEZD_REFUSAL_GAP_WAIT = 5,         /* gap wait outside 1..100 */
    AMSULFEZD_REFUSAL_RETRY = 6,            /* retry outside 1..15 */
    AMSULFEZD_REFUSAL_MIN_TSDR = 7,         /* min Tsdr below 11 */
    AMSULFEZD_REFUSAL_WATCHDOG = 8,         /* watchdog outside 10..650,000 ms, or one factor zero in a header */
    AMSULFEZD_REFUSAL_FACTORS = 9,          /* factors: u above 65,025 */
    AMSULFEZD_REFUSAL_BAUD = 10,            /* baud code above 10 */
    AMSULFEZD_REFUSAL_APPLICATIONS = 11,    /* applications not 1..8 */
    AMSULFEZD_REFUSAL_RECORD_LENGTH = 12,   /* poll record length */
    AMSULFEZD_REFUSAL_TELEGRAM_COUNT = 13,  /* telegram count above 8 */
    AMSULFEZD_REFUSAL_ZERO_BIT = 14,        /* a bit that should be zero */
    AMSULFEZD_REFUSAL_NO_BYTES = 15,        /* sending 0 bytes */
    AMSULFEZD_REFUSAL_PASSIVE = 16,         /* passive; of earlier versions, no longer answered */
    AMSULFEZD_REFUSAL_CUT = 17,             /* trace ends inside header or entry, or is above 2^32 bytes */
    AMSULFEZD_REFUSAL_NO_ROOM = 18,         /* no 8 bytes left for an answer; no room for what is to be written; a short table */
    /* Document 02's: 25 of a header, 26 of an address asked for, 27 to 30 and 35 of a simulation's setup, 31 to 33 of a capture,
       the others of a frame. */
    AMSULFEZD_REFUSAL_FRAME_CUT = 19,         /* frame empty or cut short */
    AMSULFEZD_REFUSAL_START_BYTE = 20,        /* start byte */
    AMSULFEZD_REFUSAL_FRAME_HEADER = 21,      /* SD2 header: its repeated bytes differ, or the length is outside 4..249 */
    AMSULFEZD_REFUSAL_CHECK_BYTE = 22,        /* check byte */
    AMSULFEZD_REFUSAL_END_BYTE = 23,          /* end byte */
    AMSULFEZD_REFUSAL_ADDRESS_EXTENSION = 24, /* address extension bit */
    AMSULFEZD_REFUSAL_GAP_ROOM = 25,          /* rotation with no room for a gap poll: below slot bits + 100 */
    AMSULFEZD_REFUSAL_ASKED_ADDRESS = 26,     /* who was heard: an address above 125 is asked for */
    AMSULFEZD_REFUSAL_EQUAL_ADDRESSES = 27,   /* two stations of a setup with equal addresses */
    AMSULFEZD_REFUSAL_TICK = 28,              /* a setup's tick outside 1..1,000,000 us */
    AMSULFEZD_REFUSAL_STATIONS = 29,          /* a setup's number of stations outside 2..8; no station with that place */
    AMSULFEZD_REFUSAL_BAUD_CODES = 30,        /* the baud codes of a setup's stations differ */
    AMSULFEZD_REFUSAL_CAPTURE_LINE = 31,      /* a capture's line that is not built as it should be, or bytes after its frame */
    AMSULFEZD_REFUSAL_CAPTURE_TIME = 32,      /* a time below the one before */
    AMSULFEZD_REFUSAL_CAPTURE_COUNT = 33,     /* more than 8 lines of one time */
    AMSULFEZD_REFUSAL_FUNCTION_CODE = 34,     /* top bit of the function code set; to be written: any other request */
    AMSULFEZD_REFUSAL_TICKS = 35,             /* a setup with more than 1,000,000 ticks */
    AMSULFEZD_REFUSAL_STATION = 36            /* bytes that are no station */
};

/* How a poll ended. */
enum amsulfezd_outcome {
    AMSULFEZD_OUTCOME_NONE = 0,         /* no poll: a command, or an entry that was refused */
    AMSULFEZD_OUTCOME_OFFLINE = 1,      /* the station is offline */
    AMSULFEZD_OUTCOME_TRANSMISSION = 2, /* a transmission was found going on, or one was begun */
    AMSULFEZD_OUTCOME_BUS = 3,          /* it waits for something to happen on the bus */
    AMSULFEZD_OUTCOME_DELAY = 4         /* it waits for time to pass */
};

/* The station's state after an entry. amsulfezd_state_name gives its name. */
enum amsulfezd_state {
    AMSULFEZD_STATE_OFFLINE = 0,
    AMSULFEZD_STATE_LISTEN_TOKEN = 1,
    AMSULFEZD_STATE_ACTIVE_IDLE = 2,
    AMSULFEZD_STATE_USE_TOKEN = 3,
    AMSULFEZD_STATE_CLAIM_TOKEN = 4,
    AMSULFEZD_STATE_AWAIT_DATA_RESPONSE = 5,
    AMSULFEZD_STATE_PASS_TOKEN = 6,
    AMSULFEZD_STATE_CHECK_TOKEN_PASS = 7,
    AMSULFEZD_STATE_AWAIT_STATUS_RESPONSE = 8,
    AMSULFEZD_STATE_PASSIVE_IDLE = 9 /* passive: it answers status requests and never takes the token */
};

/* What the station sent in a poll. */
enum amsulfezd_sent {
    AMSULFEZD_SENT_NONE = 0,
    AMSULFEZD_SENT_TOKEN = 1,
    AMSULFEZD_SENT_STATUS_REQUEST = 2,
    AMSULFEZD_SENT_STATUS_RESPONSE = 3,
    AMSULFEZD_SENT_APPLICATION = 4 /* an application's telegram */
};

/* What a response says of the station that sends it. */
enum amsulfezd_station_type {
    AMSULFEZD_TYPE_SLAVE = 0,
    AMSULFEZD_TYPE_NOT_READY = 1,
    AMSULFEZD_TYPE_WITHOUT_TOKEN = 2,
    AMSULFEZD_TYPE_IN_RING = 3
};

/* What an application was told in a poll. */
enum amsulfezd_notice {
    AMSULFEZD_NOTICE_NONE = 0,
    AMSULFEZD_NOTICE_REPLY = 1,  /* the reply that it waited for came */
    AMSULFEZD_NOTICE_TIMEOUT = 2 /* it did not come in time */
};

/* A trace's entries that are commands. */
enum amsulfezd_command {
    AMSULFEZD_COMMAND_ONLINE = 0,
    AMSULFEZD_COMMAND_OFFLINE = 1,
    AMSULFEZD_COMMAND_PASSIVE = 2
};

/* The kinds of a telegram that a poll record reports. */
enum amsulfezd_telegram_kind {
    AMSULFEZD_TELEGRAM_TOKEN = 0,
    AMSULFEZD_TELEGRAM_SHORT_CONFIRMATION = 1,
    AMSULFEZD_TELEGRAM_REQUEST = 2,
    AMSULFEZD_TELEGRAM_RESPONSE = 3
};

/* Bytes with a meaning in a frame. */
enum amsulfezd_frame_byte {
    AMSULFEZD_FRAME_SD1 = 0x10,           /* start byte: no data, 6 bytes */
    AMSULFEZD_FRAME_SD2 = 0x68,           /* start byte: data of any length, 10 to 255 bytes */
    AMSULFEZD_FRAME_SD3 = 0xa2,           /* start byte: 8 data bytes, 14 bytes */
    AMSULFEZD_FRAME_SD4 = 0xdc,           /* start byte: a token, 3 bytes */
    AMSULFEZD_FRAME_SC = 0xe5,            /* start byte: a short confirmation, 1 byte */
    AMSULFEZD_FRAME_END = 0x16,           /* the end byte of SD1, SD2 and SD3 */
    AMSULFEZD_FRAME_STATUS_REQUEST = 0x49 /* the function code of a status request */
};

/* The longest frame that is read, and the longest that is written, in bytes. */
#define AMSULFEZD_FRAME_READ_LENGTH 255
#define AMSULFEZD_FRAME_WRITTEN_LENGTH 6

/*
 * Of captures: the telegrams of one time at most, the bytes of an entry that a line begins and those that a further line of
 * its time adds, and the longest line that is written, in bytes.
 */
#define AMSULFEZD_CAPTURE_TELEGRAMS 8
#define AMSULFEZD_CAPTURE_ENTRY 19
#define AMSULFEZD_CAPTURE_ADDED 4
#define AMSULFEZD_CAPTURE_LINE_LENGTH 29

/*
 * Of a simulated bus: the bytes of a setup before its stations, those of each station, and the most that a record of a simulated
 * station takes in its trace, in bytes.
 */
#define AMSULFEZD_SETUP_LENGTH 9
#define AMSULFEZD_SETUP_STATION 14
#define AMSULFEZD_SIMULATED_ENTRY 47

/* ---- The calls on traces ----------------------------------------------------------------------------------------- */

#ifndef AMSULFEZD_WITHOUT_CALL
/*
 * Runs a trace from a fresh station and writes an answer for each entry.
 *
 * trace, trace_len      The trace: a header of either edition, then entries. It is read only. A trace above 2^32 bytes
 *                       is refused with 17.
 * answers, answers_len  Where the answers go: the answer to the entry with index i, counted from 0, into the 8 bytes
 *                       from 8 * i on, most significant byte first. A trace of n bytes, n at least 14, has at most
 *                       n - 14 entries, so 8 * (n - 14) bytes are always enough.
 *
 * Returns the number of entries answered, times 256, plus the ending number: 0 if the trace was read to its end, 17
 * if it ends inside its header or an entry or is above 2^32 bytes, 18 if there was no room for an answer, or the number
 * of a refused header. Take it apart with amsulfezd_entries and amsulfezd_ending.
 *
 * Which bytes change: exactly the 8 bytes of each answered entry. All others of `answers` keep their value, and nothing
 * else is written. After 17 or 18 the answers before it stand. A refused header writes nothing. An entry that is
 * refused with 12 to 15 gets an answer with its number, and the run goes on.
 *
 * What the caller must ensure: `trace` points to trace_len readable bytes and `answers` to answers_len writable ones
 * for the time of the call; the two do not overlap; neither is NULL, not even with length 0; nobody else writes to
 * either during the call. Any content is allowed.
 *
 * Ownership: both stay the caller's. The call keeps no pointer and allocates nothing.
 *
 * Threads: the call has no state of its own, so any number of threads may call it at the same time, each with its own
 * `answers`; they may share a trace.
 *
 * It always returns; its time grows with the number of entries.
 */
uint64_t amsulfezd_replay_trace(const uint8_t *trace, size_t trace_len, uint8_t *answers, size_t answers_len);

/*
 * Runs a trace from a fresh station, as amsulfezd_replay_trace does, and writes when one address was heard: how often, at
 * which clock first and last, and the station type of its last response. Telegrams that a poll consumed are heard, by their
 * source; short confirmations and the sources 126 and 127 are not. First and last are in the order of hearing: after a clock
 * that went back, last may be below first. Going offline forgets nothing. Our own address is an address like any other.
 *
 * trace, trace_len    The trace, as above.
 * address             The address that is asked for, 0..125.
 * entry, entry_len    Where AMSULFEZD_HEARD_LENGTH bytes go: times heard 4 bytes, which stop at 2^32 - 1, first clock 6, last
 *                     clock 6, and one byte that is 0 if no response was seen and else 1 + the station type. All are zero for
 *                     an address that was never heard. Read them with amsulfezd_heard_of.
 *
 * Returns the number of entries, times 256, plus the ending number: 0, or 17 if the trace ends inside an entry; the 17 bytes
 * are then written, with what the whole entries make. Refused, in this order, with no entries and nothing written: 26 if the
 * address is above 125; 17 or the number of a refused header, as above; 18 if entry_len is below 17. Room for answers is not
 * asked for. Take it apart with amsulfezd_entries and amsulfezd_ending.
 *
 * Which bytes change: the first 17 of `entry`, where nothing was refused. All others keep their value.
 *
 * What the caller must ensure, ownership and threads: as for amsulfezd_replay_trace. It always returns; its time grows with
 * the number of entries.
 */
uint64_t amsulfezd_trace_heard(const uint8_t *trace, size_t trace_len, uint8_t address, uint8_t *entry,
                               size_t entry_len);

/*
 * Runs a trace from a fresh station, as amsulfezd_replay_trace does, and writes three counts of the station's life. Each stops
 * at 2^32 - 1, and none is cleared: going offline, by command or by collision, keeps them.
 *
 *   claims    how often the station claimed a lost token: each entry to ClaimToken. The second token that it then sends to
 *             itself is no other one.
 *   removals  how often it removed its next station after a third token to which nobody was heard. Stations that leave the
 *             ring by a token between others are not counted.
 *   meetings  how often it met its own address, each collision that it counted: in ListenToken any telegram with our address
 *             as source, in ActiveIdle tokens only, also those that a poll in CheckTokenPass hears. Telegrams behind the second
 *             collision in one poll are not counted.
 *
 * trace, trace_len    The trace, as above.
 * counts, counts_len  Where AMSULFEZD_COUNTS_LENGTH bytes go: claims, removals and meetings, 4 bytes each. Read them with
 *                     amsulfezd_counts_of.
 *
 * Returns the number of entries, times 256, plus the ending number: 0, or 17 if the trace ends inside an entry; the 12 bytes
 * are then written, with what the whole entries make. Refused, in this order, with no entries and nothing written: 17 or the
 * number of a refused header, as above; 18 if counts_len is below 12. Room for answers is not asked for. Take it apart with
 * amsulfezd_entries and amsulfezd_ending.
 *
 * Which bytes change: the first 12 of `counts`, where nothing was refused. All others keep their value.
 *
 * What the caller must ensure, ownership and threads: as for amsulfezd_replay_trace. It always returns; its time grows with
 * the number of entries.
 */
uint64_t amsulfezd_trace_counts(const uint8_t *trace, size_t trace_len, uint8_t *counts, size_t counts_len);

/*
 * Moves a header to the other edition: one of 16 bytes to 14, one of 14 that begins with 82h to 16. An accepted header
 * moves there and back to the same bytes, and a trace whose header moved has the same answers.
 *
 * header, header_len  The header. Bytes behind it are not looked at, so that a whole trace may be lent. It is read only.
 * out, out_len        Where the other header goes: its 14 or 16 bytes to the start of `out`.
 *
 * Returns the number of bytes written, times 256, plus the refusal number, 0 if nothing was refused. Take it apart with
 * amsulfezd_written and amsulfezd_number. Refused, in this order: 17 where header_len is less than the length of a header
 * of its edition (82h first: 14, anything else: 16); the number that a trace with this header ends with (1 to 8, 10, 11,
 * 14, 25); 18 where `out` has no room for the other header.
 *
 * Which bytes change: exactly those of the header that is written. All others of `out` keep their value, and all do where
 * something is refused.
 *
 * What the caller must ensure, ownership and threads: as for amsulfezd_replay_trace. It always returns.
 */
uint64_t amsulfezd_other_edition(const uint8_t *header, size_t header_len, uint8_t *out, size_t out_len);
#endif

/* The number of entries, of what amsulfezd_replay_trace, amsulfezd_trace_heard or amsulfezd_trace_counts returned. */
static inline uint64_t amsulfezd_entries(uint64_t returned)
{
    return returned / 256;
}

/* The ending number, of what these three returned: see enum amsulfezd_refusal. */
static inline unsigned amsulfezd_ending(uint64_t returned)
{
    return (unsigned)(returned % 256);
}

/* The number of bytes written, of what amsulfezd_other_edition or amsulfezd_simulated_trace returned. */
static inline uint64_t amsulfezd_written(uint64_t returned)
{
    return returned / 256;
}

/* The refusal number, of what any call but these three returned: see enum amsulfezd_refusal. */
static inline unsigned amsulfezd_number(uint64_t returned)
{
    return (unsigned)(returned % 256);
}

/* When an address was heard. */
struct amsulfezd_heard {
    uint32_t times;        /* 0 if never; all else is then 0 too */
    uint64_t first;        /* the clock of the first telegram, in microseconds */
    uint64_t last;         /* the clock of the last one heard */
    uint8_t response_seen; /* 1 if a response was among them, else 0 */
    uint8_t station_type;  /* that of the last response: enum amsulfezd_station_type; 0 if there was none */
};

/* The counts of a station's life. */
struct amsulfezd_counts {
    uint32_t claims;   /* lost tokens claimed */
    uint32_t removals; /* neighbours removed after a third token */
    uint32_t meetings; /* collisions counted: our own address was heard */
};

/* For amsulfezd_heard_of and amsulfezd_counts_of: this many bytes as a number, most significant first. */
static inline uint64_t amsulfezd_load(const uint8_t *bytes, unsigned count)
{
    uint64_t number = 0;
    unsigned i;
    for (i = 0; i < count; i++) {
        number = number << 8 | bytes[i];
    }
    return number;
}

/* What the AMSULFEZD_HEARD_LENGTH bytes say that amsulfezd_trace_heard or amsulfezd_table_heard wrote. */
static inline struct amsulfezd_heard amsulfezd_heard_of(const uint8_t *entry)
{
    struct amsulfezd_heard heard;
    heard.times = (uint32_t)amsulfezd_load(entry, 4);
    heard.first = amsulfezd_load(entry + 4, 6);
    heard.last = amsulfezd_load(entry + 10, 6);
    heard.response_seen = entry[16] != 0;
    heard.station_type = (uint8_t)(entry[16] == 0 ? 0 : entry[16] - 1);
    return heard;
}

/* What the AMSULFEZD_COUNTS_LENGTH bytes say that amsulfezd_trace_counts or amsulfezd_station_counts wrote. */
static inline struct amsulfezd_counts amsulfezd_counts_of(const uint8_t *bytes)
{
    struct amsulfezd_counts counts;
    counts.claims = (uint32_t)amsulfezd_load(bytes, 4);
    counts.removals = (uint32_t)amsulfezd_load(bytes + 4, 4);
    counts.meetings = (uint32_t)amsulfezd_load(bytes + 8, 4);
    return counts;
}

/* The length of the header that these bytes begin with, by their first byte. They may be fewer. */
static inline size_t amsulfezd_header_length(const uint8_t *trace, size_t trace_len)
{
    return trace_len != 0 && trace[0] == AMSULFEZD_EDITION_2 ? AMSULFEZD_HEADER_LENGTH_2 : AMSULFEZD_HEADER_LENGTH;
}

/* ---- The calls on frames ----------------------------------------------------------------------------------------- */

#ifndef AMSULFEZD_WITHOUT_CALL
/*
 * Reads one frame, as it stands on the bus, at the start of these bytes. Bytes after the frame are not looked at.
 *
 * Returns word * 65536 + bytes used * 256 + 0, or, refused, the number alone: 19 to 24 or 34 of enum amsulfezd_refusal.
 * The word is that of a telegram in a poll record: kind 2 bits, destination 7, source 7, status request 1, station type
 * 2, status 4, zero 9. Data are left out. Take it apart with amsulfezd_number, amsulfezd_frame_bytes, amsulfezd_frame_word
 * and amsulfezd_telegram_of.
 *
 * The order in which a frame is refused: 19 empty; 20 start byte; 19 for a header of SD2 with fewer than 4 bytes, then
 * 21 if its length or its start byte is not repeated or the length is outside 4 to 249; 19 cut short; 22 check byte;
 * 23 end byte; 24 an address with its bit 7 set (SC has none); 34 a function code with its top bit set.
 *
 * What the caller must ensure: `frame` points to frame_len readable bytes for the time of the call, is not NULL, not even
 * with length 0, and nobody writes to it during the call. Any content is allowed. Nothing is written. The call keeps no
 * pointer, allocates nothing, has no state and always returns; its time grows with the frame's length, at most 255 bytes.
 */
uint64_t amsulfezd_read_frame(const uint8_t *frame, size_t frame_len);

/*
 * Writes a telegram's word as a frame to the start of `frame`: a token with SD4, 3 bytes, a short confirmation with SC, 1
 * byte, a status request or a response with SD1, 6 bytes.
 *
 * Returns bytes written * 256 + 0, or, refused, the number alone, and then nothing is written: 14 if a bit is set that
 * should be zero, 34 for any other request, 18 if there is no room for the frame, in this order.
 *
 * Which bytes change: those of the frame. All others of `frame` keep their value, and nothing else is written.
 *
 * What the caller must ensure: `frame` points to frame_len writable bytes for the time of the call, is not NULL, not even
 * with length 0, and nobody else writes to it during the call. The call keeps no pointer, allocates nothing, has no state
 * and always returns.
 */
uint64_t amsulfezd_write_frame(uint32_t word, uint8_t *frame, size_t frame_len);
#endif

/* How many bytes were used or written, of what either call on frames returned. */
static inline unsigned amsulfezd_frame_bytes(uint64_t returned)
{
    return (unsigned)(returned / 256 % 256);
}

/* The telegram's word, of what amsulfezd_read_frame returned. */
static inline uint32_t amsulfezd_frame_word(uint64_t returned)
{
    return (uint32_t)(returned / 65536);
}

/* ---- The calls on captures --------------------------------------------------------------------------------------- */

#ifndef AMSULFEZD_WITHOUT_CALL
/*
 * Makes trace entries of a bus monitor's text. A line is a decimal time in microseconds, one space, a frame as pairs of hex
 * digits in either case, and a line feed. Lines of equal time make one poll record, for a station with one application that
 * declines: their telegrams in their order, at most 8, no pending byte, not transmitting. There is no header and no online
 * among what is written: a trace needs both before it.
 *
 * text, text_len        The text. It is read only.
 * entries, entries_len  Where the entries go: AMSULFEZD_CAPTURE_ENTRY bytes for the first line of a time,
 *                       AMSULFEZD_CAPTURE_ADDED for each other. 19 bytes for each line feed of the text are always enough.
 * line                  The refused line, counted from 1, or 0. It is always written.
 * written               How many bytes of `entries` were written. It is always written.
 *
 * Returns the refusal number, 0 if nothing was refused. The first bad line decides, and nothing of it or after it is
 * written; the lines before it stand, those of its own time among them. In a line, in this order: 31 if it is not built so
 * (the time has no leading zero, 0 itself apart, and is below 2^48; a last line without line feed is such); 32 if its time is
 * below the one before; 33 if it is the ninth of its time; the number of a frame that is not read (19 to 24, 34); 31 for
 * bytes after the frame; 18 if there is no room for its entry or telegram.
 *
 * Which bytes change: the first `written` bytes of `entries`, `line` and `written`. All others keep their value.
 *
 * What the caller must ensure: all four point to memory that is theirs for the time of the call and do not overlap; none is
 * NULL, not even with length 0; nobody else writes to them during the call. Any content is allowed. The call keeps no
 * pointer, allocates nothing, has no state and always returns; its time grows with the text's length.
 */
uint64_t amsulfezd_import_capture(const uint8_t *text, size_t text_len, uint8_t *entries, size_t entries_len,
                                  uint64_t *line, uint64_t *written);

/*
 * Makes a capture's text of trace entries: a line for each telegram of each poll record, in lower case. Telegrams that are
 * not written as frames (requests that are no status requests) and the commands online, offline and passive give no line.
 *
 * entries, entries_len  The entries, without header, with records for one application. They are read only.
 * text, text_len        Where the text goes. AMSULFEZD_CAPTURE_LINE_LENGTH bytes for each 4 bytes of entries are always
 *                       enough.
 * entry                 The refused entry, counted from 1, or 0. It is always written.
 * written               How many bytes of `text` were written. It is always written.
 *
 * Returns the refusal number, 0 if nothing was refused: 17 if the entries end inside one, 12 to 15 for a record that a trace
 * would answer so, and then nothing of that entry is written; 18 if there is no room for a line, and then the lines before
 * it stand, those of the same entry among them. Clocks that go back are written as they are.
 *
 * Which bytes change: the first `written` bytes of `text`, `entry` and `written`. All others keep their value.
 *
 * What the caller must ensure and the rest: as for amsulfezd_import_capture.
 */
uint64_t amsulfezd_export_capture(const uint8_t *entries, size_t entries_len, uint8_t *text, size_t text_len,
                                  uint64_t *entry, uint64_t *written);
#endif

/* ---- The calls on a simulated bus -------------------------------------------------------------------------------- */

#ifndef AMSULFEZD_WITHOUT_CALL
/*
 * Runs 2 to 8 stations on one simulated bus and writes what each answers at each tick. They have settings of their own, one baud
 * code and one clock, which is 0 at the first tick. Each has one application that declines and is online before the first tick.
 * At each tick they are polled by rising address. A telegram that is sent at a tick ends after 11 bits a byte, rounded up to whole
 * microseconds, and stands in every other station's record at the first later tick at or after its end. If one begins before
 * another has ended, neither is delivered; two of one tick are such. What a poll does not consume stands first in the station's
 * next record; beyond 8 the oldest fall away. The sender's record says that it transmits at ticks after the start and before the
 * end, also of a telegram that is lost.
 *
 * setup, setup_len    The setup: number of stations 1 byte, tick in microseconds 4, number of ticks 4, most significant first;
 *                     then for each station, in any order, 14 bytes: address 1, baud code 1, slot bits 2, rotation bits 4, gap
 *                     wait 1, HSA 1, retry 1, min Tsdr 1, watchdog factors 1 + 1. It is read only.
 * report, report_len  Where the answers go: 8 bytes each, tick by tick, within a tick by rising address, whatever the order in
 *                     which the stations were given: 8 * stations * ticks bytes.
 *
 * Returns the number of ticks, times 256, plus 0, or, refused, the number alone, and then nothing is written. Take it apart with
 * amsulfezd_ticks and amsulfezd_number. Refused, in this order: 17 if setup_len is below 9; 29 if the number of stations is not
 * 2..8; 17 if setup_len is not 9 + 14 * stations; 28 if the tick is not 1..1,000,000; 35 if there are more than 1,000,000 ticks (0
 * are allowed); 30 if two baud codes differ; 27 if two addresses are equal, both as they are given, legal or not; the number of
 * the first station, as given, whose settings are refused (1, 10, 2, 3, 4, 25, 5, 6, 7, 8, in this order); 18 if there is no room
 * for the report.
 *
 * Which bytes change: the first 8 * stations * ticks of `report`, where nothing was refused. All others keep their value.
 *
 * What the caller must ensure, ownership and threads: as for amsulfezd_replay_trace. It always returns; its time grows with the
 * number of ticks and stations.
 */
uint64_t amsulfezd_simulate(const uint8_t *setup, size_t setup_len, uint8_t *report, size_t report_len);

/*
 * Runs the same and writes the trace of one station: its header, of edition 1, online, and the record of each tick. What
 * amsulfezd_replay_trace answers to it is, after the answer to online, that station's part of the report.
 *
 * setup, setup_len    The setup, as above.
 * station             The station's place by rising address, from 0.
 * trace, trace_len    Where the trace goes. AMSULFEZD_HEADER_LENGTH + 1 + AMSULFEZD_SIMULATED_ENTRY * ticks bytes are always
 *                     enough.
 *
 * Returns the number of bytes written, times 256, plus 0, or, refused, the number alone, and then nothing is written. Take it
 * apart with amsulfezd_written and amsulfezd_number. Refused as above, and before 18 with 29 if no station has that place; 18 if
 * there is no room for the whole trace.
 *
 * Which bytes change: those of the trace, where nothing was refused. All others of `trace` keep their value.
 *
 * What the caller must ensure and the rest: as for amsulfezd_simulate.
 */
uint64_t amsulfezd_simulated_trace(const uint8_t *setup, size_t setup_len, uint8_t station, uint8_t *trace, size_t trace_len);
#endif

/* The number of ticks, of what amsulfezd_simulate returned. */
static inline uint64_t amsulfezd_ticks(uint64_t returned)
{
    return returned / 256;
}

/* ---- The calls on settings --------------------------------------------------------------------------------------- */

#ifndef AMSULFEZD_WITHOUT_CALL
/*
 * Settings in the caller's memory: AMSULFEZD_HEADER_LENGTH bytes that are a header of edition 1. They are made new, changed
 * setting by setting and finished; finished they begin a trace.
 *
 * amsulfezd_new_settings writes the header of this address and baud code, for so many applications, with the defaults: the
 * least slot bits of the code, rotation 32,436, gap wait 10, HSA 126, retry 1, min Tsdr 11, no watchdog factors. Refused, in
 * this order: 1 if the address is above 125, 10 if the baud code is above 10, 11 if the applications are not 1..8, 18 if
 * header_len is below 16.
 *
 * Each amsulfezd_set_.. changes one setting, and amsulfezd_set_highest_station_address also sets the rotation to HSA * 5000.
 * Refused, in this order: 17 if header_len is below 16; the number that the header as it stands is refused with, 25 left out
 * (edition 2 is not taken: 1); the setting's own number. So slot and rotation may be set in either order. All other fields
 * stay as given, also a pair of watchdog factors that no time gives.
 *
 * amsulfezd_finish_settings checks the header as a whole and writes nothing: 17 if header_len is below 16, 1 for edition 2,
 * else the number that a trace with this header ends with, 25 among them, 0 if it is accepted.
 *
 * Each returns the refusal number, 0 if nothing was refused.
 *
 * Which bytes change: of an accepted call the first 16 of `header`, where only those of the setting get another value. Bytes
 * behind them keep their value, and all do where something is refused.
 *
 * What the caller must ensure: `header` points to header_len bytes that are the caller's for the time of the call, is not
 * NULL, not even with length 0, and nobody else writes to it during the call. Any content is allowed. A call keeps no
 * pointer, allocates nothing, has no state and always returns.
 */
uint64_t amsulfezd_new_settings(uint8_t address, uint8_t baud, uint8_t applications, uint8_t *header, size_t header_len);
uint64_t amsulfezd_set_slot_bits(uint8_t *header, size_t header_len, uint16_t slot_bits);
uint64_t amsulfezd_set_highest_station_address(uint8_t *header, size_t header_len, uint8_t hsa);
uint64_t amsulfezd_set_token_rotation_bits(uint8_t *header, size_t header_len, uint32_t rotation_bits);
uint64_t amsulfezd_set_gap_wait_rotations(uint8_t *header, size_t header_len, uint8_t gap_wait);
uint64_t amsulfezd_set_max_retry_limit(uint8_t *header, size_t header_len, uint8_t max_retry_limit);
uint64_t amsulfezd_set_min_tsdr_bits(uint8_t *header, size_t header_len, uint8_t min_tsdr_bits);
uint64_t amsulfezd_set_watchdog_timeout(uint8_t *header, size_t header_len, uint32_t milliseconds);
uint64_t amsulfezd_finish_settings(const uint8_t *header, size_t header_len);
#endif

/* ---- The calls on a station -------------------------------------------------------------------------------------- */

#ifndef AMSULFEZD_WITHOUT_CALL
/*
 * Makes a fresh station of a header's settings in the caller's memory: AMSULFEZD_STATION_LENGTH bytes, which are the whole
 * station. They may be copied, saved and loaded again; a station's bytes depend on its header and its entries alone.
 *
 * header, header_len    The header, of either edition, such as finished settings. Bytes behind it are not looked at. It is
 *                       read only.
 * station, station_len  Where the station goes.
 *
 * Returns the number of bytes written, times 256, plus the refusal number, 0 if nothing was refused. Take it apart with
 * amsulfezd_written and amsulfezd_number. Refused, in this order: 17 where header_len is less than the length of a header of
 * its edition; the number that a trace with this header ends with; 18 where station_len is below AMSULFEZD_STATION_LENGTH.
 *
 * Which bytes change: the first AMSULFEZD_STATION_LENGTH of `station`, where nothing is refused. All others keep their value.
 *
 * What the caller must ensure, ownership and threads: as for amsulfezd_replay_trace. It always returns.
 */
uint64_t amsulfezd_open_station(const uint8_t *header, size_t header_len, uint8_t *station, size_t station_len);

/*
 * Takes a station one entry further: does what the entry says, a command or a poll, and writes its answer and the station after
 * it. A trace is its header's station stepped along its entries, answer by answer.
 *
 * station, station_len  The station: what amsulfezd_open_station or this call wrote. Any content is allowed; bytes that are no
 *                       station are refused with 36. Bytes behind the station are not looked at.
 * entry, entry_len      The entry, as in a trace: what amsulfezd_write_command or amsulfezd_write_poll writes. A record has the
 *                       decisions of as many applications as the station's header says. Bytes behind the entry are not looked
 *                       at, so that the rest of a trace may be lent. It is read only.
 * answer, answer_len    Where the answer goes: AMSULFEZD_ANSWER_LENGTH bytes, read with amsulfezd_answer.
 *
 * Returns the bytes of the entry, times 256, plus 0; or, refused, the number alone. Take it apart with amsulfezd_stepped and
 * amsulfezd_number. Refused, in this order, with nothing written: 36 where the bytes are no station or too few for one; 17
 * where the entry is empty or cut; 18 where answer_len is below 8. So an empty entry asks whether the bytes are a station: 17 if
 * they are, 36 if not. An entry that a trace would answer with 12 to 15 is answered here too: the answer has the number, and the
 * station's bytes keep their value.
 *
 * Which bytes change: the first AMSULFEZD_STATION_LENGTH of `station` and the first 8 of `answer`, where nothing is refused. All
 * others keep their value.
 *
 * What the caller must ensure: the three point to memory that is theirs for the time of the call and do not overlap; none is
 * NULL, not even with length 0; nobody else writes to them during the call. Several threads may step at the same time, each a
 * station of its own. The call keeps no pointer, allocates nothing, has no state and always returns.
 */
uint64_t amsulfezd_step_station(uint8_t *station, size_t station_len, const uint8_t *entry, size_t entry_len, uint8_t *answer,
                                size_t answer_len);

/*
 * Takes a station one entry further, as amsulfezd_step_station does, and takes note of who was heard in a table that is the
 * caller's: the telegrams that the poll consumed are heard, by the rules of amsulfezd_trace_heard. The station and the answer
 * are those of a step without a table. Where a fresh station is stepped so along a trace's entries, with a table that began as
 * zeros, the table says of each address what amsulfezd_trace_heard says of that trace.
 *
 * station, station_len  The station, as above.
 * entry, entry_len      The entry, as above.
 * answer, answer_len    Where the answer goes, as above.
 * table, table_len      The table: AMSULFEZD_HEARD_TABLE_LENGTH bytes, AMSULFEZD_HEARD_LENGTH for each of the 126 addresses. It
 *                       begins as zeros: nobody was heard. Ask it with amsulfezd_table_heard. It may be copied, saved and loaded
 *                       again, as a station; going offline forgets nothing of it. Any content is taken as a table: where the last
 *                       of an address's bytes is above 4 it is taken as 4. Bytes behind the table are not looked at.
 *
 * Returns the bytes of the entry, times 256, plus 0; or, refused, the number alone. Take it apart with amsulfezd_stepped and
 * amsulfezd_number. Refused, in this order, with nothing written: 36 where the bytes are no station or too few for one; 17
 * where the entry is empty or cut; 18 where answer_len is below 8 or table_len below AMSULFEZD_HEARD_TABLE_LENGTH: a short table
 * is refused and not filled in part.
 *
 * Which bytes change: the first AMSULFEZD_STATION_LENGTH of `station`, the first 8 of `answer`, and of `table` those of the
 * addresses that were heard, where nothing is refused. All others keep their value. A command, and an entry that is answered with
 * 12 to 15, leave the whole table as it was.
 *
 * What the caller must ensure: the four point to memory that is theirs for the time of the call and do not overlap; none is
 * NULL, not even with length 0; nobody else writes to them during the call. Several threads may step at the same time, each a
 * station and a table of its own. The call keeps no pointer, allocates nothing, has no state and always returns.
 */
uint64_t amsulfezd_step_heard(uint8_t *station, size_t station_len, const uint8_t *entry, size_t entry_len, uint8_t *answer,
                              size_t answer_len, uint8_t *table, size_t table_len);

/*
 * Writes what a table says of one address: when it was heard, as amsulfezd_trace_heard writes it.
 *
 * table, table_len  The table: what amsulfezd_step_heard left, or zeros. It is read only. Any content and any length are allowed:
 *                   an address whose AMSULFEZD_HEARD_LENGTH bytes are not all in it, or whose times are 0, was never heard, and
 *                   a last byte above 4 is taken as 4.
 * address           The address that is asked for, 0..125.
 * entry, entry_len  Where AMSULFEZD_HEARD_LENGTH bytes go, all zero for an address that was never heard. Read them with
 *                   amsulfezd_heard_of.
 *
 * Returns the refusal number, 0 if nothing was refused. Refused, in this order, with nothing written: 26 if the address is above
 * 125; 18 if entry_len is below 17.
 *
 * Which bytes change: the first 17 of `entry`, where nothing was refused. All others keep their value.
 *
 * What the caller must ensure, ownership and threads: as for amsulfezd_replay_trace. It always returns.
 */
uint64_t amsulfezd_table_heard(const uint8_t *table, size_t table_len, uint8_t address, uint8_t *entry, size_t entry_len);

/*
 * Writes the counts of a station's life, which amsulfezd_trace_counts explains: those that it writes of the trace of the same
 * header and entries.
 *
 * station, station_len  The station: what amsulfezd_open_station, amsulfezd_step_station or amsulfezd_step_heard wrote. It is
 *                       read only. Any content is allowed; bytes that are no station are refused with 36. Bytes behind the
 *                       station are not looked at.
 * counts, counts_len    Where AMSULFEZD_COUNTS_LENGTH bytes go: claims, removals and meetings, 4 bytes each. Read them with
 *                       amsulfezd_counts_of.
 *
 * Returns the refusal number, 0 if nothing was refused. Refused, in this order, with nothing written: 36 where the bytes are no
 * station or too few for one; 18 if counts_len is below 12.
 *
 * Which bytes change: the first 12 of `counts`, where nothing was refused. All others keep their value.
 *
 * What the caller must ensure, ownership and threads: as for amsulfezd_replay_trace. It always returns.
 */
uint64_t amsulfezd_station_counts(const uint8_t *station, size_t station_len, uint8_t *counts, size_t counts_len);
#endif

/* How many bytes the entry has, of what amsulfezd_step_station or amsulfezd_step_heard returned; 0 if it was refused. */
static inline size_t amsulfezd_stepped(uint64_t returned)
{
    return (size_t)(returned / 256);
}

/* ---- Readers of an answer ---------------------------------------------------------------------------------------- */

/* The answer in these 8 bytes, as a word whose fields the functions below read. Of entry i: answers + 8 * i. */
static inline uint64_t amsulfezd_answer(const uint8_t *bytes)
{
    uint64_t answer = 0;
    int i;
    for (i = 0; i < AMSULFEZD_ANSWER_LENGTH; i++) {
        answer = answer << 8 | bytes[i];
    }
    return answer;
}

/* For the readers below: the field of `width` bits above the lowest `place` bits. */
static inline unsigned amsulfezd_field(uint64_t answer, unsigned place, unsigned width)
{
    return (unsigned)(answer >> place & ((UINT64_C(1) << width) - 1));
}

/* Why the entry was refused: AMSULFEZD_OK, or 12 to 15 of enum amsulfezd_refusal. The topmost 5 bits. */
static inline unsigned amsulfezd_answer_refusal(uint64_t answer)
{
    return (unsigned)(answer >> 59);
}

/* How the poll ended: enum amsulfezd_outcome. */
static inline unsigned amsulfezd_answer_outcome(uint64_t answer)
{
    return amsulfezd_field(answer, 56, 3);
}

/* The state after the entry: enum amsulfezd_state. */
static inline unsigned amsulfezd_answer_state(uint64_t answer)
{
    return amsulfezd_field(answer, 52, 4);
}

/* What was sent: enum amsulfezd_sent. */
static inline unsigned amsulfezd_answer_sent(uint64_t answer)
{
    return amsulfezd_field(answer, 49, 3);
}

/* To whom it was sent. An application's telegram: whose reply is awaited, 0 also where none is. */
static inline unsigned amsulfezd_answer_destination(uint64_t answer)
{
    return amsulfezd_field(answer, 42, 7);
}

/* What a status response says: enum amsulfezd_station_type. */
static inline unsigned amsulfezd_answer_response_type(uint64_t answer)
{
    return amsulfezd_field(answer, 40, 2);
}

/* Which application's telegram was sent, from 0. */
static inline unsigned amsulfezd_answer_application(uint64_t answer)
{
    return amsulfezd_field(answer, 37, 3);
}

/* 1 if that telegram was of high priority. */
static inline unsigned amsulfezd_answer_high(uint64_t answer)
{
    return amsulfezd_field(answer, 36, 1);
}

/* How many bytes were sent. */
static inline unsigned amsulfezd_answer_bytes(uint64_t answer)
{
    return amsulfezd_field(answer, 28, 8);
}

/* How many of the poll's telegrams were consumed. */
static inline unsigned amsulfezd_answer_consumed(uint64_t answer)
{
    return amsulfezd_field(answer, 24, 4);
}

/* What an application was told: enum amsulfezd_notice. */
static inline unsigned amsulfezd_answer_notice(uint64_t answer)
{
    return amsulfezd_field(answer, 22, 2);
}

/* Which application was told, from 0. */
static inline unsigned amsulfezd_answer_notice_application(uint64_t answer)
{
    return amsulfezd_field(answer, 19, 3);
}

/* Whose reply it was told of. */
static inline unsigned amsulfezd_answer_notice_address(uint64_t answer)
{
    return amsulfezd_field(answer, 12, 7);
}

/* Which application is asked next, from 0. */
static inline unsigned amsulfezd_answer_next_application(uint64_t answer)
{
    return amsulfezd_field(answer, 9, 3);
}

/*
 * The next station in the ring, 0..125, or AMSULFEZD_NOBODY if the station is alone: answers to polls, commands and
 * refused entries alike. A lone station passes the token to itself, and amsulfezd_answer_destination is then its own
 * address.
 */
static inline unsigned amsulfezd_answer_next_station(uint64_t answer)
{
    return amsulfezd_field(answer, 2, 7);
}

/* The name of a state. */
static inline const char *amsulfezd_state_name(unsigned state)
{
    switch (state) {
    case AMSULFEZD_STATE_OFFLINE:
        return "Offline";
    case AMSULFEZD_STATE_LISTEN_TOKEN:
        return "ListenToken";
    case AMSULFEZD_STATE_ACTIVE_IDLE:
        return "ActiveIdle";
    case AMSULFEZD_STATE_USE_TOKEN:
        return "UseToken";
    case AMSULFEZD_STATE_CLAIM_TOKEN:
        return "ClaimToken";
    case AMSULFEZD_STATE_AWAIT_DATA_RESPONSE:
        return "AwaitDataResponse";
    case AMSULFEZD_STATE_PASS_TOKEN:
        return "PassToken";
    case AMSULFEZD_STATE_CHECK_TOKEN_PASS:
        return "CheckTokenPass";
    case AMSULFEZD_STATE_AWAIT_STATUS_RESPONSE:
        return "AwaitStatusResponse";
    case AMSULFEZD_STATE_PASSIVE_IDLE:
        return "PassiveIdle";
    default:
        return "unknown";
    }
}

/* What a refusal number says, in the documents' words; "unknown" if none has it. */
static inline const char *amsulfezd_refusal_words(unsigned number)
{
    switch (number) {
    case AMSULFEZD_OK:
        return "nothing was refused";
    case AMSULFEZD_REFUSAL_ADDRESS:
        return "address above 125";
    case AMSULFEZD_REFUSAL_SLOT:
        return "slot too small";
    case AMSULFEZD_REFUSAL_HSA:
        return "HSA";
    case AMSULFEZD_REFUSAL_ROTATION:
        return "rotation";
    case AMSULFEZD_REFUSAL_GAP_WAIT:
        return "gap wait";
    case AMSULFEZD_REFUSAL_RETRY:
        return "retry";
    case AMSULFEZD_REFUSAL_MIN_TSDR:
        return "min Tsdr";
    case AMSULFEZD_REFUSAL_WATCHDOG:
        return "watchdog outside 10..650,000 ms, or one factor zero in a header";
    case AMSULFEZD_REFUSAL_FACTORS:
        return "factors: u above 65,025";
    case AMSULFEZD_REFUSAL_BAUD:
        return "baud code above 10";
    case AMSULFEZD_REFUSAL_APPLICATIONS:
        return "applications not 1..8";
    case AMSULFEZD_REFUSAL_RECORD_LENGTH:
        return "poll record length";
    case AMSULFEZD_REFUSAL_TELEGRAM_COUNT:
        return "telegram count above 8";
    case AMSULFEZD_REFUSAL_ZERO_BIT:
        return "a bit that should be zero";
    case AMSULFEZD_REFUSAL_NO_BYTES:
        return "sending 0 bytes";
    case AMSULFEZD_REFUSAL_PASSIVE:
        return "passive";
    case AMSULFEZD_REFUSAL_CUT:
        return "trace ends inside header or entry, or is above 2^32 bytes (checked with the header)";
    case AMSULFEZD_REFUSAL_NO_ROOM:
        return "no 8 bytes left for an answer";
    case AMSULFEZD_REFUSAL_FRAME_CUT:
        return "frame empty or cut short";
    case AMSULFEZD_REFUSAL_START_BYTE:
        return "start byte";
    case AMSULFEZD_REFUSAL_FRAME_HEADER:
        return "SD2 header: its repeated bytes differ or the length is outside 4 to 249";
    case AMSULFEZD_REFUSAL_CHECK_BYTE:
        return "check byte";
    case AMSULFEZD_REFUSAL_END_BYTE:
        return "end byte";
    case AMSULFEZD_REFUSAL_ADDRESS_EXTENSION:
        return "address extension bit";
    case AMSULFEZD_REFUSAL_GAP_ROOM:
        return "rotation with no room for a gap poll";
    case AMSULFEZD_REFUSAL_ASKED_ADDRESS:
        return "who was heard: an address above 125";
    case AMSULFEZD_REFUSAL_EQUAL_ADDRESSES:
        return "two stations with equal addresses";
    case AMSULFEZD_REFUSAL_TICK:
        return "tick";
    case AMSULFEZD_REFUSAL_STATIONS:
        return "number of stations, or no station with that place";
    case AMSULFEZD_REFUSAL_BAUD_CODES:
        return "baud codes differ";
    case AMSULFEZD_REFUSAL_CAPTURE_LINE:
        return "a line that is not a time, one space, a frame in pairs of hex digits and a line feed, or has bytes after its frame";
    case AMSULFEZD_REFUSAL_CAPTURE_TIME:
        return "a time below the one before";
    case AMSULFEZD_REFUSAL_CAPTURE_COUNT:
        return "more than 8 of one time";
    case AMSULFEZD_REFUSAL_FUNCTION_CODE:
        return "top bit of the function code set; to be written, any other request";
    case AMSULFEZD_REFUSAL_TICKS:
        return "more than 1,000,000 ticks";
    case AMSULFEZD_REFUSAL_STATION:
        return "no station";
    default:
        return "unknown";
    }
}

/* ---- Writers of a trace ------------------------------------------------------------------------------------------ */

/*
 * Each writes a header or an entry to the start of `to`, which has `room` bytes, and returns how many bytes it wrote.
 * It writes nothing and returns 0 where there is not room enough, or where a value does not fit its field. Whether
 * what is written is accepted is the call's matter, and its answer tells.
 */

/* The settings at the head of a trace. */
struct amsulfezd_header {
    uint8_t address;        /* 0..125 */
    uint8_t baud;           /* code 0..10, for 9600 to 12,000,000 bits a second */
    uint16_t slot_bits;     /* at least 100 for codes 0 to 5, then 200, 300, 400, 600, 1000 */
    uint32_t rotation_bits; /* 256..16,777,960, and at least slot_bits + 100 */
    uint8_t gap_wait;       /* 1..100 rotations */
    uint8_t hsa;            /* highest station address: above the address, at most 126 */
    uint8_t retry;          /* 1..15 */
    uint8_t min_tsdr;       /* at least 11 bits */
    uint8_t applications;   /* 1..8 */
    uint8_t factor_1;       /* the watchdog's factors: both zero for none, or neither */
    uint8_t factor_2;
};

/* What an application would do if it were asked in a poll: see amsulfezd_declines, _tells and _asks. */
struct amsulfezd_decision {
    uint8_t sends;         /* 0 or 1; if 0, all else is 0 */
    uint8_t expects_reply; /* 0 or 1; if 0, the address is 0 */
    uint8_t reply_address; /* 7 bits */
    uint8_t length;        /* of its telegram, in bytes */
};

/* What one application would do, by priority. */
struct amsulfezd_decisions {
    struct amsulfezd_decision normal;
    struct amsulfezd_decision high;
};

/* A telegram that was received: see amsulfezd_token and those after it. Fields that its kind does not have are 0. */
struct amsulfezd_telegram {
    uint8_t kind;           /* enum amsulfezd_telegram_kind */
    uint8_t destination;    /* 7 bits */
    uint8_t source;         /* 7 bits */
    uint8_t status_request; /* 0 or 1 */
    uint8_t station_type;   /* enum amsulfezd_station_type */
    uint8_t status;         /* 4 bits, 0 = Ok */
};

/* A poll: what the port reports and what the applications would do. */
struct amsulfezd_poll {
    uint64_t clock;       /* microseconds, 48 bits */
    uint8_t transmitting; /* 1 if the port is still transmitting, else 0 */
    uint16_t pending;     /* bytes in the receive buffer, 11 bits */
    size_t applications;  /* as many as in the trace's header */
    const struct amsulfezd_decisions *decisions; /* one for each application; NULL if all decline */
    size_t telegram_count;                       /* 4 bits; above 8 is refused with 13 */
    const struct amsulfezd_telegram *telegrams;  /* the oldest first; may be NULL if there are none */
};

/* For the writers below: whether the value has at most `width` bits. */
static inline int amsulfezd_fits(uint64_t value, unsigned width)
{
    return value >> width == 0;
}

/* For the writers below: the lowest `count` bytes of the word, most significant first. */
static inline uint8_t *amsulfezd_store(uint8_t *to, unsigned count, uint64_t word)
{
    while (count != 0) {
        count--;
        *to++ = (uint8_t)(word >> 8 * count & 255);
    }
    return to;
}

/*
 * The settings of document 01's example 12 with this address, baud code and number of applications: slot 200, rotation
 * 32,436, gap wait 10, HSA 126, retry 1, min Tsdr 11, no watchdog.
 */
static inline struct amsulfezd_header amsulfezd_new_header(uint8_t address, uint8_t baud, uint8_t applications)
{
    struct amsulfezd_header header;
    header.address = address;
    header.baud = baud;
    header.slot_bits = 200;
    header.rotation_bits = 32436;
    header.gap_wait = 10;
    header.hsa = 126;
    header.retry = 1;
    header.min_tsdr = 11;
    header.applications = applications;
    header.factor_1 = 0;
    header.factor_2 = 0;
    return header;
}

/* Writes a header of edition 1: AMSULFEZD_HEADER_LENGTH bytes. */
static inline size_t amsulfezd_write_header(uint8_t *to, size_t room, const struct amsulfezd_header *header)
{
    if (room < AMSULFEZD_HEADER_LENGTH) {
        return 0;
    }
    to = amsulfezd_store(to, 1, header->address);
    to = amsulfezd_store(to, 1, header->baud);
    to = amsulfezd_store(to, 2, header->slot_bits);
    to = amsulfezd_store(to, 4, header->rotation_bits);
    to = amsulfezd_store(to, 1, header->gap_wait);
    to = amsulfezd_store(to, 1, header->hsa);
    to = amsulfezd_store(to, 1, header->retry);
    to = amsulfezd_store(to, 1, header->min_tsdr);
    to = amsulfezd_store(to, 1, header->applications);
    to = amsulfezd_store(to, 1, header->factor_1);
    to = amsulfezd_store(to, 1, header->factor_2);
    amsulfezd_store(to, 1, 0);
    return AMSULFEZD_HEADER_LENGTH;
}

/*
 * For amsulfezd_write_header_2: puts the lowest `width` bits of the value behind the first `at` bits, and returns how many
 * bits there are then. Eight bits put into a byte push out what stood there.
 */
static inline unsigned amsulfezd_put(uint8_t *to, unsigned at, unsigned width, uint64_t value)
{
    while (width != 0) {
        width--;
        to[at / 8] = (uint8_t)(2 * to[at / 8] + (value >> width & 1));
        at++;
    }
    return at;
}

/*
 * Writes a header of edition 2: AMSULFEZD_HEADER_LENGTH_2 bytes. Every header that the call accepts fits; one with more
 * than 127, 15, 2^25 - 1, 127, 127, 15 as address, baud code, rotation, gap wait, HSA, retry, or without 1 to 8
 * applications, does not.
 */
static inline size_t amsulfezd_write_header_2(uint8_t *to, size_t room, const struct amsulfezd_header *header)
{
    unsigned at = 0;
    if (room < AMSULFEZD_HEADER_LENGTH_2 || !amsulfezd_fits(header->address, 7) || !amsulfezd_fits(header->baud, 4) ||
        !amsulfezd_fits(header->rotation_bits, 25) || !amsulfezd_fits(header->gap_wait, 7) ||
        !amsulfezd_fits(header->hsa, 7) || !amsulfezd_fits(header->retry, 4) || header->applications == 0 ||
        !amsulfezd_fits(header->applications - 1u, 3)) {
        return 0;
    }
    at = amsulfezd_put(to, at, 8, AMSULFEZD_EDITION_2);
    at = amsulfezd_put(to, at, 7, header->address);
    at = amsulfezd_put(to, at, 4, header->baud);
    at = amsulfezd_put(to, at, 16, header->slot_bits);
    at = amsulfezd_put(to, at, 25, header->rotation_bits);
    at = amsulfezd_put(to, at, 7, header->gap_wait);
    at = amsulfezd_put(to, at, 7, header->hsa);
    at = amsulfezd_put(to, at, 4, header->retry);
    at = amsulfezd_put(to, at, 8, header->min_tsdr);
    at = amsulfezd_put(to, at, 3, header->applications - 1u);
    at = amsulfezd_put(to, at, 8, header->factor_1);
    at = amsulfezd_put(to, at, 8, header->factor_2);
    amsulfezd_put(to, at, 7, 0);
    return AMSULFEZD_HEADER_LENGTH_2;
}

/* Writes a command, enum amsulfezd_command: 1 byte. */
static inline size_t amsulfezd_write_command(uint8_t *to, size_t room, unsigned command)
{
    if (room < 1 || command > AMSULFEZD_COMMAND_PASSIVE) {
        return 0;
    }
    amsulfezd_store(to, 1, command);
    return 1;
}

/* An application that has nothing to send. */
static inline struct amsulfezd_decision amsulfezd_declines(void)
{
    struct amsulfezd_decision decision;
    decision.sends = 0;
    decision.expects_reply = 0;
    decision.reply_address = 0;
    decision.length = 0;
    return decision;
}

/* An application that would send a telegram of so many bytes and waits for no reply. */
static inline struct amsulfezd_decision amsulfezd_tells(uint8_t length)
{
    struct amsulfezd_decision decision = amsulfezd_declines();
    decision.sends = 1;
    decision.length = length;
    return decision;
}

/* An application that would send a telegram of so many bytes and wait for the reply of this address. */
static inline struct amsulfezd_decision amsulfezd_asks(uint8_t reply_address, uint8_t length)
{
    struct amsulfezd_decision decision = amsulfezd_tells(length);
    decision.expects_reply = 1;
    decision.reply_address = reply_address;
    return decision;
}

/* A telegram that says no more than its kind. */
static inline struct amsulfezd_telegram amsulfezd_short_confirmation(void)
{
    struct amsulfezd_telegram telegram;
    telegram.kind = AMSULFEZD_TELEGRAM_SHORT_CONFIRMATION;
    telegram.destination = 0;
    telegram.source = 0;
    telegram.status_request = 0;
    telegram.station_type = 0;
    telegram.status = 0;
    return telegram;
}

/* A token passed from source to destination. */
static inline struct amsulfezd_telegram amsulfezd_token(uint8_t source, uint8_t destination)
{
    struct amsulfezd_telegram telegram = amsulfezd_short_confirmation();
    telegram.kind = AMSULFEZD_TELEGRAM_TOKEN;
    telegram.destination = destination;
    telegram.source = source;
    return telegram;
}

/* Any request but a status request. */
static inline struct amsulfezd_telegram amsulfezd_request(uint8_t source, uint8_t destination)
{
    struct amsulfezd_telegram telegram = amsulfezd_token(source, destination);
    telegram.kind = AMSULFEZD_TELEGRAM_REQUEST;
    return telegram;
}

/* The question whether a station is there, and which. */
static inline struct amsulfezd_telegram amsulfezd_status_request(uint8_t source, uint8_t destination)
{
    struct amsulfezd_telegram telegram = amsulfezd_request(source, destination);
    telegram.status_request = 1;
    return telegram;
}

/* A response: enum amsulfezd_station_type, and a status (0 = Ok). */
static inline struct amsulfezd_telegram amsulfezd_response(uint8_t source, uint8_t destination, uint8_t station_type,
                                                           uint8_t status)
{
    struct amsulfezd_telegram telegram = amsulfezd_token(source, destination);
    telegram.kind = AMSULFEZD_TELEGRAM_RESPONSE;
    telegram.station_type = station_type;
    telegram.status = status;
    return telegram;
}

/* A poll at which nothing was received and every application declines. */
static inline struct amsulfezd_poll amsulfezd_poll_at(uint64_t clock, size_t applications)
{
    struct amsulfezd_poll poll;
    poll.clock = clock;
    poll.transmitting = 0;
    poll.pending = 0;
    poll.applications = applications;
    poll.decisions = NULL;
    poll.telegram_count = 0;
    poll.telegrams = NULL;
    return poll;
}

/* For amsulfezd_write_poll: whether each field of a decision fits. */
static inline int amsulfezd_decision_fits(const struct amsulfezd_decision *decision)
{
    return amsulfezd_fits(decision->sends, 1) && amsulfezd_fits(decision->expects_reply, 1) &&
           amsulfezd_fits(decision->reply_address, 7);
}

/* For amsulfezd_write_poll: whether each field of a telegram fits. */
static inline int amsulfezd_telegram_fits(const struct amsulfezd_telegram *telegram)
{
    return amsulfezd_fits(telegram->kind, 2) && amsulfezd_fits(telegram->destination, 7) &&
           amsulfezd_fits(telegram->source, 7) && amsulfezd_fits(telegram->status_request, 1) &&
           amsulfezd_fits(telegram->station_type, 2) && amsulfezd_fits(telegram->status, 4);
}

/* For amsulfezd_write_poll: a decision's 24 bits. */
static inline uint64_t amsulfezd_decision_word(const struct amsulfezd_decision *decision)
{
    return (uint64_t)decision->sends << 23 | (uint64_t)decision->expects_reply << 22 |
           (uint64_t)decision->reply_address << 15 | (uint64_t)decision->length << 7;
}

/* A telegram's 32 bits, each field as it is given: for amsulfezd_write_poll, and the word of amsulfezd_write_frame. */
static inline uint64_t amsulfezd_telegram_word(const struct amsulfezd_telegram *telegram)
{
    return (uint64_t)telegram->kind << 30 | (uint64_t)telegram->destination << 23 | (uint64_t)telegram->source << 16 |
           (uint64_t)telegram->status_request << 15 | (uint64_t)telegram->station_type << 13 |
           (uint64_t)telegram->status << 9;
}

/* The telegram with these 32 bits, such as the word of a frame: see amsulfezd_frame_word. */
static inline struct amsulfezd_telegram amsulfezd_telegram_of(uint32_t word)
{
    struct amsulfezd_telegram telegram;
    telegram.kind = (uint8_t)(word >> 30);
    telegram.destination = (uint8_t)amsulfezd_field(word, 23, 7);
    telegram.source = (uint8_t)amsulfezd_field(word, 16, 7);
    telegram.status_request = (uint8_t)amsulfezd_field(word, 15, 1);
    telegram.station_type = (uint8_t)amsulfezd_field(word, 13, 2);
    telegram.status = (uint8_t)amsulfezd_field(word, 9, 4);
    return telegram;
}

/*
 * Writes a poll as an entry: a byte with the record's length, which is 8 + 6 for each application + 4 for each
 * telegram, and the record. At most AMSULFEZD_ENTRY_LENGTH bytes.
 */
static inline size_t amsulfezd_write_poll(uint8_t *to, size_t room, const struct amsulfezd_poll *poll)
{
    const struct amsulfezd_decisions *decisions = poll->decisions;
    const struct amsulfezd_telegram *telegrams = poll->telegrams;
    size_t length, i;
    if (!amsulfezd_fits(poll->clock, 48) || !amsulfezd_fits(poll->transmitting, 1) ||
        !amsulfezd_fits(poll->telegram_count, 4) || !amsulfezd_fits(poll->pending, 11)) {
        return 0;
    }
    if (poll->applications > 255) {
        return 0; /* far too many, and the length below cannot overflow */
    }
    length = 8 + 6 * poll->applications + 4 * poll->telegram_count;
    if (!amsulfezd_fits(length, 8) || room < 1 + length) {
        return 0;
    }
    for (i = 0; decisions != NULL && i < poll->applications; i++) {
        if (!amsulfezd_decision_fits(&decisions[i].normal) || !amsulfezd_decision_fits(&decisions[i].high)) {
            return 0;
        }
    }
    for (i = 0; i < poll->telegram_count; i++) {
        if (!amsulfezd_telegram_fits(&telegrams[i])) {
            return 0;
        }
    }
    to = amsulfezd_store(to, 1, length);
    to = amsulfezd_store(to, 8,
                         poll->clock << 16 | (uint64_t)poll->transmitting << 15 |
                             (uint64_t)poll->telegram_count << 11 | (uint64_t)poll->pending);
    for (i = 0; i < poll->applications; i++) {
        to = amsulfezd_store(to, 3, decisions == NULL ? 0 : amsulfezd_decision_word(&decisions[i].normal));
        to = amsulfezd_store(to, 3, decisions == NULL ? 0 : amsulfezd_decision_word(&decisions[i].high));
    }
    for (i = 0; i < poll->telegram_count; i++) {
        to = amsulfezd_store(to, 4, amsulfezd_telegram_word(&telegrams[i]));
    }
    return 1 + length;
}

#ifdef __cplusplus
}
#endif

#endif
