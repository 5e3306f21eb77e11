/*
 * That the C test of the calls beside a live station can fail: the proved calls with one planted fault, chosen by the number FAULT.
 * hosts.sh builds the test with the calls named faulty_.. for each fault and expects it to be found.
 */
#include "faulty.h"
#include "plain_heard.h"

#include <string.h>

enum { TABLE = AMSULFEZD_HEARD_TABLE_LENGTH, HEARD = AMSULFEZD_HEARD_LENGTH, COUNTS = AMSULFEZD_COUNTS_LENGTH };

uint64_t faulty_station_counts(const uint8_t *station, size_t station_len, uint8_t *counts, size_t counts_len);
uint64_t faulty_table_heard(const uint8_t *table, size_t table_len, uint8_t address, uint8_t *entry, size_t entry_len);
uint64_t faulty_step_heard(uint8_t *station, size_t station_len, const uint8_t *entry, size_t entry_len, uint8_t *answer,
                           size_t answer_len, uint8_t *table, size_t table_len);

/* Two bytes change places. */
static void swap(volatile uint8_t *a, volatile uint8_t *b)
{
    uint8_t byte = *a;
    *a = *b;
    *b = byte;
}

uint64_t faulty_station_counts(const uint8_t *station, size_t station_len, uint8_t *counts, size_t counts_len)
{
    volatile uint8_t *changed = counts;
    uint64_t returned = amsulfezd_station_counts(station, station_len, counts, counts_len);
    int done = returned == AMSULFEZD_OK;
    uint8_t other[AMSULFEZD_STATION_LENGTH], all[COUNTS];
    switch (FAULT) {
    case 1:
    case 2:
    case 3:
    case 4:
    case 5:
        touch_outside(FAULT - 1, station, station_len, counts, counts_len, done ? COUNTS : 0);
        break;
    case 6: /* the counts of bytes that are no station are written, where there is room */
        if (returned == AMSULFEZD_REFUSAL_STATION && counts_len >= COUNTS) {
            memset(counts, 0, COUNTS);
        }
        break;
    case 7: /* no room is said before bytes that are no station */
        return counts_len < COUNTS ? (unsigned)AMSULFEZD_REFUSAL_NO_ROOM : returned;
    case 8: /* a longer slice is no station */
        return station_len > AMSULFEZD_STATION_LENGTH ? (unsigned)AMSULFEZD_REFUSAL_STATION : returned;
    case 9: /* the bytes are not looked at: another edition is taken */
        if (returned == AMSULFEZD_REFUSAL_STATION && station_len >= sizeof other) {
            memcpy(other, station, sizeof other);
            other[0] ^= 0x80;
            return amsulfezd_station_counts(other, sizeof other, counts, counts_len);
        }
        break;
    case 10: /* claims and removals change places */
        for (int i = 0; done && i < 4; i++) {
            swap(changed + i, changed + i + 4);
        }
        break;
    case 11: /* least significant byte first */
        for (int i = 0; done && i < COUNTS; i += 4) {
            swap(changed + i, changed + i + 3);
        }
        break;
    case 12: /* as many bytes as there is room for are written */
        if (returned == AMSULFEZD_REFUSAL_NO_ROOM) {
            returned = amsulfezd_station_counts(station, station_len, all, sizeof all);
            memcpy(counts, all, counts_len);
        }
        break;
    case 13: /* meetings of our own address are not counted */
        if (done) {
            changed[COUNTS - 1] = 0;
        }
        break;
    }
    return returned;
}

uint64_t faulty_table_heard(const uint8_t *table, size_t table_len, uint8_t address, uint8_t *entry, size_t entry_len)
{
    volatile uint8_t *changed = entry;
    uint64_t returned = amsulfezd_table_heard(table, table_len, address, entry, entry_len);
    int done = returned == AMSULFEZD_OK;
    switch (FAULT) {
    case 14:
    case 15:
    case 16:
    case 17:
    case 18:
        touch_outside(FAULT - 14, table, table_len, entry, entry_len, done ? HEARD : 0);
        break;
    case 19: /* 26 after 18 */
        return entry_len < HEARD ? (unsigned)AMSULFEZD_REFUSAL_NO_ROOM : returned;
    case 20: /* an address above 125 is that of edition 1's header */
        return returned == AMSULFEZD_REFUSAL_ASKED_ADDRESS ? (unsigned)AMSULFEZD_REFUSAL_ADDRESS : returned;
    case 21: /* 125 is above the last address */
        return address == AMSULFEZD_LAST_ADDRESS ? (unsigned)AMSULFEZD_REFUSAL_ASKED_ADDRESS : returned;
    case 22: /* an address that was never heard writes nothing */
        if (done && amsulfezd_heard_of(entry).times == 0) {
            changed[0] = 0xa5;
        }
        break;
    case 23: /* a table that is too short for the address is refused */
        return done && table_len < HEARD * ((size_t)address + 1) ? (unsigned)AMSULFEZD_REFUSAL_NO_ROOM : returned;
    case 24: /* an entry that begins inside the table is read */
        if (done && table_len > HEARD * (size_t)address && table_len < HEARD * ((size_t)address + 1)) {
            memcpy(entry, table + HEARD * address, table_len - HEARD * address);
        }
        break;
    case 25: /* a table that is shorter than 126 entries says nothing */
        if (done && table_len < TABLE) {
            memset(entry, 0, HEARD);
        }
        break;
    case 26: /* what is refused writes */
        if (!done && entry_len != 0) {
            changed[0] ^= 1;
        }
        break;
    case 27: /* the type without its 1 */
        if (done && changed[16] != 0) {
            changed[16]--;
        }
        break;
    case 28: /* first and last change places */
        for (int i = 4; done && i < 10; i++) {
            swap(changed + i, changed + i + 6);
        }
        break;
    case 29: /* heard once is never */
        if (done && amsulfezd_heard_of(entry).times == 1) {
            memset(entry, 0, HEARD);
        }
        break;
    }
    return returned;
}

/* A telegram that was consumed is heard otherwise; `before` is the table before its poll. */
static void hear_otherwise(const uint8_t *before, uint8_t *table, uint64_t clock, struct amsulfezd_telegram telegram)
{
    int no_source = telegram.kind == AMSULFEZD_TELEGRAM_SHORT_CONFIRMATION, skipped = telegram.source > AMSULFEZD_LAST_ADDRESS;
    int response = telegram.kind == AMSULFEZD_TELEGRAM_RESPONSE;
    size_t at = HEARD * (no_source || skipped ? 0u : telegram.source);
    uint8_t unheard[HEARD], *heard = no_source || skipped ? unheard : table + at;
    const uint8_t *old = before + at;
    memcpy(unheard, old, HEARD);
    switch (FAULT) {
    case 36: /* the first clock is overwritten */
        amsulfezd_store(heard + 4, 6, clock);
        break;
    case 37: /* a count at its largest begins anew */
        amsulfezd_store(heard, 4, amsulfezd_load(heard, 4) == UINT32_MAX ? 0 : amsulfezd_load(heard, 4));
        break;
    case 38: /* a token takes the type away */
        heard[16] = response ? heard[16] : 0;
        break;
    case 39: /* the first response decides */
        heard[16] = old[16] != 0 ? old[16] : heard[16];
        break;
    case 40: /* several in one poll count once */
        amsulfezd_store(heard, 4, amsulfezd_load(old, 4) == UINT32_MAX ? UINT32_MAX : amsulfezd_load(old, 4) + 1);
        break;
    case 41: /* the last clock does not go back */
        if (clock < amsulfezd_load(old + 10, 6)) {
            memcpy(heard + 10, old + 10, 6);
        }
        break;
    case 42: /* a type counts only where the status is Ok */
        heard[16] = response && telegram.status != 0 ? old[16] : heard[16];
        break;
    case 43: /* a short confirmation is heard, as address 0 */
        if (no_source) {
            plain_hear_telegram(table, clock, amsulfezd_token(0, 0));
        }
        break;
    case 44: /* 126 and 127 are heard, as the first addresses */
        if (skipped) {
            plain_hear_telegram(table, clock, amsulfezd_token((uint8_t)(telegram.source - 126), 0));
        }
        break;
    case 45: /* the destination is heard too */
        plain_hear_telegram(table, clock, amsulfezd_token(telegram.destination, 0));
        break;
    }
}

/* The table is fed otherwise with a whole entry that was answered so; `before` is the table before it. */
static void feed_otherwise(const uint8_t *before, uint8_t *table, const uint8_t *entry, uint64_t answer)
{
    unsigned consumed = amsulfezd_answer_consumed(answer), i;
    switch (FAULT) {
    case 30: /* all telegrams of the record, and not only those that were consumed */
        memcpy(table, before, TABLE);
        plain_hear(table, entry, amsulfezd_answer_refusal(answer) == AMSULFEZD_OK ? listed_in(entry) : 0);
        break;
    case 31: /* the last one that was consumed is left out */
        memcpy(table, before, TABLE);
        plain_hear(table, entry, consumed == 0 ? 0 : consumed - 1);
        break;
    case 32: /* a refused entry is heard */
        if (amsulfezd_answer_refusal(answer) != AMSULFEZD_OK) {
            table[3]++;
        }
        break;
    case 33: /* a command is heard */
        if (entry[0] <= AMSULFEZD_COMMAND_PASSIVE) {
            table[3]++;
        }
        break;
    case 34: /* going offline forgets */
        if (entry[0] == AMSULFEZD_COMMAND_OFFLINE) {
            memset(table, 0, TABLE);
        }
        break;
    case 35: /* a second collision forgets */
        if (consumed != 0 && amsulfezd_answer_state(answer) == AMSULFEZD_STATE_OFFLINE) {
            memset(table, 0, TABLE);
        }
        break;
    }
    for (i = 0; i < consumed; i++) {
        hear_otherwise(before, table, amsulfezd_load(entry + 1, 6), listed_telegram(entry, i));
    }
}

uint64_t faulty_step_heard(uint8_t *station, size_t station_len, const uint8_t *entry, size_t entry_len, uint8_t *answer,
                           size_t answer_len, uint8_t *table, size_t table_len)
{
    static uint8_t before[TABLE];
    volatile uint8_t *changed = table;
    memcpy(before, table, table_len < TABLE ? table_len : TABLE);
    uint64_t returned =
        amsulfezd_step_heard(station, station_len, entry, entry_len, answer, answer_len, table, table_len);
    unsigned number = amsulfezd_number(returned);
    if (number == AMSULFEZD_OK) {
        feed_otherwise(before, table, entry, amsulfezd_answer(answer));
    }
    switch (FAULT) {
    case 46: /* a byte behind the table, inside its slice */
        touch_outside(PAST_WRITTEN, entry, entry_len, table, table_len, TABLE);
        break;
    case 47: /* the byte after the table's slice */
        touch_outside(AFTER_BUFFER, entry, entry_len, table, table_len, 0);
        break;
    case 48: /* the byte before the table */
        touch_outside(BEFORE_BUFFER, entry, entry_len, table, table_len, 0);
        break;
    case 49: /* the byte after the entry is read */
        touch_outside(AFTER_LENT, entry, entry_len, table, table_len, 0);
        break;
    case 50: /* the entry is written to */
        touch_outside(LENT_WRITTEN, entry, entry_len, table, table_len, 0);
        break;
    case 51: /* a byte behind the station, inside its slice */
        touch_outside(PAST_WRITTEN, entry, entry_len, station, station_len, AMSULFEZD_STATION_LENGTH);
        break;
    case 52: /* a byte behind the answer, inside its slice */
        touch_outside(PAST_WRITTEN, entry, entry_len, answer, answer_len, AMSULFEZD_ANSWER_LENGTH);
        break;
    case 53: /* a short table is taken, and nothing is kept of who was heard */
        if (number == AMSULFEZD_REFUSAL_NO_ROOM && table_len < TABLE) {
            returned = amsulfezd_step_station(station, station_len, entry, entry_len, answer, answer_len);
        }
        break;
    case 54: /* a table without its last address is taken */
        if (number == AMSULFEZD_REFUSAL_NO_ROOM && table_len >= TABLE - HEARD) {
            returned = amsulfezd_step_heard(station, station_len, entry, entry_len, answer, answer_len, before, TABLE);
            memcpy(table, before, table_len < TABLE ? table_len : TABLE);
        }
        break;
    case 55: /* a longer table is refused */
        return table_len > TABLE ? (unsigned)AMSULFEZD_REFUSAL_NO_ROOM : returned;
    case 56: /* a short table is said before bytes that are no station */
        return table_len < TABLE ? (unsigned)AMSULFEZD_REFUSAL_NO_ROOM : returned;
    case 57: /* a short table is said before a cut entry */
        return number == AMSULFEZD_REFUSAL_CUT && table_len < TABLE ? (unsigned)AMSULFEZD_REFUSAL_NO_ROOM : returned;
    case 58: /* a short answer is said before a cut entry */
        return number == AMSULFEZD_REFUSAL_CUT && answer_len < 8 ? (unsigned)AMSULFEZD_REFUSAL_NO_ROOM : returned;
    case 59: /* a short table is cut */
        return number == AMSULFEZD_REFUSAL_NO_ROOM && table_len < TABLE ? (unsigned)AMSULFEZD_REFUSAL_CUT : returned;
    case 60: /* a refused step writes the table */
        if (number != AMSULFEZD_OK && table_len != 0) {
            changed[0] ^= 1;
        }
        break;
    case 61: /* a step that is refused for its table alone has been done */
        if (number == AMSULFEZD_REFUSAL_NO_ROOM && table_len < TABLE) {
            amsulfezd_step_station(station, station_len, entry, entry_len, answer, answer_len);
        }
        break;
    case 62: /* the station is another one where somebody was heard */
        if (number == AMSULFEZD_OK && memcmp(before, table, TABLE) != 0) {
            station[AMSULFEZD_STATION_LENGTH - 1] ^= 1;
        }
        break;
    case 63: /* the answer says that nothing was consumed */
        if (number == AMSULFEZD_OK) {
            answer[4] &= 0xf0;
        }
        break;
    case 64: /* an entry's length without its first byte */
        return number == AMSULFEZD_OK ? returned - 256 : returned;
    case 65: /* the table begins anew with each step */
        if (number == AMSULFEZD_OK) {
            memset(table, 0, TABLE);
            plain_hear(table, entry, amsulfezd_answer_consumed(amsulfezd_answer(answer)));
        }
        break;
    }
    return returned;
}
