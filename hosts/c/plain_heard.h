/*
 * Who was heard in a poll and what a table says, in plain C: document 02, P7, written for the tests. They hold the proved calls to
 * it entry by entry, and the planted faults are made of it. No host uses it.
 */
#ifndef PLAIN_HEARD_H
#define PLAIN_HEARD_H

#include "amsulfezd.h"

/* How many telegrams an entry lists; a command lists none. */
static inline unsigned listed_in(const uint8_t *entry)
{
    return entry[0] <= AMSULFEZD_COMMAND_PASSIVE ? 0 : (unsigned)amsulfezd_load(entry + 7, 2) >> 11 & 15;
}

/* The bytes of a telegram that an entry lists; they are its record's last ones. */
static inline struct amsulfezd_telegram listed_telegram(const uint8_t *entry, unsigned index)
{
    const uint8_t *telegrams = entry + 1 + entry[0] - 4 * listed_in(entry);
    return amsulfezd_telegram_of((uint32_t)amsulfezd_load(telegrams + 4 * index, 4));
}

/* The last type that an entry can have, with its 1. In a table of other content a byte above it is taken as this one. */
enum { LAST_TYPE = 1 + AMSULFEZD_TYPE_IN_RING };

/* One telegram of this clock: short confirmations and the sources 126 and 127 are skipped. */
static inline void plain_hear_telegram(uint8_t *table, uint64_t clock, struct amsulfezd_telegram telegram)
{
    uint8_t *heard = table + AMSULFEZD_HEARD_LENGTH * telegram.source;
    uint64_t times;
    if (telegram.kind == AMSULFEZD_TELEGRAM_SHORT_CONFIRMATION || telegram.source > AMSULFEZD_LAST_ADDRESS) {
        return;
    }
    times = amsulfezd_load(heard, 4);
    if (times == 0) {
        amsulfezd_store(heard + 4, 6, clock);
    }
    if (times != UINT32_MAX) {
        amsulfezd_store(heard, 4, times + 1);
    }
    amsulfezd_store(heard + 10, 6, clock);
    if (telegram.kind == AMSULFEZD_TELEGRAM_RESPONSE) {
        heard[16] = (uint8_t)(1 + telegram.station_type);
    } else if (heard[16] > LAST_TYPE) {
        heard[16] = LAST_TYPE;
    }
}

/* What the first bytes of a table say of one of the 126 addresses, its entry: never heard where it is not all there. */
static inline void plain_said(const uint8_t *table, size_t table_len, size_t address, uint8_t *entry)
{
    const uint8_t *heard = table + AMSULFEZD_HEARD_LENGTH * address;
    size_t i;
    int never = table_len < AMSULFEZD_HEARD_LENGTH * (address + 1) || amsulfezd_load(heard, 4) == 0;
    for (i = 0; i < AMSULFEZD_HEARD_LENGTH; i++) {
        entry[i] = never ? 0 : heard[i];
    }
    if (entry[16] > LAST_TYPE) {
        entry[16] = LAST_TYPE;
    }
}

/* The first telegrams of a whole entry, as many as its poll has consumed. */
static inline void plain_hear(uint8_t *table, const uint8_t *entry, unsigned consumed)
{
    unsigned i;
    for (i = 0; i < consumed; i++) {
        plain_hear_telegram(table, amsulfezd_load(entry + 1, 6), listed_telegram(entry, i));
    }
}

#endif
