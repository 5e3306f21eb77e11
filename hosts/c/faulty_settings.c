/*
 * That the C test of the settings can fail: the proved calls with one planted fault, chosen by the number FAULT. hosts.sh builds
 * the test with the calls named faulty_.. for each fault and expects it to be found.
 */
#include "amsulfezd.h"

uint64_t faulty_new_settings(uint8_t address, uint8_t baud, uint8_t applications, uint8_t *header, size_t header_len);
uint64_t faulty_set_slot_bits(uint8_t *header, size_t header_len, uint16_t slot_bits);
uint64_t faulty_set_max_retry_limit(uint8_t *header, size_t header_len, uint8_t max_retry_limit);
uint64_t faulty_finish_settings(const uint8_t *header, size_t header_len);

uint64_t faulty_new_settings(uint8_t address, uint8_t baud, uint8_t applications, uint8_t *header, size_t header_len)
{
    volatile uint8_t *changed = header;
    uint64_t returned = amsulfezd_new_settings(address, baud, applications, header, header_len);
    switch (FAULT) {
    case 1: /* one application, whatever is asked for */
        if (returned == AMSULFEZD_OK) {
            changed[12] = 1;
        }
        break;
    case 2: /* no room is said before all else */
        return header_len < AMSULFEZD_HEADER_LENGTH ? (unsigned)AMSULFEZD_REFUSAL_NO_ROOM : returned;
    case 3: /* what is refused writes */
        if (returned != AMSULFEZD_OK && header_len != 0) {
            changed[0] = 0;
        }
        break;
    }
    return returned;
}

uint64_t faulty_set_slot_bits(uint8_t *header, size_t header_len, uint16_t slot_bits)
{
    volatile uint8_t *changed = header;
    uint64_t returned = amsulfezd_set_slot_bits(header, header_len, slot_bits);
    switch (FAULT) {
    case 4: /* a byte behind the header, inside the slice */
        if (returned == AMSULFEZD_OK && header_len > AMSULFEZD_HEADER_LENGTH) {
            changed[AMSULFEZD_HEADER_LENGTH] ^= 1;
        }
        break;
    case 5: /* the byte after the slice */
        changed[header_len] ^= 1;
        break;
    case 6: /* the byte before the slice */
        changed[-1] ^= 1;
        break;
    case 7: /* a refused call writes */
        if (returned != AMSULFEZD_OK && header_len >= AMSULFEZD_HEADER_LENGTH) {
            changed[3] ^= 1;
        }
        break;
    case 8: /* 25 is asked */
        if (returned == AMSULFEZD_OK && amsulfezd_finish_settings(header, header_len) == AMSULFEZD_REFUSAL_GAP_ROOM) {
            return AMSULFEZD_REFUSAL_GAP_ROOM;
        }
        break;
    }
    return returned;
}

uint64_t faulty_set_max_retry_limit(uint8_t *header, size_t header_len, uint8_t max_retry_limit)
{
    volatile uint8_t *changed = header;
    uint64_t returned = amsulfezd_set_max_retry_limit(header, header_len, max_retry_limit);
    switch (FAULT) {
    case 9: /* a pair of factors that no time gives is lost */
        if (returned == AMSULFEZD_OK) {
            changed[13] = 0;
            changed[14] = 0;
        }
        break;
    case 10: /* the header's own refusal is not asked */
        if (returned != AMSULFEZD_OK && returned != AMSULFEZD_REFUSAL_CUT && max_retry_limit == 2) {
            return AMSULFEZD_OK;
        }
        break;
    }
    return returned;
}

uint64_t faulty_finish_settings(const uint8_t *header, size_t header_len)
{
    uint64_t returned = amsulfezd_finish_settings(header, header_len);
    switch (FAULT) {
    case 11: /* 25 is not asked */
        return returned == AMSULFEZD_REFUSAL_GAP_ROOM ? (unsigned)AMSULFEZD_OK : returned;
    case 12: /* the byte after the slice is read */
        return returned + 0 * *(volatile const uint8_t *)(header + header_len);
    }
    return returned;
}
