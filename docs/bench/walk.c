/* The walk of plain.rs with the same fold, by calls from C: one for each unit, by either reader, and one for each 32. */
#include "../../include/cdf.h"

#define WALK(first, next) \
    uint64_t place[CDF_PLACE_NUMBERS], answer[CDF_ANSWER_NUMBERS], fold = 0; \
    uint64_t number = first(stream, length, place, answer); \
    for (; number == CDF_OK; number = next(stream, length, place, answer)) \
        fold = (fold << 5 | fold >> 59) ^ answer[CDF_ANSWER_START] ^ answer[CDF_ANSWER_OWN_END] << 16 ^ \
               answer[CDF_ANSWER_END] << 32 ^ answer[CDF_ANSWER_ID] << 48 ^ answer[CDF_ANSWER_ACTION] << 56 ^ \
               answer[CDF_ANSWER_DEPTH] << 52 ^ answer[CDF_ANSWER_RANK] << 8; \
    return fold ^ number << 57 ^ answer[CDF_ANSWER_OFFSET] << 3

uint64_t walk_from_c(const uint8_t *stream, size_t length) { WALK(cdf_first, cdf_next); }

/* By the reader that is driven by a table. */
uint64_t table_from_c(const uint8_t *stream, size_t length) { WALK(cdf_table_first, cdf_table_next); }

#define MANY 32

uint64_t units_from_c(const uint8_t *stream, size_t length) {
    uint64_t place[CDF_PLACE_NUMBERS], answer[CDF_ANSWER_NUMBERS], list[MANY * CDF_UNIT_NUMBERS], batch[CDF_UNITS_NUMBERS], fold;
    uint64_t number = cdf_first(stream, length, place, answer);
    if (number != CDF_OK) return number << 57 ^ answer[CDF_ANSWER_OFFSET] << 3;
    fold = answer[CDF_ANSWER_START] ^ answer[CDF_ANSWER_OWN_END] << 16 ^ answer[CDF_ANSWER_END] << 32 ^ answer[CDF_ANSWER_ID] << 48 ^
           answer[CDF_ANSWER_ACTION] << 56 ^ answer[CDF_ANSWER_DEPTH] << 52 ^ answer[CDF_ANSWER_RANK] << 8;
    while ((number = cdf_units(stream, length, place, list, MANY * CDF_UNIT_NUMBERS, batch)) == CDF_OK) {
        const uint64_t *unit = list, *end = list + CDF_UNIT_NUMBERS * batch[CDF_UNITS_COUNT];
        for (; unit < end; unit += CDF_UNIT_NUMBERS)
            fold = (fold << 5 | fold >> 59) ^ unit[CDF_UNIT_START] ^ unit[CDF_UNIT_OWN_END] << 16 ^ unit[CDF_UNIT_END] << 32 ^
                   unit[CDF_UNIT_ID] << 48 ^ unit[CDF_UNIT_ACTION] << 56 ^ unit[CDF_UNIT_DEPTH] << 52 ^ unit[CDF_UNIT_RANK] << 8;
    }
    return fold ^ number << 57 ^ batch[CDF_UNITS_OFFSET] << 3;
}
