/* The arrays that are lent, and what a call returned and left in them, told in the names of the headers' constants. */
#ifndef TOLD_H
#define TOLD_H

#include "lent.h"

GUARDED(place, CDF_PLACE_NUMBERS);
GUARDED(answer, CDF_ANSWER_NUMBERS);
GUARDED(one, 1);
GUARDED(batch, CDF_UNITS_NUMBERS);
GUARDED(explanation, CDF_EXPLAIN_NUMBERS);
GUARDED(found, CDF_LOOKUP_NUMBERS);
GUARDED(rescued, CDF_RESCUE_NUMBERS);
GUARDED(resolved, CDF_RESOLVE_NUMBERS);
GUARDED(building, CDF_BUILD_PLACE_NUMBERS);

static bytes stream, buffer;
static int done;

static void returned(const char *function, uint64_t is) {
    if (!(KEPT(place) && KEPT(answer) && KEPT(one) && KEPT(batch) && KEPT(explanation) && KEPT(found) && KEPT(rescued) && KEPT(resolved) &&
          KEPT(building)))
        stop("written outside an array:", function);
    printf("%s ", function);
    tell(NUMBERS, is);
    done = is == CDF_OK;
}

static void tell_answer(void) {
    TELL(answer.is, CDF_ANSWER_OFFSET);
    TELL_AS(IDS, answer.is, CDF_ANSWER_ID);
    TELL_AS(ACTIONS, answer.is, CDF_ANSWER_ACTION);
    TELL(answer.is, CDF_ANSWER_START);
    TELL(answer.is, CDF_ANSWER_OWN_END);
    TELL(answer.is, CDF_ANSWER_END);
    TELL(answer.is, CDF_ANSWER_PART_START);
    TELL(answer.is, CDF_ANSWER_PART_LENGTH);
    TELL(answer.is, CDF_ANSWER_DEPTH);
    TELL(answer.is, CDF_ANSWER_RANK);
}

/* A place is told as one of zeros, after a refusal as one that stays, and else by its numbers as far as its count reaches. */
static int tell_same(const uint64_t *now, const uint64_t *before, size_t count) {
    size_t zeros = 0;
    while (zeros < count && !now[zeros]) zeros++;
    if (zeros == count) return puts(" zeros"), 1;
    if (done) return 0;
    return puts(memcmp(now, before, count * sizeof *now) ? " changed" : " stays"), 1;
}

static void tell_place(const uint64_t *before) {
    const uint64_t *p = place.is;
    size_t at;
    if (tell_same(p, before, CDF_PLACE_NUMBERS)) return;
    TELL(p, CDF_PLACE_POSITION);
    TELL(p, CDF_PLACE_COUNT);
    TELL_AS(STATES, p, CDF_PLACE_INNERMOST);
    tell_numbers(p + CDF_PLACE_INNERMOST + 1, 2);
    at = FROM(CDF_PLACE_OUTER);
    for (uint64_t i = 1; i < p[CDF_PLACE_COUNT]; i++, at += 3) {
        tell(STATES, p[at]);
        tell_numbers(p + at + 1, 2);
    }
    at = FROM(CDF_PLACE_LAST);
    tell(IDS, p[at]);
    putchar(',');
    tell(ACTIONS, p[at + 1]);
    tell_numbers(p + at + 2, 3);
    printf(" %s", p[CDF_PLACE_FLAG] ? "CDF_PLACE_FLAG" : "-");
    at = FROM(CDF_PLACE_RANKS);
    tell_numbers(p + at, p[CDF_PLACE_COUNT]);
    TELL(p, CDF_PLACE_LAST_RANK);
    putchar('\n');
}

static void tell_building(const uint64_t *before) {
    const uint64_t *p = building.is;
    size_t at;
    tell_sum(buffer.is, buffer.length);
    if (tell_same(p, before, CDF_BUILD_PLACE_NUMBERS)) return;
    TELL(p, CDF_BUILD_PLACE_WRITTEN);
    TELL(p, CDF_BUILD_PLACE_COUNT);
    TELL_AS(STATES, p, CDF_BUILD_PLACE_INNERMOST);
    tell_numbers(p + CDF_BUILD_PLACE_INNERMOST + 1, 1);
    at = FROM(CDF_BUILD_PLACE_OUTER);
    for (uint64_t i = 1; i < p[CDF_BUILD_PLACE_COUNT]; i++, at += 2) {
        tell(STATES, p[at]);
        tell_numbers(p + at + 1, 1);
    }
    putchar('\n');
}

#endif
