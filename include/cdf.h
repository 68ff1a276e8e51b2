/* The proved library for Common Data Format streams: the check, why it refuses a stream, the lookup of a value in two, the rescue of a
 * broken E/R data group, which templates the relations of a group mean, the reader, many units in a call and a run of the reader's calls; by
 * cdf_build.h the builder and the listing, and by cdf_table_reader.h a reader that is driven by a table. The numbers that they share are in
 * cdf_numbers.h.
 *
 * Build target/libcdf.a with ./library, include this file and link the archive. It is for x86-64 Linux, and needs only memcpy and memset,
 * which every C library has.
 *
 * Every call returns a number, cdf_build_batch in a struct: CDF_OK, 0, is done, and the others say what is wrong. A call answers for any
 * bytes and any numbers that it is given; that its answer is the one that the format demands is proved. What C must keep, since no proof
 * reaches the caller:
 *   - a pointer that goes with a length is valid for that many elements; it may be null only if the length is 0;
 *   - place and answer are never null, and have at least the length that is written here; arrays of uint64_t, and of structs of them, are
 *     aligned as the compiler aligns them;
 *   - what a call writes (a pointer that is not const) overlaps nothing else that is lent to the same call.
 * No call keeps anything, or touches memory but what it is lent: any number of threads may call at once, as long as none writes what
 * another uses. */
#ifndef CDF_H
#define CDF_H

#include "cdf_build.h" /* the builder and the listing */
#include "cdf_numbers.h"
#include "cdf_table_reader.h" /* the reader that is driven by a table */

#ifdef __cplusplus
extern "C" {
#endif

/* The check of a whole stream. answer[0] is the number of units beside CDF_OK, and else the offset. 0 and 3 to 10. */
uint64_t cdf_check(const uint8_t *stream, size_t length, uint64_t answer[1]);

/* Why the check refuses a stream: the units that are open where the refused unit stands, and the ids that could have stood there.
 * 25 numbers are written at each call; those that are not used are zeros, and of an accepted stream all are. */
#define CDF_EXPLAIN_NUMBERS 25
#define CDF_EXPLAIN_OFFSET 0    /* where the rule is broken, as cdf_check tells it */
#define CDF_EXPLAIN_COUNT 1     /* how many units are open there, 0 to 4 */
#define CDF_EXPLAIN_UNITS 2     /* id and start of each of them, the root first: four times two numbers */
#define CDF_EXPLAIN_CHOICES 10  /* how many ids the innermost of them admits there; where none is open, how many a root may have */
#define CDF_EXPLAIN_IDS 11      /* these ids, rising: fourteen numbers */

/* Returns the number of cdf_check. Beside CDF_ERR_INCOMPLETE the last open unit is the one that lacks something, and the ids are those
 * that it could still have had; there is at least one. 0 and 3 to 10. */
uint64_t cdf_explain(const uint8_t *stream, size_t length, uint64_t answer[CDF_EXPLAIN_NUMBERS]);

/* Which of two values counts: the value of a field in the first of two streams that has it. 4 numbers are written at each call. */
#define CDF_LOOKUP_NUMBERS 4
#define CDF_LOOKUP_OFFSET 0     /* beside a number of cdf_check its offset, and else 0 */
#define CDF_LOOKUP_WHICH 1      /* the stream that the value stands in: 1 or 2, and 0 on a refusal */
#define CDF_LOOKUP_START 2      /* where the value starts in that stream; 0 on a refusal */
#define CDF_LOOKUP_LENGTH 3     /* how many bytes it has; 0 on a refusal */

/* In the first stream, and then in the second, the first template of this name whose first key is that key is searched for the first
 * field of this name; if it has none, no later template of that stream is tried. key_id is CDF_ID_TEMPORARY_KEY, and the key's bytes are
 * its number in four, the high byte first, or CDF_ID_TEMPLATE_KEY, and they are its text; with any other nothing is found. Names are
 * given as they stand in a stream, their count byte first: "\6PERSON" has 7 bytes. An empty value is found too: its length is 0, and its
 * start is where it stands. Nothing is copied: the value is the part of the first or the second stream from start on.
 *
 * Refused are, in this order: the first stream, then the second, with the number and offset of cdf_check, and the answer does not say
 * which of the two that was; with CDF_ERR_PLACE a root that is no E/R data group, in either; with CDF_ERR_NOT_FOUND a field that neither
 * has. 0, 3 to 10 and 15. */
uint64_t cdf_lookup(const uint8_t *first, size_t first_length, const uint8_t *second, size_t second_length,
                    const uint8_t *template_name, size_t template_length, uint64_t key_id, const uint8_t *key, size_t key_length,
                    const uint8_t *field, size_t field_length, uint64_t answer[CDF_LOOKUP_NUMBERS]);

/* Which template each entity key means, before a group is stored. 2 numbers are written at each call. */
#define CDF_RESOLVE_NUMBERS 2
#define CDF_RESOLVE_OFFSET 0    /* beside a number of cdf_check its offset, beside 19 and 20 the unit's start, and else 0 */
#define CDF_RESOLVE_COUNT 1     /* how many ranks the list has; 0 beside any number but CDF_OK */

/* An entity key with a temporary key means the template of its name that has the same temporary key and begins before it in the group.
 * For each of them, in the order of the stream, that template's rank is written to the list, from its front on: how many units stand before
 * it directly in the group, relations too, as CDF_ANSWER_RANK tells it. All other numbers of the list stay. list_length counts numbers; such
 * an entity key has at least 18 bytes, so a list of length / 18 numbers is always long enough. Entity keys with template keys are not asked,
 * and actions neither: a template that is to be deleted is one like any other.
 *
 * Refused are, in this order, each over the whole group: a stream that cdf_check refuses, with its number and offset; with CDF_ERR_PLACE a
 * root that is no E/R data group, also one that holds such a group; with CDF_ERR_MANY_KEYS more than 256 templates with temporary keys; with
 * CDF_ERR_DOUBLED the first template whose name and temporary key an earlier one has; with CDF_ERR_UNRESOLVED the first entity key with
 * a temporary key that has no such template before it; with CDF_ERR_NO_ROOM a list that is too short. No number of the list is then
 * written. 0, 3 to 10, 12 and 18 to 20.
 *
 * What it costs: a check, two passes over the units, and in each of these for every template and entity key with a temporary key a look at
 * the templates before it that have one, 256 at most. What was measured stands in docs/bench/README.md. */
uint64_t cdf_resolve(const uint8_t *stream, size_t length, uint64_t *list, size_t list_length, uint64_t answer[CDF_RESOLVE_NUMBERS]);

/* The rescue of a broken E/R data group. 130 numbers are written at each call; those that are not used are zeros, and on a refusal all
 * are. */
#define CDF_RESCUE_NUMBERS 130
#define CDF_RESCUE_LENGTH 0     /* how many bytes of the buffer the group has */
#define CDF_RESCUE_COUNT 1      /* how many runs of bytes were dropped, 0 to 64 */
#define CDF_RESCUE_RUNS 2       /* of each of them the first byte and the byte after the last, rising: 64 times two numbers */

/* Behind the six bytes of the root's prefix, of which nothing is read: where a template, a relation or an ordered relation stands whole
 * and keeps every rule, it is taken over, and what follows it comes next; where none does, a byte is dropped. Dropped bytes that stand
 * side by side are one run. There may be more bytes than a stream has. The group is written to the front of the buffer, and
 * the bytes behind it stay: an E/R data group of the units that were kept, in their order, which cdf_check accepts. An accepted E/R data
 * group comes out unchanged, with no runs. A buffer of 65,535 bytes always has room.
 *
 * Refused are, in this order: with CDF_ERR_SHORT fewer than 6 bytes, with CDF_ERR_NOTHING_KEPT bytes of which nothing can be kept, with
 * CDF_ERR_MANY_RUNS more than 64 runs, with CDF_ERR_TOO_LONG a group that would be longer than 65,535 bytes, with CDF_ERR_NO_ROOM a
 * buffer that is too short for it. Nothing is then written to the buffer. 0, 3, 12, 13, 16 and 17.
 *
 * What it costs: a whole group takes less than two checks of it. Where bytes are dropped, a unit is tried at each of them, and one that
 * seems to stand there may claim up to 65,535 bytes before a rule breaks. So bytes of the first edition, which are those rescued here,
 * take at most 10,923 judgements a byte, however many there are: some seconds for a megabyte that was made for it. Where lengths have
 * four bytes, as in the second edition, a length may claim all bytes that are left, and the slowest bytes known take n * n / 447
 * judgements in all for n of them: hours at 16 MB. Set a bound on bytes from strangers. What was measured stands in docs/bench/README.md. */
uint64_t cdf_rescue(const uint8_t *stream, size_t length, uint8_t *out, size_t out_length, uint64_t answer[CDF_RESCUE_NUMBERS]);

/* The reader keeps nothing between calls: all it knows is in a place, which the caller holds. What the numbers of a place and of an answer
 * are stands in cdf_numbers.h.
 *
 * FIRST: judges the root and hands it out. Refused, it writes a place of 25 zeros. 0 and 3 to 8. */
uint64_t cdf_first(const uint8_t *stream, size_t length, uint64_t place[CDF_PLACE_NUMBERS], uint64_t answer[CDF_ANSWER_NUMBERS]);

/* The other calls. With any number but 0 they leave the place as it was. CDF_ERR_NOTHING comes before CDF_ERR_UNFIT: a call that has
 * nothing to do on a place does not ask whether it belongs to the stream. An empty place gets CDF_ERR_NOTHING from all of them but
 * cdf_abnormal_end.
 *
 * NEXT: hands out the next unit in the order of their starts. 0, 1, 2 and 3 to 11. */
uint64_t cdf_next(const uint8_t *stream, size_t length, uint64_t place[CDF_PLACE_NUMBERS], uint64_t answer[CDF_ANSWER_NUMBERS]);

/* SKIP: passes all that is inside the unit just handed out; nothing to do where the flag is 0, or that unit admits no others.
 * 0, 2 and 11. */
uint64_t cdf_skip(const uint8_t *stream, size_t length, uint64_t place[CDF_PLACE_NUMBERS], uint64_t answer[CDF_ANSWER_NUMBERS]);

/* GET_STREAM: the same for a group, and nothing to do for any other unit; the part is the group's bytes. Where the stream is one that
 * the check accepts, and it was read from cdf_first on, they are such a stream too. 0, 2 and 11. */
uint64_t cdf_get_stream(const uint8_t *stream, size_t length, uint64_t place[CDF_PLACE_NUMBERS], uint64_t answer[CDF_ANSWER_NUMBERS]);

/* PREVIOUS: hands out the last unit again. It writes no number of the place, also beside 0. 0, 2 and 11. */
uint64_t cdf_previous(const uint8_t *stream, size_t length, uint64_t place[CDF_PLACE_NUMBERS], uint64_t answer[CDF_ANSWER_NUMBERS]);

/* ABNORMAL_END: gives the reading up. 0; zeros are written to the place and to the answer. */
uint64_t cdf_abnormal_end(const uint8_t *stream, size_t length, uint64_t place[CDF_PLACE_NUMBERS], uint64_t answer[CDF_ANSWER_NUMBERS]);

/* A unit in a list: 7 numbers. */
#define CDF_UNIT_NUMBERS 7
#define CDF_UNIT_ID 0
#define CDF_UNIT_ACTION 1
#define CDF_UNIT_START 2
#define CDF_UNIT_OWN_END 3
#define CDF_UNIT_END 4
#define CDF_UNIT_DEPTH 5
#define CDF_UNIT_RANK 6

/* What a call for many units answers beside its number: 2 numbers, written at each call. */
#define CDF_UNITS_NUMBERS 2
#define CDF_UNITS_OFFSET 0          /* where a rule is broken, beside the number that says so; else 0 */
#define CDF_UNITS_COUNT 1           /* how many units the list has; 0 beside any number but CDF_OK */

/* Many units in a call: NEXT after NEXT from the place on, each unit written to the list behind the one before, from its front on, as many as
 * follow and as there is room for. list_length counts numbers: there is room for list_length / CDF_UNIT_NUMBERS units, and what the division
 * leaves is not used. All numbers behind the units stay. The root is not among them: fill the place by cdf_first, whose answer has it.
 * The place is tested once, which makes it quicker than cdf_next.
 *
 * Call it, with room for one unit at least, until it returns another number than CDF_OK. CDF_OK says that CDF_UNITS_COUNT units were handed
 * out; with room for none it only says that the place belongs to the stream. Any other number comes with no unit, and leaves place and
 * list: what stops the units, CDF_END or a fault, is told by the call after the one that handed out the last of them. CDF_ERR_NOTHING, and
 * then CDF_ERR_UNFIT, come first, with room for none too. The place is that of the last unit: where it may be skipped or taken, cdf_skip and
 * cdf_get_stream do so. 0, 1, 2 and 3 to 11. */
uint64_t cdf_units(const uint8_t *stream, size_t length, uint64_t place[CDF_PLACE_NUMBERS], uint64_t *list, size_t list_length,
                   uint64_t answer[CDF_UNITS_NUMBERS]);

/* A run of the reader's calls by their codes (CDF_CALL_..), one after the other, each on the place that the last one returned. A list that
 * does not begin with a start runs from the empty place, and a code that is none of these ends it.
 *
 * Writes the entries to the front of the log, whose length is counted in numbers; the rest of it stays. 12 if the log has fewer than 11
 * numbers for each code, and then nothing is written to it; else 0. answer[0] is the number of entries written. */
uint64_t cdf_replay(const uint8_t *stream, size_t length, const uint8_t *calls, size_t calls_length, uint64_t *log, size_t log_length,
                    uint64_t answer[1]);

#ifdef __cplusplus
}
#endif

#endif
