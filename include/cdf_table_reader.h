/* Reading streams of the Common Data Format from C by a table of states, for those who know the printed one.
 *
 * This reader looks into a table to decide what may come next; docs/STATE-TABLE.md shows it, and the printed states beside it. For any
 * stream, and any starts, NEXTs and SKIPs, it answers what cdf_first, cdf_next and cdf_skip of cdf.h answer: the same numbers, offsets and
 * units, with depth and rank, and the same places. A place of either reader is one of the other, so the calls may be mixed:
 * cdf_get_stream, cdf_previous and cdf_abnormal_end serve this reader too.
 *
 *     uint64_t place[CDF_PLACE_NUMBERS], answer[CDF_ANSWER_NUMBERS];
 *     uint64_t number = cdf_table_first(stream, length, place, answer);
 *     for (; number == CDF_OK; number = cdf_table_next(stream, length, place, answer))
 *         ... answer[CDF_ANSWER_ID], and the state of the unit around it, by place ...
 *
 * What an open unit of a place has had is a row of the table: CDF_STATE_STREAM_NEW to CDF_STATE_ENTITY_SKIPPED of cdf_numbers.h.
 *
 * What the caller must keep, and what of threads, is said in cdf.h.
 */
#ifndef CDF_TABLE_READER_H
#define CDF_TABLE_READER_H

#include "cdf_numbers.h"

#ifdef __cplusplus
extern "C" {
#endif

/* FIRST: judges the root, admitted by the row before all states, and hands it out. Refused, it writes a place of 25 zeros. 0 and 3 to 8. */
uint64_t cdf_table_first(const uint8_t *stream, size_t length, uint64_t place[CDF_PLACE_NUMBERS], uint64_t answer[CDF_ANSWER_NUMBERS]);

/* NEXT: hands out the next unit in the order of their starts. CDF_ERR_PLACE is a unit that the row of the unit around it does not admit.
 * With any number but 0 the place stays as it was. 0, 1, 2 and 3 to 11. */
uint64_t cdf_table_next(const uint8_t *stream, size_t length, uint64_t place[CDF_PLACE_NUMBERS], uint64_t answer[CDF_ANSWER_NUMBERS]);

/* SKIP: passes all that is inside the unit just handed out, and looks into no row. With any number but 0 the place stays as it was.
 * 0, 2 and 11. */
uint64_t cdf_table_skip(const uint8_t *stream, size_t length, uint64_t place[CDF_PLACE_NUMBERS], uint64_t answer[CDF_ANSWER_NUMBERS]);

/* A run of these calls by the codes CDF_CALL_START, CDF_CALL_NEXT and CDF_CALL_SKIP. Any other code ends it, those of GET_STREAM and
 * PREVIOUS too. All else is as cdf_replay has it, and so is the log. 0 and 12. */
uint64_t cdf_table_replay(const uint8_t *stream, size_t length, const uint8_t *calls, size_t calls_length, uint64_t *log, size_t log_length,
                          uint64_t answer[1]);

#ifdef __cplusplus
}
#endif

#endif
