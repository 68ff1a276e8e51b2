/* Building and listing streams of the Common Data Format from C.
 *
 * The builder writes a stream into a buffer of the caller, unit by unit, from the front:
 *
 *     uint8_t buffer[1000];
 *     uint64_t place[CDF_BUILD_PLACE_NUMBERS], length[1];
 *     cdf_build_first(buffer, sizeof buffer, CDF_ID_ER_GROUP, place);
 *     cdf_build_next(buffer, sizeof buffer, place, id, action, data, data_length);
 *     ...
 *     cdf_build_finish(buffer, sizeof buffer, place, length);
 *
 * It keeps nothing between calls and allocates nothing: all it knows is in the place, which may be copied, stored and sent, but does not
 * outlive its version (CDF_VERSION).
 *
 * Units that are known beforehand can be built at one go, all of them or none: cdf_build_batch.
 *
 * Each function returns a number, and nothing else; only cdf_build_batch returns more. 0 is done. Any other number is a refusal, which
 * leaves the place and every byte of the buffer as they were; only a refused cdf_build_first writes a place, one of zeros. The functions
 * answer for any bytes and any numbers: a place that none of them wrote is used if it could belong to the buffer, and else gets 2. No call
 * reads the buffer's bytes. So what is built is a stream if cdf_build_finish answered 0, all calls from cdf_build_first on had the place
 * that the last one left, and the same buffer, and nothing else wrote to it in between.
 *
 * What the caller must keep, and what of threads, is said in cdf.h.
 */
#ifndef CDF_BUILD_H
#define CDF_BUILD_H

#include "cdf_numbers.h"

#ifdef __cplusplus
extern "C" {
#endif

/* The builder's place, 10 numbers that the caller holds. Copy it to come back to it, with the buffer as it then was. What stands in
 * slots that the count does not reach is free: it means nothing, and after a call it may be anything. A state tells which unit it is
 * and what it has had. All zeros is the empty place, which never fits. */
#define CDF_BUILD_PLACE_NUMBERS 10
#define CDF_BUILD_PLACE_WRITTEN 0   /* bytes written: the next unit goes there */
#define CDF_BUILD_PLACE_COUNT 1     /* how many units are open, the root among them: 1 to 4 while a stream is built */
#define CDF_BUILD_PLACE_INNERMOST 2 /* state and start of the innermost open unit */
#define CDF_BUILD_PLACE_OUTER 4     /* the same of the others, from the root inwards: three times two numbers */

/* Starts a stream: writes the prefix of a root and its place. root is CDF_ID_STREAM, CDF_ID_ER_GROUP or CDF_ID_FILE_GROUP.
 *     0   done: 6 bytes are written and the root is open
 *     6   root is no unit's id
 *     7   root is a unit's id, but no root's
 *     12  the buffer has fewer than 6 bytes
 * Beside a number other than 0 the buffer stays, and the 10 numbers of the place are zeros. */
uint64_t cdf_build_first(uint8_t *buffer, size_t buffer_length, uint64_t root, uint64_t place[CDF_BUILD_PLACE_NUMBERS]);

/* Adds a unit: to the innermost open unit that admits its id; the units inside that one end. data is the unit's own data as it is to
 * stand in the stream: a name begins with its count, numbers have the high byte first. A unit that admits others is open from then on.
 *     0   done: prefix and data are written, the lengths of all open units are right, and the place is the new one
 *     2   the place could not belong to a buffer of this length
 *     6   id is no unit's id: not 1 to 14
 *     7   no open unit admits this id now
 *     10  one does, but a unit inside it is incomplete
 *     8   the action is not allowed for this id
 *     9   data is not the own data of a unit of this id
 *     13  the stream would have more than 65,535 bytes
 *     12  there is no room in the buffer
 * The first of these that holds is returned, in this order. id and action are taken whole: 261 is not 5. */
uint64_t cdf_build_next(uint8_t *buffer, size_t buffer_length, uint64_t place[CDF_BUILD_PLACE_NUMBERS], uint64_t id, uint64_t action,
                        const uint8_t *data, size_t data_length);

/* A request of a list: the id and the action of a unit, and where its own data begins and ends in the text that is lent beside the list, as
 * cdf_build_next asks for them. The end is the byte after the last. */
struct cdf_request {
    uint64_t id;
    uint64_t action;
    uint64_t begin;
    uint64_t end;
};

/* The ten numbers of a builder's place as a struct, in the order of the array, of which it may be a copy. */
struct cdf_builder {
    uint64_t written;        /* CDF_BUILD_PLACE_WRITTEN */
    uint64_t count;          /* CDF_BUILD_PLACE_COUNT */
    uint64_t state, start;   /* CDF_BUILD_PLACE_INNERMOST */
    uint64_t state1, start1; /* CDF_BUILD_PLACE_OUTER: the root, if it is not the innermost; */
    uint64_t state2, start2; /* and those in it, */
    uint64_t state3, start3; /* inwards */
};

/* What a list is told. */
struct cdf_batched {
    uint64_t number;          /* as of any call */
    uint64_t rank;            /* which request of the list is refused, from 0 on */
    struct cdf_builder place; /* the new place; beside a number other than 0 the very one that was given */
};

/* The most requests of a list. */
#define CDF_REQUESTS_MOST 512

/* Builds a list of units, all of them or none. The own data of each is the part of the text that its request names; these may overlap, come
 * in any order and leave bytes out. An empty list is built too, and changes nothing.
 *     0   done: buffer and place are as after a cdf_build_next for each request, one after the other; the rank is 0
 *     2   the place could not belong to a buffer of this length, whatever the list is; the rank is 0
 *     21  the list has more than 512 requests, whatever these are; the rank is 0
 *     6, 7, 10, 8, 9, 13, 12  of the first request that is refused, in this order: cdf_build_next gives it this number after those before it;
 *         the rank is how many these are. Those behind it are not looked at. With 9 the text's bounds may be what is wrong: the end is behind the
 *         text's, or before the beginning. That is asked of every request, also of a unit that has no own data.
 * All numbers are known before a byte is written, so beside a number other than 0 no byte of the buffer changes, and the place is the
 * one that was given. The list and the text are only read. They, like everything that is lent, must not overlap the buffer. */
struct cdf_batched cdf_build_batch(struct cdf_builder place, uint8_t *buffer, size_t buffer_length, const struct cdf_request *requests, size_t count,
                                   const uint8_t *text, size_t text_length);

/* Adds a whole group, bytes that the check accepts as a stream with the root 4 or 13, as the next unit. It is closed at once.
 *     0   done: the group's bytes are written, the lengths of all open units are right, and the place is the new one
 *     2   the place could not belong to a buffer of this length
 *     14  group is no stream that the check accepts, or its root is not 4 or 13
 *     7, 10, 13, 12  as of cdf_build_next, in this order */
uint64_t cdf_build_add_stream(uint8_t *buffer, size_t buffer_length, uint64_t place[CDF_BUILD_PLACE_NUMBERS], const uint8_t *group,
                              size_t group_length);

/* Asks whether the stream is whole. Place and buffer stay, and building may go on.
 *     0   it is: answer[0] is its length, and it stands in the first answer[0] bytes of the buffer
 *     2   the place could not belong to a buffer of this length; answer[0] is 0
 *     10  an open unit is incomplete; answer[0] is 0 */
uint64_t cdf_build_finish(const uint8_t *buffer, size_t buffer_length, const uint64_t place[CDF_BUILD_PLACE_NUMBERS], uint64_t answer[1]);

/* Room for the listing of any stream, or of any other bytes up to 65,536. */
#define CDF_LISTING_ROOM 207527

/* Writes the listing of a stream as text at the front of a buffer: a line for each unit with its offset, depth, id, action and length,
 * and last 'ok N' for N units; of bytes that are no stream one line, 'refused NUMBER at OFFSET'. No zero byte ends the text.
 *     0   done: answer[0] is the text's length; the bytes behind the text stay
 *     12  the whole text does not fit: answer[0] is 0, and no byte is written
 * Beside 0 the text may still be that of a refusal: ask cdf_check whether a stream is accepted. */
uint64_t cdf_listing(const uint8_t *stream, size_t length, uint8_t *text, size_t text_length, uint64_t answer[1]);

#ifdef __cplusplus
}
#endif

#endif
