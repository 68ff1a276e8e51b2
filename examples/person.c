/* Builds a stream of one person, with a key and a surname, from a list of requests and one text, and writes its bytes to standard output. The
 * buffer has room for so many bytes, or for 1000. */
#include <stdio.h>
#include <stdlib.h>
#include <string.h>

#include "cdf_build.h"

int main(int count, char **words) {
    static uint8_t buffer[1000];
    /* The own data of all units, one behind the other: PERSON from 0, the key's number from 7, SURNAME with its value from 11. */
    static const uint8_t text[] = "\6PERSON\0\0\0\1\7SURNAME\303\205s";
    const struct cdf_request person[] = {
        {CDF_ID_TEMPLATE, CDF_ACTION_CREATE, 0, 7},
        {CDF_ID_TEMPORARY_KEY, CDF_ACTION_NONE, 7, 11},
        {CDF_ID_FIELD, CDF_ACTION_CREATE, 11, 22},
    };
    size_t room = count == 2 ? strtoul(words[1], NULL, 10) : sizeof buffer;
    if (room > sizeof buffer) return fputs("usage: person [ROOM]\n", stderr), 2;
    uint64_t place[CDF_BUILD_PLACE_NUMBERS], length[1];
    uint64_t number = cdf_build_first(buffer, room, CDF_ID_ER_GROUP, place);
    if (number != CDF_OK) return fprintf(stderr, "refused: %d\n", (int)number), 1;
    struct cdf_builder at;
    memcpy(&at, place, sizeof at); /* the struct has the numbers of the array, in their order */
    struct cdf_batched built = cdf_build_batch(at, buffer, room, person, sizeof person / sizeof *person, text, sizeof text - 1);
    if (built.number != CDF_OK) return printf("refused: %d, request %d\n", (int)built.number, (int)built.rank), 1;
    memcpy(place, &built.place, sizeof place);
    number = cdf_build_finish(buffer, room, place, length);
    if (number != CDF_OK) return fprintf(stderr, "refused: %d\n", (int)number), 1;
    return fwrite(buffer, 1, length[0], stdout) != length[0];
}
