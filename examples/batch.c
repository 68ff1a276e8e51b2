/* Reads a stream from a file and prints each unit, indented by its depth: its rank and its id, where it starts, where its own data end,
 * where it ends. The units behind the root come many at a time. */
#include "cdf.h"
#include <stdio.h>

#define ROOM 3 /* a program with more to read takes some 32 */

static void print(const uint64_t unit[CDF_UNIT_NUMBERS]) {
    printf("%*s%d: %d %d %d %d\n", 2 * (int)unit[CDF_UNIT_DEPTH] - 2, "", (int)unit[CDF_UNIT_RANK], (int)unit[CDF_UNIT_ID],
           (int)unit[CDF_UNIT_START], (int)unit[CDF_UNIT_OWN_END], (int)unit[CDF_UNIT_END]);
}

int main(int count, char **words) {
    static uint8_t stream[65536];
    uint64_t place[CDF_PLACE_NUMBERS], first[CDF_ANSWER_NUMBERS], list[ROOM * CDF_UNIT_NUMBERS], answer[CDF_UNITS_NUMBERS];
    FILE *file = count == 2 ? fopen(words[1], "rb") : NULL;
    if (!file) return fputs("usage: batch FILE\n", stderr), 2;
    size_t length = fread(stream, 1, sizeof stream, file);
    uint64_t number = cdf_first(stream, length, place, first);
    if (number != CDF_OK) return printf("refused: %d at %d\n", (int)number, (int)first[CDF_ANSWER_OFFSET]), 1;
    print((uint64_t[]){first[CDF_ANSWER_ID], first[CDF_ANSWER_ACTION], first[CDF_ANSWER_START], first[CDF_ANSWER_OWN_END],
                       first[CDF_ANSWER_END], first[CDF_ANSWER_DEPTH], first[CDF_ANSWER_RANK]});
    while ((number = cdf_units(stream, length, place, list, ROOM * CDF_UNIT_NUMBERS, answer)) == CDF_OK)
        for (uint64_t i = 0; i < answer[CDF_UNITS_COUNT]; i++) print(list + i * CDF_UNIT_NUMBERS);
    if (number == CDF_END) return puts("end"), 0;
    return printf("refused: %d at %d\n", (int)number, (int)answer[CDF_UNITS_OFFSET]), 1;
}
