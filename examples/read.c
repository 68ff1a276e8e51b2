/* Reads a stream from a file and prints each unit, indented by its depth: its rank and its id, where it starts, where its own data end,
 * where it ends. */
#include "cdf.h"
#include <stdio.h>

int main(int count, char **words) {
    static uint8_t stream[65536];
    uint64_t place[CDF_PLACE_NUMBERS], answer[CDF_ANSWER_NUMBERS];
    FILE *file = count == 2 ? fopen(words[1], "rb") : NULL;
    if (!file) return fputs("usage: read FILE\n", stderr), 2;
    size_t length = fread(stream, 1, sizeof stream, file);
    uint64_t number = cdf_first(stream, length, place, answer);
    for (; number == CDF_OK; number = cdf_next(stream, length, place, answer))
        printf("%*s%d: %d %d %d %d\n", 2 * (int)answer[CDF_ANSWER_DEPTH] - 2, "", (int)answer[CDF_ANSWER_RANK], (int)answer[CDF_ANSWER_ID],
               (int)answer[CDF_ANSWER_START], (int)answer[CDF_ANSWER_OWN_END], (int)answer[CDF_ANSWER_END]);
    if (number == CDF_END) return puts("end"), 0;
    return printf("refused: %d at %d\n", (int)number, (int)answer[CDF_ANSWER_OFFSET]), 1;
}
