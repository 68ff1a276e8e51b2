/* Says of the E/R data group in a file which template each entity key with a temporary key means: the ranks of the templates, in the order of
 * the entity keys. The list has room for so many numbers, or for as many as any stream needs. */
#include "cdf.h"
#include <stdio.h>
#include <stdlib.h>

#define ROOM (65535 / 18) /* such an entity key has at least 18 bytes */

int main(int count, char **words) {
    static uint8_t stream[65536];
    static uint64_t list[ROOM];
    uint64_t answer[CDF_RESOLVE_NUMBERS];
    FILE *file = count == 2 || count == 3 ? fopen(words[1], "rb") : NULL;
    size_t room = count == 3 ? strtoul(words[2], NULL, 10) : ROOM;
    if (!file || room > ROOM) return fputs("usage: resolve FILE [ROOM]\n", stderr), 2;
    size_t length = fread(stream, 1, sizeof stream, file);
    uint64_t number = cdf_resolve(stream, length, list, room, answer);
    if (number != CDF_OK) return printf("refused: %d at %d\n", (int)number, (int)answer[CDF_RESOLVE_OFFSET]), 1;
    for (uint64_t i = 0; i < answer[CDF_RESOLVE_COUNT]; i++) printf("%d\n", (int)list[i]);
    return 0;
}
