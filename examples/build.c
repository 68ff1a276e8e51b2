/* Builds a stream of one person, with a key and a surname, and writes its bytes to standard output. */
#include <stdio.h>

#include "cdf_build.h"

int main(void) {
    uint8_t buffer[1000];
    uint64_t place[CDF_BUILD_PLACE_NUMBERS], length[1];
    const uint8_t person[] = "\6PERSON", key[] = {0, 0, 0, 1}, surname[] = "\7SURNAME\303\205s";
    /* An E/R data group; in it a template to create, with its temporary key and a field. */
    uint64_t number = cdf_build_first(buffer, sizeof buffer, CDF_ID_ER_GROUP, place);
    if (number == CDF_OK)
        number = cdf_build_next(buffer, sizeof buffer, place, CDF_ID_TEMPLATE, CDF_ACTION_CREATE, person, sizeof person - 1);
    if (number == CDF_OK)
        number = cdf_build_next(buffer, sizeof buffer, place, CDF_ID_TEMPORARY_KEY, CDF_ACTION_NONE, key, sizeof key);
    if (number == CDF_OK)
        number = cdf_build_next(buffer, sizeof buffer, place, CDF_ID_FIELD, CDF_ACTION_CREATE, surname, sizeof surname - 1);
    if (number == CDF_OK) number = cdf_build_finish(buffer, sizeof buffer, place, length);
    if (number != CDF_OK) {
        fprintf(stderr, "refused: %d\n", (int)number);
        return 1;
    }
    return fwrite(buffer, 1, length[0], stdout) != length[0];
}
