/* The requests of a list by single calls from C, one after the other. */
#include "../../include/cdf.h"

uint64_t requests_from_c(uint8_t *buffer, size_t length, uint64_t place[CDF_BUILD_PLACE_NUMBERS], const struct cdf_request *list, size_t count,
                         const uint8_t *text) {
    uint64_t number = CDF_OK;
    for (const struct cdf_request *end = list + count; number == CDF_OK && list < end; list++)
        number = cdf_build_next(buffer, length, place, list->id, list->action, text + list->begin, list->end - list->begin);
    return number;
}
