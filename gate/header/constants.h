/* Every constant of include/ that is not an index, with its name, in a table for each kind, and how they are read and told. */
#ifndef CONSTANTS_H
#define CONSTANTS_H

#include "cdf.h"
#include <stdio.h>
#include <stdlib.h>
#include <string.h>

typedef unsigned long long number;
typedef struct {
    const char *name;
    uint64_t value;
} constant;

#define IS(name) {#name, name}
static const constant NUMBERS[] = {
    IS(CDF_OK), IS(CDF_END), IS(CDF_ERR_UNFIT), IS(CDF_ERR_SHORT), IS(CDF_ERR_MARK), IS(CDF_ERR_LENGTH), IS(CDF_ERR_ID), IS(CDF_ERR_PLACE),
    IS(CDF_ERR_ACTION), IS(CDF_ERR_DATA), IS(CDF_ERR_INCOMPLETE), IS(CDF_ERR_NOTHING), IS(CDF_ERR_NO_ROOM), IS(CDF_ERR_TOO_LONG),
    IS(CDF_ERR_BAD_GROUP), IS(CDF_ERR_NOT_FOUND), IS(CDF_ERR_NOTHING_KEPT), IS(CDF_ERR_MANY_RUNS),
    IS(CDF_ERR_MANY_KEYS), IS(CDF_ERR_DOUBLED), IS(CDF_ERR_UNRESOLVED), IS(CDF_ERR_MANY_REQUESTS), {NULL, 0}};
static const constant IDS[] = {
    IS(CDF_ID_STREAM), IS(CDF_ID_CALL), IS(CDF_ID_PARAMETER), IS(CDF_ID_ER_GROUP), IS(CDF_ID_TEMPLATE), IS(CDF_ID_TEMPORARY_KEY),
    IS(CDF_ID_TEMPLATE_KEY), IS(CDF_ID_FIELD), IS(CDF_ID_RELATION), IS(CDF_ID_ORDERED_RELATION), IS(CDF_ID_ENTITY_KEY),
    IS(CDF_ID_RELATION_KEY), IS(CDF_ID_FILE_GROUP), IS(CDF_ID_LINE), {NULL, 0}};
static const constant ACTIONS[] = {IS(CDF_ACTION_NONE), IS(CDF_ACTION_CREATE), IS(CDF_ACTION_READ), IS(CDF_ACTION_UPDATE),
                                   IS(CDF_ACTION_DELETE), {NULL, 0}};
static const constant STATES[] = {
    IS(CDF_STATE_STREAM_NEW), IS(CDF_STATE_STREAM_CALL), IS(CDF_STATE_STREAM_GROUP), IS(CDF_STATE_STREAM_SKIPPED), IS(CDF_STATE_ER_NEW),
    IS(CDF_STATE_ER_DATA), IS(CDF_STATE_ER_SKIPPED), IS(CDF_STATE_FILE_NEW), IS(CDF_STATE_FILE_LINES), IS(CDF_STATE_FILE_SKIPPED),
    IS(CDF_STATE_CALL_NEW), IS(CDF_STATE_CALL_PARAMETERS), IS(CDF_STATE_CALL_SKIPPED), IS(CDF_STATE_TEMPLATE_NEW),
    IS(CDF_STATE_TEMPLATE_TEMPORARY), IS(CDF_STATE_TEMPLATE_KEYS), IS(CDF_STATE_TEMPLATE_FIELDS), IS(CDF_STATE_TEMPLATE_SKIPPED),
    IS(CDF_STATE_RELATION_NEW), IS(CDF_STATE_RELATION_SOURCE), IS(CDF_STATE_RELATION_TARGET), IS(CDF_STATE_RELATION_SKIPPED),
    IS(CDF_STATE_ORDERED_NEW), IS(CDF_STATE_ORDERED_SOURCE), IS(CDF_STATE_ORDERED_TARGET), IS(CDF_STATE_ORDERED_SKIPPED),
    IS(CDF_STATE_ENTITY_NEW), IS(CDF_STATE_ENTITY_TEMPORARY), IS(CDF_STATE_ENTITY_KEYS), IS(CDF_STATE_ENTITY_SKIPPED), {NULL, 0}};
static const constant CALLS[] = {IS(CDF_CALL_START), IS(CDF_CALL_NEXT), IS(CDF_CALL_SKIP), IS(CDF_CALL_GET_STREAM),
                                 IS(CDF_CALL_PREVIOUS), {NULL, 0}};
static const constant LENGTHS[] = {
    IS(CDF_VERSION), IS(CDF_EXPLAIN_NUMBERS), IS(CDF_LOOKUP_NUMBERS), IS(CDF_RESCUE_NUMBERS), IS(CDF_RESOLVE_NUMBERS),
    IS(CDF_PLACE_NUMBERS), IS(CDF_ANSWER_NUMBERS),
    IS(CDF_ENTRY_NUMBERS), IS(CDF_UNIT_NUMBERS), IS(CDF_UNITS_NUMBERS), IS(CDF_BUILD_PLACE_NUMBERS), IS(CDF_LISTING_ROOM),
    IS(CDF_REQUESTS_MOST), {NULL, 0}};
/* How many bytes each struct has. */
#define SIZE(name) {#name, sizeof(struct name)}
static const constant SIZES[] = {SIZE(cdf_request), SIZE(cdf_builder), SIZE(cdf_batched), {NULL, 0}};

static void stop(const char *why, const char *what) {
    fprintf(stderr, "header: %s %s\n", why, what);
    exit(1);
}

/* The next word of the line. */
static char *word(void) {
    char *next = strtok(NULL, " \n");
    if (!next) stop("a word is", "missing");
    return next;
}

/* A word that names a constant, or a number. */
static uint64_t value(const constant *of, const char *said) {
    for (; of->name; of++)
        if (!strcmp(of->name, said)) return of->value;
    return strtoull(said, NULL, 10);
}

static void tell(const constant *of, uint64_t value) {
    for (; of->name; of++)
        if (of->value == value) {
            fputs(of->name, stdout);
            return;
        }
    printf("%llu", (number)value);
}

/* One entry of an array by its name; many of them; and the head of what some are. */
#define TELL(array, index) printf(" " #index "=%llu", (number)(array)[index])
#define TELL_AS(of, array, index) (fputs(" " #index "=", stdout), tell(of, (array)[index]))
#define FROM(index) (fputs(" " #index "=", stdout), (index))

#endif
