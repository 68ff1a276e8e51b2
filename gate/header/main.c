/* Calls every function of include/ as the lines of standard input say (model/header.rs writes them), and writes a line for each: what it
 * returned and all that it wrote, in the names of the headers' constants. run compares that with what the model says. */
#include "told.h"

static void explain(void) {
    const uint64_t *e = explanation.is;
    size_t at;
    returned("cdf_explain", cdf_explain(stream.is, stream.length, explanation.is));
    TELL(e, CDF_EXPLAIN_OFFSET);
    TELL(e, CDF_EXPLAIN_COUNT);
    at = FROM(CDF_EXPLAIN_UNITS);
    for (size_t end = at + 8; at < end; at += 2) {
        tell(IDS, e[at]);
        printf(",%llu,", (number)e[at + 1]);
    }
    TELL(e, CDF_EXPLAIN_CHOICES);
    at = FROM(CDF_EXPLAIN_IDS);
    for (size_t end = at + 14; at < end; at++) {
        tell(IDS, e[at]);
        putchar(',');
    }
    putchar('\n');
}

static void look_up(void) {
    bytes first = in_hex(), second = in_hex(), name = in_hex();
    uint64_t key_id = value(IDS, word());
    bytes key = in_hex(), field = in_hex();
    returned("cdf_lookup", cdf_lookup(first.is, first.length, second.is, second.length, name.is, name.length, key_id, key.is, key.length,
                                      field.is, field.length, found.is));
    TELL(found.is, CDF_LOOKUP_OFFSET);
    TELL(found.is, CDF_LOOKUP_WHICH);
    TELL(found.is, CDF_LOOKUP_START);
    TELL(found.is, CDF_LOOKUP_LENGTH);
    putchar('\n');
    free(first.is), free(second.is), free(name.is), free(key.is), free(field.is);
}

/* Into a buffer of so many bytes. */
static void rescue(void) {
    const uint64_t *r = rescued.is;
    size_t at;
    bytes out = many(value(LENGTHS, word()), 0xEE);
    returned("cdf_rescue", cdf_rescue(stream.is, stream.length, out.is, out.length, rescued.is));
    TELL(r, CDF_RESCUE_LENGTH);
    TELL(r, CDF_RESCUE_COUNT);
    at = FROM(CDF_RESCUE_RUNS);
    tell_numbers(r + at, CDF_RESCUE_NUMBERS - at);
    tell_sum(out.is, out.length);
    putchar('\n');
    free(out.is);
}

/* Into a list of so many numbers, and one more behind it. */
static void resolve(void) {
    const uint64_t *r = resolved.is;
    size_t numbers = value(LENGTHS, word());
    uint64_t *ranks = (uint64_t *)malloc((numbers + 1) * sizeof *ranks);
    if (!ranks) stop("no", "memory");
    clear(ranks, numbers + 1);
    returned("cdf_resolve", cdf_resolve(stream.is, stream.length, numbers ? ranks : NULL, numbers, resolved.is));
    TELL(r, CDF_RESOLVE_OFFSET);
    TELL(r, CDF_RESOLVE_COUNT);
    if (r[CDF_RESOLVE_COUNT] > numbers) stop("more ranks than there is room for:", "cdf_resolve");
    tell_numbers(ranks, r[CDF_RESOLVE_COUNT]);
    for (size_t i = r[CDF_RESOLVE_COUNT]; i <= numbers; i++)
        if (ranks[i] != UNWRITTEN) stop("written behind the ranks of", "cdf_resolve");
    putchar('\n');
    free(ranks);
}

static void list(void) {
    bytes text = many(value(LENGTHS, word()), 0xEE);
    returned("cdf_listing", cdf_listing(stream.is, stream.length, text.is, text.length, one.is));
    printf(" %llu", (number)one.is[0]);
    tell_sum(text.is, text.length);
    putchar('\n');
    free(text.is);
}

/* A log for so many entries and one number more, and codes: constants or numbers. By either reader. */
static void replay(const char *call) {
    size_t numbers = CDF_ENTRY_NUMBERS * value(LENGTHS, word());
    size_t count = value(LENGTHS, word());
    bytes calls = many(count, 0);
    uint64_t *log = (uint64_t *)malloc((numbers + 1) * sizeof *log);
    if (!log) stop("no", "memory");
    clear(log, numbers + 1);
    for (size_t i = 0; i < count; i++) calls.is[i] = (uint8_t)value(CALLS, word());
    if (strcmp(call, "cdf_replay"))
        returned(call, cdf_table_replay(stream.is, stream.length, calls.is, calls.length, numbers ? log : NULL, numbers, one.is));
    else
        returned(call, cdf_replay(stream.is, stream.length, calls.is, calls.length, numbers ? log : NULL, numbers, one.is));
    printf(" %llu", (number)one.is[0]);
    for (uint64_t i = 0; i < one.is[0]; i++) {
        const uint64_t *entry = log + CDF_ENTRY_NUMBERS * i;
        TELL_AS(NUMBERS, entry, CDF_ENTRY_NUMBER);
        TELL(entry, CDF_ENTRY_OFFSET);
        TELL(entry, CDF_ENTRY_PART_START);
        TELL(entry, CDF_ENTRY_PART_LENGTH);
        TELL_AS(IDS, entry, CDF_ENTRY_ID);
        TELL_AS(ACTIONS, entry, CDF_ENTRY_ACTION);
        TELL(entry, CDF_ENTRY_START);
        TELL(entry, CDF_ENTRY_OWN_END);
        TELL(entry, CDF_ENTRY_END);
        TELL(entry, CDF_ENTRY_DEPTH);
        TELL(entry, CDF_ENTRY_RANK);
    }
    for (size_t i = CDF_ENTRY_NUMBERS * one.is[0]; i <= numbers; i++)
        if (log[i] != UNWRITTEN) stop("written behind the entries of", call);
    putchar('\n');
    free(log), free(calls.is);
}

/* A list of so many numbers, and one more behind it. */
static void units(void) {
    size_t numbers = value(LENGTHS, word());
    uint64_t *list = (uint64_t *)malloc((numbers + 1) * sizeof *list);
    if (!list) stop("no", "memory");
    clear(list, numbers + 1);
    returned("cdf_units", cdf_units(stream.is, stream.length, place.is, numbers ? list : NULL, numbers, batch.is));
    TELL(batch.is, CDF_UNITS_OFFSET);
    TELL(batch.is, CDF_UNITS_COUNT);
    for (uint64_t i = 0; i < batch.is[CDF_UNITS_COUNT]; i++) {
        const uint64_t *unit = list + CDF_UNIT_NUMBERS * i;
        TELL_AS(IDS, unit, CDF_UNIT_ID);
        TELL_AS(ACTIONS, unit, CDF_UNIT_ACTION);
        TELL(unit, CDF_UNIT_START);
        TELL(unit, CDF_UNIT_OWN_END);
        TELL(unit, CDF_UNIT_END);
        TELL(unit, CDF_UNIT_DEPTH);
        TELL(unit, CDF_UNIT_RANK);
    }
    for (size_t i = CDF_UNIT_NUMBERS * batch.is[CDF_UNITS_COUNT]; i <= numbers; i++)
        if (list[i] != UNWRITTEN) stop("written behind the units of", "cdf_units");
    free(list);
}

/* The builder's place from words: bytes written, count, and state and start of each slot. */
static void set_building(void) {
    uint64_t *p = building.is;
    p[CDF_BUILD_PLACE_WRITTEN] = value(LENGTHS, word());
    p[CDF_BUILD_PLACE_COUNT] = value(LENGTHS, word());
    p[CDF_BUILD_PLACE_INNERMOST] = value(STATES, word());
    p[CDF_BUILD_PLACE_INNERMOST + 1] = value(LENGTHS, word());
    for (size_t at = CDF_BUILD_PLACE_OUTER; at < CDF_BUILD_PLACE_OUTER + 6; at += 2) {
        p[at] = value(STATES, word());
        p[at + 1] = value(LENGTHS, word());
    }
}

static void build_next(void) {
    uint64_t id = value(IDS, word()), action = value(ACTIONS, word());
    bytes data = in_hex();
    returned("cdf_build_next", cdf_build_next(buffer.is, buffer.length, building.is, id, action, data.is, data.length));
    free(data.is);
}

static void build_add_stream(void) {
    bytes group = in_hex();
    returned("cdf_build_add_stream", cdf_build_add_stream(buffer.is, buffer.length, building.is, group.is, group.length));
    free(group.is);
}

/* A list of so many requests, and its text. The place goes from the array into the struct and back, each number by its name. */
static void build_batch(void) {
    uint64_t *p = building.is, *in = p + CDF_BUILD_PLACE_INNERMOST, *out = p + CDF_BUILD_PLACE_OUTER;
    size_t count = value(LENGTHS, word());
    struct cdf_request *requests = count ? (struct cdf_request *)malloc(count * sizeof *requests) : NULL;
    struct cdf_builder at;
    struct cdf_batched told;
    bytes text;
    if (count && !requests) stop("no", "memory");
    for (size_t i = 0; i < count; i++) {
        requests[i].id = value(IDS, word());
        requests[i].action = value(ACTIONS, word());
        requests[i].begin = value(LENGTHS, word());
        requests[i].end = value(LENGTHS, word());
    }
    text = in_hex();
    at.written = p[CDF_BUILD_PLACE_WRITTEN], at.count = p[CDF_BUILD_PLACE_COUNT];
    at.state = in[0], at.start = in[1], at.state1 = out[0], at.start1 = out[1];
    at.state2 = out[2], at.start2 = out[3], at.state3 = out[4], at.start3 = out[5];
    told = cdf_build_batch(at, buffer.is, buffer.length, requests, count, text.is, text.length);
    at = told.place;
    p[CDF_BUILD_PLACE_WRITTEN] = at.written, p[CDF_BUILD_PLACE_COUNT] = at.count;
    in[0] = at.state, in[1] = at.start, out[0] = at.state1, out[1] = at.start1;
    out[2] = at.state2, out[3] = at.start2, out[4] = at.state3, out[5] = at.start3;
    returned("cdf_build_batch", told.number);
    printf(" rank=%llu", (number)told.rank);
    free(requests), free(text.is);
}

#define IS_CALL(name) !strcmp(call, #name)
/* A call of the reader; true if this is it. */
#define READS(name) (IS_CALL(name) && (returned(#name, name(stream.is, stream.length, place.is, answer.is)), 1))

static void run(const char *call) {
    uint64_t before[CDF_PLACE_NUMBERS], building_before[CDF_BUILD_PLACE_NUMBERS];
    memcpy(before, place.is, sizeof before);
    memcpy(building_before, building.is, sizeof building_before);
    CLEAR(answer.is), CLEAR(one.is), CLEAR(batch.is), CLEAR(explanation.is), CLEAR(found.is), CLEAR(rescued.is),
        CLEAR(resolved.is);
    if (IS_CALL(stream)) {
        free(stream.is);
        stream = in_hex();
    } else if (IS_CALL(buffer)) {
        free(buffer.is);
        buffer = many(value(LENGTHS, word()), 0xEE);
        memset(building.is, 0, sizeof building.is);
    } else if (IS_CALL(building)) {
        set_building();
    } else if (IS_CALL(cdf_version)) {
        printf("cdf_version %llu", (number)cdf_version());
        for (const constant *of = LENGTHS; of->name; of++) printf(" %s=%llu", of->name, (number)of->value);
        for (const constant *of = SIZES; of->name; of++) printf(" %s=%llu", of->name, (number)of->value);
        putchar('\n');
    } else if (IS_CALL(cdf_check)) {
        returned(call, cdf_check(stream.is, stream.length, one.is));
        printf(" %llu\n", (number)one.is[0]);
    } else if (IS_CALL(cdf_explain)) {
        explain();
    } else if (IS_CALL(cdf_lookup)) {
        look_up();
    } else if (IS_CALL(cdf_rescue)) {
        rescue();
    } else if (IS_CALL(cdf_resolve)) {
        resolve();
    } else if (IS_CALL(cdf_listing)) {
        list();
    } else if (IS_CALL(cdf_replay) || IS_CALL(cdf_table_replay)) {
        replay(call);
    } else if (IS_CALL(cdf_units)) {
        units();
        tell_place(before);
    } else if (READS(cdf_first) || READS(cdf_next) || READS(cdf_skip) || READS(cdf_get_stream) || READS(cdf_previous) ||
               READS(cdf_abnormal_end) || READS(cdf_table_first) || READS(cdf_table_next) || READS(cdf_table_skip)) {
        tell_answer();
        tell_place(before);
    } else if (IS_CALL(cdf_build_first)) {
        returned(call, cdf_build_first(buffer.is, buffer.length, value(IDS, word()), building.is));
        tell_building(building_before);
    } else if (IS_CALL(cdf_build_next)) {
        build_next();
        tell_building(building_before);
    } else if (IS_CALL(cdf_build_add_stream)) {
        build_add_stream();
        tell_building(building_before);
    } else if (IS_CALL(cdf_build_batch)) {
        build_batch();
        tell_building(building_before);
    } else if (IS_CALL(cdf_build_finish)) {
        returned(call, cdf_build_finish(buffer.is, buffer.length, building.is, one.is));
        printf(" %llu", (number)one.is[0]);
        tell_building(building_before);
    } else {
        stop("no call:", call);
    }
}

int main(void) {
    static char line[1 << 19];
    SET(place), SET(answer), SET(one), SET(batch), SET(explanation), SET(found), SET(rescued), SET(resolved), SET(building);
    while (fgets(line, sizeof line, stdin)) {
        if (!strchr(line, '\n')) stop("a line is", "too long");
        run(strtok(line, " \n"));
    }
    return 0;
}
