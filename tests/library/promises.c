/*
 * What the header promises of each call, one by one, over short texts that are typed here from the formats. Prints what doesn't hold, a
 * line each; the status is 1 then. Each room is looked at for bytes beside what a call may write.
 */
#include "counted.h"
#include <pthread.h>
#include <rnxcmp.h>
#include <stdio.h>
#include <stdlib.h>
#include <string.h>

enum { ROOM = 1 << 17, MANY = 20000, STACK = 256 << 10 };

#define HEADER                                                                                                                                 \
    "     3.04           OBSERVATION DATA    G                   RINEX VERSION / TYPE\n"                                                       \
    "G    1 C1C                                                  SYS / # / OBS TYPES\n"                                                        \
    "                                                            END OF HEADER\n"
#define FIRST_LINES(date)                                                                                                                      \
    "3.0                 COMPACT RINEX FORMAT                    CRINEX VERS   / TYPE\n"                                                       \
    "RNX2CRX profile 1.0                     " date "CRINEX PROG / DATE\n"
#define DATE "01-Jan-24 00:00"
#define FIRST "> 2024 01 01 00 00  0.0000000  0  1\nG01  20000000.000\n"
#define SECOND "> 2024 01 01 00 00  1.0000000  0  1\nG01  20000100.500\n"
/* The lines of the longest epoch that there is, in bytes: a compaction and an expansion ask for them once, at the start. */
#define BLOCK 10430000
#define COMPACT_FIRST "> 2024 01 01 00 00  0.0000000  0  1      G01\n\n3&20000000000\n"
#define COMPACT_SECOND "                    1\n\n100500\n"
#define SECOND_IN_FULL "> 2024 01 01 00 00  1.0000000  0  1      G01\n\n3&20000100500\n"
#define STRANGE "> 2024 01 01 00 00  1.0000000  0  1\nX01\n"

static const char rinex[] = HEADER FIRST SECOND, compact[] = FIRST_LINES(DATE "     ") HEADER COMPACT_FIRST COMPACT_SECOND;
static const char strange[] = HEADER FIRST STRANGE, before_strange[] = FIRST_LINES("                    ") HEADER COMPACT_FIRST;
static const char fault_of_strange[] = "ERROR line 7 code 13: bad satellite\n", warning_of_strange[] = "WARNING line 7 code 13: bad satellite\n";
static const rnxcmp_answer misused = {0, 0, 0, RNXCMP_MISUSED, 0};
static char output[ROOM], messages[ROOM];
static rnxcmp_answer answer;
static size_t used;
static int wrong;

#define EXPECT(holds) expect(holds, #holds, __func__, __LINE__)

static void expect(int holds, const char *what, const char *where, int line) {
    if (!holds) {
        wrong++;
        printf("%s, line %d: %s\n", where, line, what);
    }
}

static int same(rnxcmp_answer one, rnxcmp_answer other) {
    return one.line == other.line && one.output_length == other.output_length && one.messages_length == other.messages_length
           && one.status == other.status && one.code == other.code;
}

static int is(uint32_t status, uint32_t code, uint64_t line, size_t output_length, size_t messages_length) {
    return same(answer, (rnxcmp_answer){line, output_length, messages_length, status, code});
}

/* Fills both rooms and the answer with what no call writes. */
static void clear(void) {
    memset(output, '#', ROOM);
    memset(messages, '#', ROOM);
    answer = (rnxcmp_answer){77, 77, 77, 77, 77};
    used = 77;
}

/* Whether a room holds a text, and nothing after it. */
static int holds(const char *room, const char *text, size_t length) {
    for (size_t k = length; k < ROOM; k++) {
        if (room[k] != '#') {
            return 0;
        }
    }
    return memcmp(room, text, length) == 0;
}

static int holds_text(const char *room, const char *text) {
    return holds(room, text, strlen(text));
}

static int are_untouched(void) {
    return holds(output, "", 0) && holds(messages, "", 0);
}

static rnxcmp_options dated(const char *date) {
    rnxcmp_options options = RNXCMP_OPTIONS;
    options.date = date;
    return options;
}

/* ---- a call over a whole input, by its kind */

static int call(int kind, const void *input, size_t length, const rnxcmp_options *options, void *out, size_t room, void *told,
                size_t told_room, rnxcmp_answer *place) {
    return kind == 0   ? rnxcmp_compact(input, length, options, out, room, told, told_room, place)
           : kind == 1 ? rnxcmp_expand(input, length, options, out, room, told, told_room, place)
                       : rnxcmp_check(input, length, out, room, told, told_room, place);
}

/* Calls with long rooms; gives the status. */
static int filled(int kind, const char *input, const rnxcmp_options *options) {
    clear();
    int status = call(kind, input, strlen(input), options, output, ROOM, messages, ROOM, &answer);
    EXPECT(status == (int)answer.status);
    return status;
}

static void check_texts(void) {
    rnxcmp_options options = dated(DATE);
    EXPECT(filled(0, rinex, &options) == RNXCMP_GOOD && holds_text(output, compact) && holds_text(messages, ""));
    EXPECT(is(RNXCMP_GOOD, 0, 0, strlen(compact), 0));
    EXPECT(filled(1, compact, NULL) == RNXCMP_GOOD && holds_text(output, rinex) && is(RNXCMP_GOOD, 0, 0, strlen(rinex), 0));
    const char *report = "format 3.04\nsystems G 1\nepochs 2\nevents 0\nobservations 2\nstandard yes\n";
    EXPECT(filled(2, rinex, NULL) == RNXCMP_GOOD && holds_text(output, report) && is(RNXCMP_GOOD, 0, 0, strlen(report), 0));
    EXPECT(rnxcmp_compact(rinex, strlen(rinex), &options, output, ROOM, NULL, 0, NULL) == RNXCMP_GOOD);
    EXPECT(rnxcmp_expand(compact, strlen(compact), NULL, output, ROOM, NULL, 0, NULL) == RNXCMP_GOOD);
    EXPECT(rnxcmp_check(rinex, strlen(rinex), output, ROOM, NULL, 0, NULL) == RNXCMP_GOOD);
    EXPECT(filled(2, HEADER FIRST "> 2024 01 01 00 00  1.0000000  0  1\nG01  20000100.500  \n", NULL) == RNXCMP_WARNINGS && answer.code == 0);
    EXPECT(strstr(output, "standard no 7\n") != NULL);
}

static void check_choices(void) {
    rnxcmp_options options = dated("");
    EXPECT(filled(0, strange, &options) == RNXCMP_FAULT && holds_text(output, before_strange) && holds_text(messages, fault_of_strange));
    EXPECT(is(RNXCMP_FAULT, 13, 7, strlen(before_strange), strlen(fault_of_strange)));
    EXPECT(filled(0, strange, NULL) == RNXCMP_FAULT && holds_text(output, before_strange));
    options.date = NULL;
    EXPECT(filled(0, strange, &options) == RNXCMP_FAULT && holds_text(output, before_strange));
    options.skip = 256;
    EXPECT(filled(0, strange, &options) == RNXCMP_WARNINGS && holds_text(messages, warning_of_strange) && holds_text(output, before_strange));
    EXPECT(is(RNXCMP_WARNINGS, 0, 0, strlen(before_strange), strlen(warning_of_strange)));
    rnxcmp_handle handle = RNXCMP_CLOSED;
    EXPECT(rnxcmp_open_compact(&handle, &options, NULL) == 0 && rnxcmp_feed(&handle, strange, strlen(strange), &used, &answer) == RNXCMP_GOOD);
    rnxcmp_close(&handle);
    options = dated(DATE);
    options.every = 1;
    EXPECT(filled(0, rinex, &options) == RNXCMP_GOOD && holds_text(output, FIRST_LINES(DATE "     ") HEADER COMPACT_FIRST SECOND_IN_FULL));
    const char *broken = FIRST_LINES(DATE "     ") HEADER COMPACT_FIRST "                    1\n\n?\n";
    options = dated("a date that is far too long");
    EXPECT(filled(1, broken, &options) == RNXCMP_FAULT && answer.code == 15 && holds_text(output, HEADER FIRST));
    options.skip = 1, options.every = 7;
    EXPECT(filled(1, broken, &options) == RNXCMP_WARNINGS && answer.code == 0 && holds_text(output, HEADER FIRST));
}

static void check_dates(void) {
    rnxcmp_options options = dated("twenty letters, yes!");
    EXPECT(filled(0, rinex, &options) == RNXCMP_GOOD && holds_text(output, FIRST_LINES("twenty letters, yes!") HEADER COMPACT_FIRST COMPACT_SECOND));
    const char *refused_dates[] = {"twenty-one letters, !", "a\tb", "a\x7f", "\xc3\xa9"};
    for (int k = 0; k < 4; k++) {
        options = dated(refused_dates[k]);
        EXPECT(filled(0, rinex, &options) == RNXCMP_BAD_DATE && is(RNXCMP_BAD_DATE, 0, 0, 0, 0) && are_untouched());
        rnxcmp_handle handle = RNXCMP_CLOSED;
        EXPECT(rnxcmp_open_compact(&handle, &options, &answer) == RNXCMP_BAD_DATE && is(RNXCMP_BAD_DATE, 0, 0, 0, 0) && !handle.is_open);
    }
}

static void check_rooms(void) {
    rnxcmp_options options = dated("");
    size_t length = strlen(before_strange), told = strlen(fault_of_strange);
    clear();
    EXPECT(rnxcmp_compact(strange, strlen(strange), &options, output, length - 1, messages, ROOM, &answer) == RNXCMP_NO_ROOM);
    EXPECT(is(RNXCMP_NO_ROOM, 13, 7, length, told) && holds(output, before_strange, length - 1) && holds_text(messages, fault_of_strange));
    clear();
    EXPECT(rnxcmp_compact(strange, strlen(strange), &options, output, length, messages, told - 1, &answer) == RNXCMP_FAULT);
    EXPECT(is(RNXCMP_FAULT, 13, 7, length, told) && holds_text(output, before_strange) && holds(messages, fault_of_strange, told - 1));
    clear();
    EXPECT(rnxcmp_compact(strange, strlen(strange), &options, NULL, 0, NULL, 0, &answer) == RNXCMP_NO_ROOM && is(RNXCMP_NO_ROOM, 13, 7, length, told));
    options.skip = 1;
    EXPECT(rnxcmp_compact(strange, strlen(strange), &options, NULL, 0, NULL, 0, &answer) == RNXCMP_NO_ROOM);
    EXPECT(is(RNXCMP_NO_ROOM, 0, 0, length, strlen(warning_of_strange)));
    for (int kind = 0; kind < 3; kind++) {
        clear();
        EXPECT(call(kind, NULL, 0, NULL, NULL, 0, NULL, 0, &answer) != RNXCMP_MISUSED && answer.code == (kind == 1 ? 8 : 3) && answer.line == 1);
    }
    EXPECT(filled(0, "", NULL) == RNXCMP_FAULT && answer.code == 3 && answer.line == 1);
}

/* Memory that isn't counted: a text, and then another so many times. */
static char *repeated(const char *first, const char *next, size_t count) {
    size_t length = strlen(first);
    char *text = __real_malloc(length + count * strlen(next) + 1), *at = strcpy(text, first) + length;
    for (size_t k = 0; k < count; k++, at += strlen(next)) {
        strcpy(at, next);
    }
    return text;
}

/* A call takes no memory for what has no room: here 1 MB of output, or 700 KB of messages. */
static void check_no_memory_without_room(void) {
    rnxcmp_options options = RNXCMP_OPTIONS;
    size_t before = held;
    char *good = repeated(FIRST_LINES("                    ") HEADER COMPACT_FIRST, "                    1\n\n0\n", MANY);
    char *bad = repeated(HEADER FIRST, STRANGE, MANY);
    options.skip = 1;
    most_held = held;
    EXPECT(rnxcmp_expand(good, strlen(good), &options, NULL, 0, NULL, 0, &answer) == RNXCMP_NO_ROOM);
    EXPECT(answer.output_length == strlen(HEADER) + (1 + MANY) * strlen(FIRST) && answer.messages_length == 0);
    EXPECT(held == before && most_held - before < BLOCK + 300000);
    most_held = held;
    EXPECT(rnxcmp_compact(bad, strlen(bad), &options, NULL, 0, NULL, 0, &answer) == RNXCMP_NO_ROOM);
    EXPECT(answer.output_length == strlen(before_strange) && answer.messages_length > MANY * 35);
    EXPECT(held == before && most_held - before < BLOCK + 300000);
    __real_free(good);
    __real_free(bad);
}

static void check_limit(void) {
    rnxcmp_options options = dated("");
    const char *inputs[] = {strange, compact};
    const char *outputs[] = {before_strange, rinex};
    for (int kind = 0; kind < 2; kind++) {
        size_t length = strlen(outputs[kind]);
        options.max_output = length;
        EXPECT(filled(kind, inputs[kind], &options) == (kind == 0 ? RNXCMP_FAULT : RNXCMP_GOOD) && holds_text(output, outputs[kind]));
        clear();
        EXPECT(call(kind, inputs[kind], strlen(inputs[kind]), &options, output, length - 1, NULL, 0, &answer) == RNXCMP_NO_ROOM);
        options.max_output = length - 1;
        EXPECT(filled(kind, inputs[kind], &options) == RNXCMP_OUTPUT_LIMIT && is(RNXCMP_OUTPUT_LIMIT, 0, 0, 0, 0) && are_untouched());
        EXPECT(call(kind, inputs[kind], strlen(inputs[kind]), &options, output, 5, NULL, 0, &answer) == RNXCMP_OUTPUT_LIMIT && are_untouched());
        const uint64_t long_limits[] = {((uint64_t)1 << 32) + 5, UINT64_MAX};
        for (int k = 0; k < 2; k++) {
            options.max_output = long_limits[k];
            EXPECT(filled(kind, inputs[kind], &options) != RNXCMP_OUTPUT_LIMIT && holds_text(output, outputs[kind]));
            rnxcmp_handle handle = RNXCMP_CLOSED;
            EXPECT((kind == 0 ? rnxcmp_open_compact : rnxcmp_open_expand)(&handle, &options, &answer) == RNXCMP_GOOD);
            EXPECT(rnxcmp_feed(&handle, inputs[kind], strlen(inputs[kind]), &used, &answer) != RNXCMP_OUTPUT_LIMIT && answer.output_length > 0);
            rnxcmp_close(&handle);
        }
    }
}

/* ---- misuse */

static void check_null(void) {
    rnxcmp_options options = dated("a date that is far too long");
    for (int kind = 0; kind < 3; kind++) {
        const char *input = kind == 1 ? compact : rinex;
        clear();
        EXPECT(call(kind, NULL, 1, &options, output, ROOM, messages, ROOM, &answer) == RNXCMP_MISUSED && same(answer, misused) && are_untouched());
        clear();
        EXPECT(call(kind, input, strlen(input), &options, NULL, 1, messages, ROOM, &answer) == RNXCMP_MISUSED && same(answer, misused) && are_untouched());
        clear();
        EXPECT(call(kind, input, strlen(input), &options, output, ROOM, NULL, 1, &answer) == RNXCMP_MISUSED && same(answer, misused) && are_untouched());
        EXPECT(call(kind, NULL, 1, NULL, output, ROOM, NULL, 0, NULL) == RNXCMP_MISUSED && are_untouched());
    }
}

/* Options as a caller of another version has them. */
static void check_sizes(void) {
    union {
        rnxcmp_options options;
        unsigned char bytes[300];
    } longer;
    const struct {
        size_t size, at;
        int is_good;
    } rows[] = {{0, 0, 0}, {31, 0, 0}, {32, 32, 1}, {33, 0, 1}, {33, 32, 0}, {40, 39, 0}, {40, 40, 1}, {256, 0, 1}, {256, 255, 0}, {257, 0, 0}, {SIZE_MAX, 0, 0}};
    for (size_t k = 0; k < sizeof rows / sizeof rows[0]; k++) {
        memset(&longer, 0, sizeof longer);
        longer.options.size = rows[k].size;
        if (rows[k].at != 0) {
            longer.bytes[rows[k].at] = 1;
        }
        for (int kind = 0; kind < 2; kind++) {
            const char *input = kind == 0 ? rinex : compact;
            clear();
            int status = call(kind, input, strlen(input), &longer.options, output, ROOM, messages, ROOM, &answer);
            EXPECT(rows[k].is_good ? status == RNXCMP_GOOD : status == RNXCMP_MISUSED && same(answer, misused) && are_untouched());
            rnxcmp_handle handle = RNXCMP_CLOSED;
            status = (kind == 0 ? rnxcmp_open_compact : rnxcmp_open_expand)(&handle, &longer.options, &answer);
            EXPECT(rows[k].is_good ? status == RNXCMP_GOOD && handle.is_open : status == RNXCMP_MISUSED && same(answer, misused) && !handle.is_open);
            rnxcmp_close(&handle);
        }
    }
    EXPECT(offsetof(rnxcmp_options, size) == 0 && sizeof(rnxcmp_options) == 32);
}

static void check_null_handles(void) {
    clear();
    EXPECT(rnxcmp_open_compact(NULL, NULL, &answer) == RNXCMP_MISUSED && same(answer, misused));
    EXPECT(rnxcmp_open_expand(NULL, NULL, NULL) == RNXCMP_MISUSED && rnxcmp_open_check(NULL, NULL) == RNXCMP_MISUSED);
    clear();
    EXPECT(rnxcmp_open_expand(NULL, NULL, &answer) == RNXCMP_MISUSED && same(answer, misused));
    clear();
    EXPECT(rnxcmp_open_check(NULL, &answer) == RNXCMP_MISUSED && same(answer, misused));
    clear();
    EXPECT(rnxcmp_feed(NULL, "x", 1, &used, &answer) == RNXCMP_MISUSED && same(answer, misused) && used == 0);
    clear();
    EXPECT(rnxcmp_end(NULL, &answer) == RNXCMP_MISUSED && same(answer, misused));
    clear();
    EXPECT(rnxcmp_take(NULL, output, ROOM, messages, ROOM, &answer) == RNXCMP_MISUSED && same(answer, misused) && are_untouched());
    rnxcmp_close(NULL);
    rnxcmp_handle closed = RNXCMP_CLOSED;
    rnxcmp_close(&closed);
    EXPECT(closed.place == NULL && closed.is_open == 0);
}

/* NULL in the middle of a run changes nothing of it. */
static void check_null_in_a_run(void) {
    rnxcmp_handle handle = RNXCMP_CLOSED;
    rnxcmp_options options = dated(DATE);
    size_t half = strlen(rinex) / 2;
    EXPECT(rnxcmp_open_compact(&handle, &options, &answer) == RNXCMP_GOOD && is(RNXCMP_GOOD, 0, 0, 0, 0) && handle.is_open);
    EXPECT(rnxcmp_feed(&handle, rinex, half, &used, NULL) == RNXCMP_GOOD && used == half);
    clear();
    EXPECT(rnxcmp_feed(&handle, NULL, 1, &used, &answer) == RNXCMP_MISUSED && same(answer, misused) && used == 0);
    clear();
    EXPECT(rnxcmp_feed(&handle, rinex, 1, NULL, &answer) == RNXCMP_MISUSED && same(answer, misused));
    clear();
    EXPECT(rnxcmp_take(&handle, NULL, 1, messages, ROOM, &answer) == RNXCMP_MISUSED && same(answer, misused) && are_untouched());
    clear();
    EXPECT(rnxcmp_take(&handle, output, ROOM, NULL, 1, &answer) == RNXCMP_MISUSED && same(answer, misused) && are_untouched());
    EXPECT(rnxcmp_open_compact(&handle, &options, &answer) == RNXCMP_MISUSED && same(answer, misused) && handle.is_open);
    EXPECT(rnxcmp_open_expand(&handle, NULL, &answer) == RNXCMP_MISUSED && same(answer, misused) && handle.is_open);
    EXPECT(rnxcmp_open_check(&handle, &answer) == RNXCMP_MISUSED && same(answer, misused) && handle.is_open);
    clear();
    EXPECT(rnxcmp_feed(&handle, NULL, 0, &used, &answer) == RNXCMP_GOOD && used == 0 && answer.output_length > 0);
    EXPECT(rnxcmp_feed(&handle, rinex + half, strlen(rinex) - half, &used, &answer) == RNXCMP_GOOD && used == strlen(rinex) - half);
    EXPECT(rnxcmp_end(&handle, &answer) == RNXCMP_GOOD && is(RNXCMP_GOOD, 0, 0, strlen(compact), 0));
    clear();
    EXPECT(rnxcmp_take(&handle, output, ROOM, messages, ROOM, &answer) == RNXCMP_GOOD && holds_text(output, compact) && holds_text(messages, ""));
    EXPECT(is(RNXCMP_GOOD, 0, 0, 0, 0));
    rnxcmp_close(&handle);
    EXPECT(!handle.is_open && rnxcmp_take(&handle, output, ROOM, messages, ROOM, &answer) == RNXCMP_MISUSED);
}

/* ---- handles */

static void check_takings(void) {
    rnxcmp_handle handle = RNXCMP_CLOSED;
    size_t length = strlen(before_strange), told = strlen(fault_of_strange);
    EXPECT(rnxcmp_open_compact(&handle, NULL, &answer) == RNXCMP_GOOD);
    EXPECT(rnxcmp_feed(&handle, strange, strlen(strange) - 1, &used, &answer) == RNXCMP_GOOD && used == strlen(strange) - 1);
    EXPECT(is(RNXCMP_GOOD, 0, 0, length, 0));
    clear();
    EXPECT(rnxcmp_feed(&handle, "\nmore", 5, &used, &answer) == RNXCMP_FAULT && used == 5 && is(RNXCMP_FAULT, 13, 7, length, told));
    EXPECT(rnxcmp_feed(&handle, "x", 1, &used, &answer) == RNXCMP_MISUSED && used == 0 && same(answer, misused));
    EXPECT(rnxcmp_end(&handle, &answer) == RNXCMP_MISUSED && same(answer, misused));
    clear();
    EXPECT(rnxcmp_take(&handle, output, 10, messages, 5, &answer) == RNXCMP_FAULT && is(RNXCMP_FAULT, 13, 7, length - 10, told - 5));
    EXPECT(holds(output, before_strange, 10) && holds(messages, fault_of_strange, 5));
    EXPECT(rnxcmp_take(&handle, output + 10, length - 11, NULL, 0, &answer) == RNXCMP_FAULT && is(RNXCMP_FAULT, 13, 7, 1, told - 5));
    EXPECT(rnxcmp_take(&handle, output + length - 1, ROOM - length, messages + 5, ROOM - 5, &answer) == RNXCMP_FAULT && is(RNXCMP_FAULT, 13, 7, 0, 0));
    EXPECT(holds_text(output, before_strange) && holds_text(messages, fault_of_strange));
    EXPECT(rnxcmp_take(&handle, NULL, 0, NULL, 0, NULL) == RNXCMP_FAULT);
    rnxcmp_close(&handle);
    EXPECT(rnxcmp_open_check(&handle, &answer) == RNXCMP_GOOD && rnxcmp_end(&handle, &answer) == RNXCMP_FAULT && answer.code == 3 && answer.line == 1);
    rnxcmp_close(&handle);
}

/* While so much is ready that nothing more is taken, a feed changes nothing; a taking makes room for more. */
static void check_back_pressure(void) {
    rnxcmp_handle handle = RNXCMP_CLOSED;
    EXPECT(rnxcmp_open_compact(&handle, NULL, &answer) == RNXCMP_GOOD);
    EXPECT(rnxcmp_feed(&handle, HEADER FIRST, strlen(HEADER FIRST), &used, &answer) == RNXCMP_GOOD);
    for (used = 1; used > 0 && answer.output_length < 2 * RNXCMP_READY;) {
        EXPECT(rnxcmp_feed(&handle, SECOND, strlen(SECOND), &used, &answer) == RNXCMP_GOOD);
    }
    rnxcmp_answer before = answer;
    EXPECT(used == 0 && before.output_length >= RNXCMP_READY && before.output_length < RNXCMP_READY + 200);
    EXPECT(rnxcmp_feed(&handle, NULL, 0, &used, &answer) == RNXCMP_GOOD && used == 0 && same(answer, before));
    EXPECT(rnxcmp_take(&handle, output, before.output_length - RNXCMP_READY + 1, NULL, 0, &answer) == RNXCMP_GOOD);
    EXPECT(answer.output_length == RNXCMP_READY - 1);
    EXPECT(rnxcmp_feed(&handle, SECOND, strlen(SECOND), &used, &answer) == RNXCMP_GOOD && used > 0);
    EXPECT(rnxcmp_end(&handle, &answer) != RNXCMP_MISUSED);
    rnxcmp_close(&handle);
}

/* A limit ends a handle's run before the line by which the output would be longer. */
static void check_limit_of_handles(void) {
    rnxcmp_options options = dated(DATE);
    for (int kind = 0; kind < 2; kind++) {
        rnxcmp_handle handle = RNXCMP_CLOSED;
        const char *input = kind == 0 ? rinex : compact, *wanted = kind == 0 ? compact : rinex;
        size_t length = strlen(kind == 0 ? FIRST_LINES(DATE "     ") HEADER COMPACT_FIRST : HEADER FIRST);
        options.max_output = strlen(wanted) - 1;
        EXPECT((kind == 0 ? rnxcmp_open_compact : rnxcmp_open_expand)(&handle, &options, &answer) == RNXCMP_GOOD);
        clear();
        EXPECT(rnxcmp_feed(&handle, input, strlen(input), &used, &answer) == RNXCMP_OUTPUT_LIMIT && used == strlen(input));
        EXPECT(is(RNXCMP_OUTPUT_LIMIT, 0, 0, length, 0));
        EXPECT(rnxcmp_feed(&handle, "x", 1, &used, NULL) == RNXCMP_MISUSED && rnxcmp_end(&handle, NULL) == RNXCMP_MISUSED);
        EXPECT(rnxcmp_take(&handle, output, ROOM, messages, ROOM, &answer) == RNXCMP_OUTPUT_LIMIT && is(RNXCMP_OUTPUT_LIMIT, 0, 0, 0, 0));
        EXPECT(holds(output, wanted, length) && holds_text(messages, ""));
        rnxcmp_close(&handle);
    }
}

/* ---- memory that is refused */

/* A run of a handle over a whole input; gives the status of its last call. */
static int run_of(int kind, const char *input) {
    rnxcmp_handle handle = RNXCMP_CLOSED;
    int status = kind == 0   ? rnxcmp_open_compact(&handle, NULL, &answer)
                 : kind == 1 ? rnxcmp_open_expand(&handle, NULL, &answer)
                             : rnxcmp_open_check(&handle, &answer);
    EXPECT(handle.is_open == (status == RNXCMP_GOOD));
    status = status == RNXCMP_GOOD ? rnxcmp_feed(&handle, input, strlen(input), &used, &answer) : status;
    status = status == RNXCMP_GOOD ? rnxcmp_end(&handle, &answer) : status;
    EXPECT(status == (int)answer.status && (!handle.is_open || rnxcmp_take(&handle, output, ROOM, messages, ROOM, NULL) == status));
    rnxcmp_close(&handle);
    return status;
}

/* With each growth refused in turn, and all later ones, a call and a run end with that, and nothing stays. */
static void check_refusals(void) {
    size_t before = held;
    for (int kind = 0; kind < 3; kind++) {
        const char *input = kind == 1 ? compact : rinex;
        for (int in_pieces = 0; in_pieces < 2; in_pieces++) {
            growths = 0;
            EXPECT((in_pieces ? run_of(kind, input) : filled(kind, input, NULL)) == RNXCMP_GOOD && growths > 0 && held == before);
            for (uint64_t k = growths; k > 0; k--) {
                growths = 0, refused = k, refuse_on = 1;
                int status = in_pieces ? run_of(kind, input) : filled(kind, input, NULL);
                refused = 0;
                EXPECT(status == RNXCMP_FAULT && answer.code == RNXCMP_OUT_OF_MEMORY && held == before);
                EXPECT(in_pieces || (is(RNXCMP_FAULT, RNXCMP_OUT_OF_MEMORY, answer.line, 0, 0) && are_untouched()));
            }
        }
    }
}

/* ---- constants */

static void check_constants(void) {
    EXPECT(RNXCMP_GOOD == 0 && RNXCMP_FAULT == 1 && RNXCMP_WARNINGS == 2 && RNXCMP_NO_ROOM == 3 && RNXCMP_BAD_DATE == 4);
    EXPECT(RNXCMP_BAD_PROCESSOR == 5 && RNXCMP_MISUSED == 6 && RNXCMP_OUTPUT_LIMIT == 7 && RNXCMP_INPUT_TOO_LONG == 2 && RNXCMP_OUT_OF_MEMORY == 22);
    EXPECT(RNXCMP_INTERFACE == 2 && RNXCMP_READY == 65536);
    EXPECT(rnxcmp_words(13) == rnxcmp_words(13) && rnxcmp_words(UINT32_MAX)[0] == 0 && rnxcmp_words(0)[0] == 0 && rnxcmp_words(23)[0] == 0);
    EXPECT(rnxcmp_status_words(UINT32_MAX)[0] == 0 && rnxcmp_status_words(8)[0] == 0);
    const char *status_words[] = {"good", "a fault ended the run", "there are warnings", "the output is longer than its room", "the date is refused",
                                  "the processor is older than x86-64-v2", "the call is misused", "the output is longer than its limit"};
    for (uint32_t status = 0; status < 8; status++) {
        EXPECT(strcmp(rnxcmp_status_words(status), status_words[status]) == 0);
    }
}

static void *check_all(void *unused) {
    check_texts();
    check_choices();
    check_dates();
    check_rooms();
    check_no_memory_without_room();
    check_limit();
    check_null();
    check_sizes();
    check_null_handles();
    check_null_in_a_run();
    check_takings();
    check_back_pressure();
    check_limit_of_handles();
    check_refusals();
    check_constants();
    return unused;
}

/* Checks all in a thread that has as much stack as a call needs; sanitizers need more. */
int main(void) {
    size_t stack = (size_t)STACK;
    pthread_attr_t with_stack;
    pthread_t thread;
#ifdef __SANITIZE_ADDRESS__
    stack *= 8;
#endif
    setvbuf(stdout, NULL, _IOLBF, 0);
    if (pthread_attr_init(&with_stack) != 0 || pthread_attr_setstacksize(&with_stack, stack) != 0
        || pthread_create(&thread, &with_stack, check_all, NULL) != 0 || pthread_join(thread, NULL) != 0) {
        return 2;
    }
    return wrong != 0;
}
