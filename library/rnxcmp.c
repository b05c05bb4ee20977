/*
 * What C programs call, before the proved exports of crates/rnxcmp_c: tests the processor, refuses pointers and options that are misused,
 * and makes of pointers that may be NULL what these ask for. There is no other logic here.
 */
#include "rnxcmp.h"

#include <stdbool.h>
#include <string.h>

/* The proved exports (crates/rnxcmp_c/src/exports.rt, handle.rt): a slice is a pointer and its length. */
rnxcmp_answer rnxcmp_c_compact(const void *input, size_t input_length, uint32_t every, bool skip, const void *date, size_t date_length,
                               uint64_t max_output, void *output, size_t output_room, void *messages, size_t messages_room);
rnxcmp_answer rnxcmp_c_expand(const void *input, size_t input_length, bool skip, uint64_t max_output, void *output, size_t output_room,
                              void *messages, size_t messages_room);
rnxcmp_answer rnxcmp_c_check(const void *input, size_t input_length, void *output, size_t output_room, void *messages,
                             size_t messages_room);

rnxcmp_answer rnxcmp_c_open_compact(rnxcmp_handle *handle, uint32_t every, bool skip, const void *date, size_t date_length,
                                    uint64_t max_output);
rnxcmp_answer rnxcmp_c_open_expand(rnxcmp_handle *handle, bool skip, uint64_t max_output);
rnxcmp_answer rnxcmp_c_open_check(rnxcmp_handle *handle);
rnxcmp_answer rnxcmp_c_feed(rnxcmp_handle *handle, const void *bytes, size_t length, size_t *used);
rnxcmp_answer rnxcmp_c_end(rnxcmp_handle *handle);
rnxcmp_answer rnxcmp_c_take(rnxcmp_handle *handle, void *output, size_t output_room, void *messages, size_t messages_room);
void rnxcmp_c_close(rnxcmp_handle *handle);

/* The words of all faults, made of crates/crx_base/src/fault.rt by words.py. */
static const char *const words[] = {
#include "words.inc"
};

static const char *const status_words[] = {
    [RNXCMP_GOOD] = "good",
    [RNXCMP_FAULT] = "a fault ended the run",
    [RNXCMP_WARNINGS] = "there are warnings",
    [RNXCMP_NO_ROOM] = "the output is longer than its room",
    [RNXCMP_BAD_DATE] = "the date is refused",
    [RNXCMP_BAD_PROCESSOR] = "the processor is older than x86-64-v2",
    [RNXCMP_MISUSED] = "the call is misused",
    [RNXCMP_OUTPUT_LIMIT] = "the output is longer than its limit",
};

/* The most bytes that the options of a later version may have. */
enum { LONGEST_OPTIONS = 256 };

static const rnxcmp_options no_options = RNXCMP_OPTIONS;
static const rnxcmp_answer bad_processor = {0, 0, 0, RNXCMP_BAD_PROCESSOR, 0};
static const rnxcmp_answer misused = {0, 0, 0, RNXCMP_MISUSED, 0};

/* Whether the processor has what the proved code was compiled for. A test may say it in its place. Not each compiler of the last five
   years knows "x86-64-v2" here; SSE4.2 and POPCNT came with it. */
#ifndef RNXCMP_PROCESSOR_IS_GOOD
#ifdef __x86_64__
#define RNXCMP_PROCESSOR_IS_GOOD (__builtin_cpu_supports("ssse3") && __builtin_cpu_supports("sse4.2") && __builtin_cpu_supports("popcnt"))
#else
#define RNXCMP_PROCESSOR_IS_GOOD 1
#endif
#endif

/* A place for a room of length 0: nothing is read or written there. */
static char no_bytes;

static void *place_of(void *room) {
    return room != NULL ? room : &no_bytes;
}

static const void *input_at(const void *input) {
    return input != NULL ? input : &no_bytes;
}

/* Whether a pointer isn't NULL, or goes with the length 0. */
static bool is_there(const void *place, size_t length) {
    return place != NULL || length == 0;
}

/* Whether options have a size that this version knows, with zeros beyond its own fields; NULL is RNXCMP_OPTIONS. */
static bool are_known(const rnxcmp_options *options) {
    if (options == NULL) {
        return true;
    }
    if (options->size < sizeof(rnxcmp_options) || options->size > LONGEST_OPTIONS) {
        return false;
    }
    const unsigned char *bytes = (const unsigned char *)options;
    for (size_t k = sizeof(rnxcmp_options); k < options->size; k++) {
        if (bytes[k] != 0) {
            return false;
        }
    }
    return true;
}

static const rnxcmp_options *chosen(const rnxcmp_options *options) {
    return options != NULL ? options : &no_options;
}

static const char *date_in(const rnxcmp_options *options) {
    return options->date != NULL ? options->date : "";
}

static int answered(rnxcmp_answer answer, rnxcmp_answer *place) {
    if (place != NULL) {
        *place = answer;
    }
    return (int)answer.status;
}

int rnxcmp_compact(const void *input, size_t input_length, const rnxcmp_options *options, void *output, size_t output_room, void *messages,
                   size_t messages_room, rnxcmp_answer *answer) {
    if (!RNXCMP_PROCESSOR_IS_GOOD) {
        return answered(bad_processor, answer);
    }
    if (!is_there(input, input_length) || !are_known(options) || !is_there(output, output_room) || !is_there(messages, messages_room)) {
        return answered(misused, answer);
    }
    const rnxcmp_options *with = chosen(options);
    const char *date = date_in(with);
    return answered(rnxcmp_c_compact(input_at(input), input_length, with->every, with->skip != 0, date, strlen(date), with->max_output,
                                     place_of(output), output_room, place_of(messages), messages_room),
                    answer);
}

int rnxcmp_expand(const void *input, size_t input_length, const rnxcmp_options *options, void *output, size_t output_room, void *messages,
                  size_t messages_room, rnxcmp_answer *answer) {
    if (!RNXCMP_PROCESSOR_IS_GOOD) {
        return answered(bad_processor, answer);
    }
    if (!is_there(input, input_length) || !are_known(options) || !is_there(output, output_room) || !is_there(messages, messages_room)) {
        return answered(misused, answer);
    }
    const rnxcmp_options *with = chosen(options);
    return answered(rnxcmp_c_expand(input_at(input), input_length, with->skip != 0, with->max_output, place_of(output), output_room,
                                    place_of(messages), messages_room),
                    answer);
}

int rnxcmp_check(const void *input, size_t input_length, void *output, size_t output_room, void *messages, size_t messages_room,
                 rnxcmp_answer *answer) {
    if (!RNXCMP_PROCESSOR_IS_GOOD) {
        return answered(bad_processor, answer);
    }
    if (!is_there(input, input_length) || !is_there(output, output_room) || !is_there(messages, messages_room)) {
        return answered(misused, answer);
    }
    return answered(rnxcmp_c_check(input_at(input), input_length, place_of(output), output_room, place_of(messages), messages_room), answer);
}

int rnxcmp_open_compact(rnxcmp_handle *handle, const rnxcmp_options *options, rnxcmp_answer *answer) {
    if (!RNXCMP_PROCESSOR_IS_GOOD) {
        return answered(bad_processor, answer);
    }
    if (handle == NULL || !are_known(options)) {
        return answered(misused, answer);
    }
    const rnxcmp_options *with = chosen(options);
    const char *date = date_in(with);
    return answered(rnxcmp_c_open_compact(handle, with->every, with->skip != 0, date, strlen(date), with->max_output), answer);
}

int rnxcmp_open_expand(rnxcmp_handle *handle, const rnxcmp_options *options, rnxcmp_answer *answer) {
    if (!RNXCMP_PROCESSOR_IS_GOOD) {
        return answered(bad_processor, answer);
    }
    if (handle == NULL || !are_known(options)) {
        return answered(misused, answer);
    }
    const rnxcmp_options *with = chosen(options);
    return answered(rnxcmp_c_open_expand(handle, with->skip != 0, with->max_output), answer);
}

int rnxcmp_open_check(rnxcmp_handle *handle, rnxcmp_answer *answer) {
    if (!RNXCMP_PROCESSOR_IS_GOOD) {
        return answered(bad_processor, answer);
    }
    return answered(handle != NULL ? rnxcmp_c_open_check(handle) : misused, answer);
}

int rnxcmp_feed(rnxcmp_handle *handle, const void *bytes, size_t length, size_t *used, rnxcmp_answer *answer) {
    if (used != NULL) {
        *used = 0;
    }
    if (!RNXCMP_PROCESSOR_IS_GOOD) {
        return answered(bad_processor, answer);
    }
    if (handle == NULL || used == NULL || !is_there(bytes, length)) {
        return answered(misused, answer);
    }
    return answered(rnxcmp_c_feed(handle, input_at(bytes), length, used), answer);
}

int rnxcmp_end(rnxcmp_handle *handle, rnxcmp_answer *answer) {
    if (!RNXCMP_PROCESSOR_IS_GOOD) {
        return answered(bad_processor, answer);
    }
    return answered(handle != NULL ? rnxcmp_c_end(handle) : misused, answer);
}

int rnxcmp_take(rnxcmp_handle *handle, void *output, size_t output_room, void *messages, size_t messages_room, rnxcmp_answer *answer) {
    if (!RNXCMP_PROCESSOR_IS_GOOD) {
        return answered(bad_processor, answer);
    }
    if (handle == NULL || !is_there(output, output_room) || !is_there(messages, messages_room)) {
        return answered(misused, answer);
    }
    return answered(rnxcmp_c_take(handle, place_of(output), output_room, place_of(messages), messages_room), answer);
}

void rnxcmp_close(rnxcmp_handle *handle) {
    if (RNXCMP_PROCESSOR_IS_GOOD && handle != NULL) {
        rnxcmp_c_close(handle);
    }
}

const char *rnxcmp_words(uint32_t code) {
    return code < sizeof words / sizeof words[0] ? words[code] : "";
}

const char *rnxcmp_status_words(uint32_t status) {
    return status < sizeof status_words / sizeof status_words[0] ? status_words[status] : "";
}

const char *rnxcmp_version(void) {
    return RNXCMP_VERSION;
}
