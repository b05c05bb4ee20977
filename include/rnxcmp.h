/*
 * rnxcmp: RINEX 3.0x observation files and Compact RINEX 3.0 (Hatanaka's format), over memory. Version 2 of the interface.
 *
 *     rnxcmp_compact   RINEX 3.0x to Compact RINEX 3.0
 *     rnxcmp_expand    Compact RINEX 3.0 to RINEX 3.0x
 *     rnxcmp_check     a report on RINEX 3.0x: its content, and whether it is standard
 *
 * If an input arrives in pieces, rnxcmp_open_compact, rnxcmp_open_expand and rnxcmp_open_check do the same from call to call, with
 * rnxcmp_feed, rnxcmp_take, rnxcmp_end and rnxcmp_close.
 *
 * Each of the first three reads a whole input and writes into two buffers of the caller, the rooms: the output, and the messages, which are
 * the lines that the program rnxcmp writes to standard error. A room is a pointer and its length in bytes; if the length is 0, the pointer
 * may be NULL. No byte 0 ends a text.
 *
 *     rnxcmp_options options = RNXCMP_OPTIONS;
 *     options.date = "01-Jan-24 00:00";
 *     rnxcmp_answer answer;
 *     int status = rnxcmp_compact(input, length, &options, room, room_length, NULL, 0, &answer);
 *     if (status == RNXCMP_NO_ROOM) {
 *         // make a room of answer.output_length bytes, and call again
 *     } else if (status == RNXCMP_FAULT) {
 *         fprintf(stderr, "line %llu: %s\n", (unsigned long long)answer.line, rnxcmp_words(answer.code));
 *     } else if (status > RNXCMP_WARNINGS) {
 *         fprintf(stderr, "%s\n", rnxcmp_status_words(status));
 *     }
 *
 * Any number of threads may call at once, except on the same handle. No call keeps a pointer, opens a file, prints or ends the
 * process. The input, the two rooms and the answer must not overlap, and nothing else may change them during the call. A call needs 256
 * KiB of stack. It allocates by malloc: for each text less than twice the bytes that its room holds, three times while realloc copies;
 * the state that the run needs of earlier lines; and, if it compacts or expands, 10.4 MB at its start, of which usual files use a
 * hundredth. It isn't for signal handlers.
 *
 * Changes from version 1, whose library is librnxcmp.so.1:
 * - rnxcmp_options begins with its own size and has `max_output`; the status RNXCMP_OUTPUT_LIMIT is new.
 * - rnxcmp_feed stores in `used` how many bytes it took: none while RNXCMP_READY bytes are ready and not taken.
 * - Bytes over the limit of an input end the run of a handle; before, they were refused, and the run continued.
 * - If the rooms of a call are small, it allocates no memory for text that doesn't fit.
 * - NULL with a length that isn't 0, and NULL for a handle, are RNXCMP_MISUSED; rnxcmp_close takes NULL.
 * - rnxcmp_status_words is new.
 */
#ifndef RNXCMP_H
#define RNXCMP_H

#include <stddef.h>
#include <stdint.h>

#ifdef __cplusplus
extern "C" {
#endif

/* The version of this interface. */
#define RNXCMP_INTERFACE 2

/* The status that a call returns. rnxcmp_status_words has words for each. */
enum {
    /* Success. For a check: the file is standard. */
    RNXCMP_GOOD = 0,
    /*
     * A fault ended the run; `code` and `line` identify it. The output has the header lines, event lines and whole epochs before it; a
     * check has none. After RNXCMP_INPUT_TOO_LONG and RNXCMP_OUT_OF_MEMORY a call over a whole input has changed neither room, and both
     * lengths are 0; a handle then has the texts of the lines before.
     */
    RNXCMP_FAULT = 1,
    /* Units were skipped, and the messages say which. For a check: the file is accepted, but isn't standard. */
    RNXCMP_WARNINGS = 2,
    /*
     * The output has more bytes than its room, which has its first bytes; `output_length` is the length of the room that it needs. This
     * status hides which of the three above it is: if `code` isn't 0, a fault ended the run, and `code` and `line` identify it.
     */
    RNXCMP_NO_ROOM = 3,
    /* The date has more than 20 bytes, or one outside 32 to 126. Neither room was changed. */
    RNXCMP_BAD_DATE = 4,
    /* The processor is older than x86-64-v2. Neither room was changed. */
    RNXCMP_BAD_PROCESSOR = 5,
    /*
     * NULL with a length that isn't 0, NULL for a handle or for `used`, options of a size that this library doesn't know, or a handle in
     * a state that the call refuses: not open, open already, or its run has ended. Nothing was done, and the other fields and `used` are 0.
     */
    RNXCMP_MISUSED = 6,
    /*
     * The output has more bytes than `max_output`; `line` and `code` are 0, and no message says this. A call over a whole input has changed
     * neither room, and both lengths are 0. The run of a handle has ended: it has the output of the lines before the first one with which
     * the output would be longer, that is header lines, event lines and whole epochs, and the warnings of those lines.
     */
    RNXCMP_OUTPUT_LIMIT = 7
};

/* The codes of two faults that no line has; rnxcmp_words has words for all codes. */
enum { RNXCMP_INPUT_TOO_LONG = 2, RNXCMP_OUT_OF_MEMORY = 22 };

/* The choices for a run. All fields except `size` may be 0. */
typedef struct rnxcmp_options {
    /*
     * sizeof(rnxcmp_options), as the caller compiled it. Longer options, of a later version, are taken if they have at most 256 bytes, and
     * the bytes after this version's fields are 0; any other size is RNXCMP_MISUSED.
     */
    size_t size;
    /* Each `every`-th epoch, counted from 0, is in full; 0: only those that must be, the first one and any after events and warnings. */
    uint32_t every;
    /* If it isn't 0, an epoch with a fault is skipped with a warning, and the run continues. */
    uint32_t skip;
    /* The date in columns 41 to 60 of compact text's second line, ended by a byte 0; NULL is the same as "" and leaves blanks. */
    const char *date;
    /* The most bytes that the output may have; 0: no limit. See RNXCMP_OUTPUT_LIMIT. */
    uint64_t max_output;
} rnxcmp_options;

#define RNXCMP_OPTIONS                                                                                                                         \
    { sizeof(rnxcmp_options), 0, 0, NULL, 0 }

/* The result of a call. */
typedef struct rnxcmp_answer {
    /* The line of the fault that ended the run, from 1; 0 if no line was read, or no fault ended it. */
    uint64_t line;
    /* The bytes of the whole output, whatever its room is. Of a handle: the bytes of it that are ready and not taken. */
    size_t output_length;
    /*
     * The bytes of all messages, whatever their room is. If they don't fit, the room has their first bytes, and the status is the same. Of
     * a handle: the bytes of them that are ready and not taken.
     */
    size_t messages_length;
    /* The status, which the call also returns. */
    uint32_t status;
    /* The code of the fault that ended the run; 0 if none did. */
    uint32_t code;
} rnxcmp_answer;

/*
 * Compacts `input_length` bytes of RINEX 3.0x, at most 2^40. Returns the status. `options` may be NULL, which is the same as
 * RNXCMP_OPTIONS, and so may `answer`.
 */
int rnxcmp_compact(const void *input, size_t input_length, const rnxcmp_options *options, void *output, size_t output_room, void *messages,
                   size_t messages_room, rnxcmp_answer *answer);

/* Expands Compact RINEX 3.0, in the same way. It uses only the options `skip` and `max_output`. */
int rnxcmp_expand(const void *input, size_t input_length, const rnxcmp_options *options, void *output, size_t output_room, void *messages,
                  size_t messages_room, rnxcmp_answer *answer);

/*
 * Checks RINEX 3.0x, in the same way. The output is a report, such as
 *
 *     format 3.05
 *     systems G 20 R 16
 *     epochs 2880
 *     events 0
 *     observations 1043212
 *     standard yes
 *
 * After a fault there is none.
 */
int rnxcmp_check(const void *input, size_t input_length, void *output, size_t output_room, void *messages, size_t messages_room,
                 rnxcmp_answer *answer);

/*
 * A run that continues from call to call. The caller owns the struct; all zeros make a closed one. From the call that opens it to
 * rnxcmp_close only these calls may read or write it, one at a time, whichever thread makes them; it may not be copied or moved.
 *
 *     rnxcmp_handle handle = RNXCMP_CLOSED;
 *     rnxcmp_answer answer;
 *     size_t used;
 *     int status = rnxcmp_open_expand(&handle, NULL, &answer);
 *     while (status == RNXCMP_GOOD && (length = fread(bytes, 1, sizeof bytes, input)) > 0) {
 *         for (size_t from = 0; status == RNXCMP_GOOD && from < length; from += used) {
 *             status = rnxcmp_feed(&handle, bytes + from, length - from, &used, &answer);
 *             write_ready(&handle, &answer);
 *         }
 *     }
 *     if (status == RNXCMP_GOOD && !ferror(input)) {
 *         status = rnxcmp_end(&handle, &answer);
 *         write_ready(&handle, &answer);
 *     }
 *     rnxcmp_close(&handle);
 *
 * A read that failed isn't the input's end. write_ready takes both texts, of which the answer says how many bytes are ready:
 *
 *     while (answer->output_length > 0 || answer->messages_length > 0) {
 *         size_t output_length = answer->output_length, messages_length = answer->messages_length;
 *         rnxcmp_take(handle, room, sizeof room, lines, sizeof lines, answer);
 *         fwrite(room, 1, output_length - answer->output_length, output);
 *         fwrite(lines, 1, messages_length - answer->messages_length, stderr);
 *     }
 *
 * The bytes that were taken, and then those that are ready, are the texts of a call over the whole input. While the run continues, they
 * are the texts of all lines whose line ends were fed. After the end they are whole, and the status, `code` and `line` are those of such a
 * call if its room is large enough and its memory doesn't run out. There are three exceptions:
 * - After RNXCMP_OUTPUT_LIMIT they are the texts of the first lines, as far as these keep to the limit.
 * - After RNXCMP_INPUT_TOO_LONG they are the texts of the lines that have line ends, and then the message of this fault. A call over such
 *   an input knows its length before it reads, so it returns line 0 and no text.
 * - After RNXCMP_OUT_OF_MEMORY they are the texts of the lines before `line` (of all lines if the end needed the memory), maybe also
 *   warnings of that line, and then the message of this fault or nothing, each a whole line; or, if the message of a fault at `line`
 *   couldn't be stored, both texts without that message.
 * So there is at most one message of an error. The output never has more than `max_output` bytes (0: no limit).
 *
 * The memory of a handle is bounded, whatever was fed. It keeps:
 * - of the last line, while that has no line end, at most a byte more than the longest line has, because it is too long then, whatever
 *   follows;
 * - the state that the run needs of earlier lines;
 * - the bytes that were made and not taken: of each text at most 16.5 MB, and while the run continues, of both together, less than
 *   RNXCMP_READY bytes and then the texts of one line;
 * - of the bytes that were taken, at most the number of those that wait.
 */
typedef struct rnxcmp_handle {
    void *place;
    unsigned char is_open;
} rnxcmp_handle;

#define RNXCMP_CLOSED                                                                                                                          \
    { NULL, 0 }

/*
 * Opens a closed handle. Returns RNXCMP_GOOD; RNXCMP_FAULT with RNXCMP_OUT_OF_MEMORY; RNXCMP_BAD_DATE; RNXCMP_BAD_PROCESSOR; or
 * RNXCMP_MISUSED, for example if it is open. Unless it returns RNXCMP_GOOD, the handle is unchanged. `options` and `answer` may be NULL.
 */
int rnxcmp_open_compact(rnxcmp_handle *handle, const rnxcmp_options *options, rnxcmp_answer *answer);

/* Opens it in the same way. It uses only the options `skip` and `max_output`. */
int rnxcmp_open_expand(rnxcmp_handle *handle, const rnxcmp_options *options, rnxcmp_answer *answer);

int rnxcmp_open_check(rnxcmp_handle *handle, rnxcmp_answer *answer);

/* While this many bytes of output and messages together are ready, rnxcmp_feed takes none. */
#define RNXCMP_READY 65536

/*
 * Feeds bytes of the input, which may end anywhere, and stores in `used` how many of `length` it took. It takes bytes while fewer than
 * RNXCMP_READY bytes are ready; unless the run ends, it stops at the line end with which RNXCMP_READY are. So it takes at least one byte
 * if nothing is ready. If it takes fewer than `length`, take the ready bytes and feed the rest, except after RNXCMP_INPUT_TOO_LONG. `used`
 * may not be NULL, and `bytes` only if `length` is 0.
 *
 * Returns RNXCMP_GOOD if the run continues. RNXCMP_FAULT: a fault has ended the run, whatever follows; `code` and `line` identify it.
 * RNXCMP_OUTPUT_LIMIT: the output would have more than `max_output` bytes, and the run has ended, whatever follows. With both `used` is
 * `length`, or the bytes that the input may still have if these are fewer. RNXCMP_INPUT_TOO_LONG is the exception: it is returned when all
 * bytes that an input may have were taken and there is one more; its line is the one after the last LF, and `used` is 0. The line of
 * RNXCMP_OUT_OF_MEMORY has its LF among the bytes of this call, or is the line of the fault whose message couldn't be stored.
 */
int rnxcmp_feed(rnxcmp_handle *handle, const void *bytes, size_t length, size_t *used, rnxcmp_answer *answer);

/*
 * Ends the input, whatever is ready before. The status is that of the whole input, 0, 1 or 2, and the rest of both texts is ready; or it is
 * RNXCMP_OUTPUT_LIMIT, or RNXCMP_FAULT with RNXCMP_OUT_OF_MEMORY at the last line or at the line of the fault whose message couldn't be
 * stored.
 */
int rnxcmp_end(rnxcmp_handle *handle, rnxcmp_answer *answer);

/*
 * Moves the ready bytes of the output and of the messages into two rooms, as far as they fit. The answer says how many are ready after it,
 * and has status 0 while the run continues, and after its end the status, `code` and `line` of the end. All calls together take time in
 * proportion to the bytes that they move.
 */
int rnxcmp_take(rnxcmp_handle *handle, void *output, size_t output_room, void *messages, size_t messages_room, rnxcmp_answer *answer);

/* Closes a handle and frees its memory; a closed one stays as it is, and NULL does nothing. */
void rnxcmp_close(rnxcmp_handle *handle);

/* Returns the words of a fault, such as "bad satellite" for 13, or "" if no fault has this code. They stay for ever. */
const char *rnxcmp_words(uint32_t code);

/* Returns the words of a status, such as "the output is longer than its room" for 3, or "" if it isn't from 0 to 7. They stay for ever. */
const char *rnxcmp_status_words(uint32_t status);

/* Returns the version of this library, such as "1.0.0". It stays for ever. */
const char *rnxcmp_version(void);

#ifdef __cplusplus
}
#endif

#endif
