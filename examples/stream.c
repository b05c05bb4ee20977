/*
 * Compacts a RINEX file in pieces, expands what is ready of it at once, and says whether the file came back, or its normal form, as a file
 * does that isn't standard: stream FILE
 *
 * It holds no more of either text than a handle keeps, and what is taken of it into a room.
 */
#include <rnxcmp.h>
#include <stdio.h>
#include <stdlib.h>
#include <string.h>

enum { ROOM = 4096 };

/* The file once more, from which the expansion's bytes are expected. */
static FILE *again;
static unsigned long long compact_length;
static int same = 1;

/* Ends the program where a call didn't go well. */
static void demand_good(int status, const rnxcmp_answer *answer) {
    if (status == RNXCMP_FAULT) {
        fprintf(stderr, "line %llu: %s\n", (unsigned long long)answer->line, rnxcmp_words(answer->code));
    } else if (status != RNXCMP_GOOD) {
        fprintf(stderr, "%s\n", rnxcmp_status_words((uint32_t)status));
    }
    if (status != RNXCMP_GOOD) {
        exit(1);
    }
}

/* Takes what fits of a handle's output, and gives how much that is. Its messages have to be taken as well; they come where units are
   skipped, or after a fault. */
static size_t taken(rnxcmp_handle *handle, char *room, rnxcmp_answer *answer) {
    char messages[ROOM];
    size_t ready = answer->output_length;
    rnxcmp_take(handle, room, ROOM, messages, sizeof messages, answer);
    return ready - answer->output_length;
}

/* Takes what is ready of the expansion, and compares it with the file's next bytes. */
static void compare(rnxcmp_handle *expansion, rnxcmp_answer *answer) {
    char room[ROOM], bytes[ROOM];
    while (answer->output_length > 0) {
        size_t count = taken(expansion, room, answer);
        same &= fread(bytes, 1, count, again) == count && memcmp(room, bytes, count) == 0;
    }
}

/* Takes what is ready of the compact text, and expands it. */
static void expand(rnxcmp_handle *compaction, rnxcmp_answer *answer, rnxcmp_handle *expansion) {
    char room[ROOM];
    while (answer->output_length > 0) {
        size_t count = taken(compaction, room, answer), used;
        compact_length += count;
        for (size_t from = 0; from < count; from += used) {
            rnxcmp_answer expanded;
            demand_good(rnxcmp_feed(expansion, room + from, count - from, &used, &expanded), &expanded);
            compare(expansion, &expanded);
        }
    }
}

int main(int count, char **words) {
    rnxcmp_handle compaction = RNXCMP_CLOSED, expansion = RNXCMP_CLOSED;
    rnxcmp_answer answer;
    char piece[ROOM];
    size_t length, used;
    FILE *file = count == 2 ? fopen(words[1], "rb") : NULL;
    again = count == 2 ? fopen(words[1], "rb") : NULL;
    if (file == NULL || again == NULL) {
        return 1;
    }
    demand_good(rnxcmp_open_compact(&compaction, NULL, &answer), &answer);
    demand_good(rnxcmp_open_expand(&expansion, NULL, &answer), &answer);
    while ((length = fread(piece, 1, sizeof piece, file)) > 0) {
        for (size_t from = 0; from < length; from += used) {
            demand_good(rnxcmp_feed(&compaction, piece + from, length - from, &used, &answer), &answer);
            expand(&compaction, &answer, &expansion);
        }
    }
    if (ferror(file)) {
        return 1;
    }
    demand_good(rnxcmp_end(&compaction, &answer), &answer);
    expand(&compaction, &answer, &expansion);
    demand_good(rnxcmp_end(&expansion, &answer), &answer);
    compare(&expansion, &answer);
    same &= fgetc(again) == EOF;
    printf("compact %llu bytes, in pieces: %s\n", compact_length, same ? "the same again" : "its normal form");
    rnxcmp_close(&compaction);
    rnxcmp_close(&expansion);
    fclose(file);
    fclose(again);
    return 0;
}
