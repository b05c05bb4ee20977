/* The program over the library: calls WAY rnx2crx|crx2rnx|check [--date TEXT] [-e N] [-s] [--most N]. WAY is `whole`, or how many bytes a
   piece has; --most is max_output. It reads standard input, and writes and answers what the program does. */
#include <rnxcmp.h>
#include <stdio.h>
#include <stdlib.h>
#include <string.h>
#ifdef _WIN32
#include <fcntl.h>
#include <io.h>
#endif

enum { LONGEST = 1 << 24, ROOM = 1000 };

static const char *kind;
static rnxcmp_options options = RNXCMP_OPTIONS;
static rnxcmp_answer answer;

static void *asked(size_t size) {
    void *place = malloc(size + 1);
    if (place == NULL) {
        exit(9);
    }
    return place;
}

static int call(const char *input, size_t length, char *output, size_t output_room, char *messages, size_t messages_room) {
    if (strcmp(kind, "rnx2crx") == 0) {
        return rnxcmp_compact(input, length, &options, output, output_room, messages, messages_room, &answer);
    }
    if (strcmp(kind, "crx2rnx") == 0) {
        return rnxcmp_expand(input, length, &options, output, output_room, messages, messages_room, &answer);
    }
    return rnxcmp_check(input, length, output, output_room, messages, messages_room, &answer);
}

/* One call that says how long the rooms have to be, and one that fills them. */
static int whole(void) {
    char *input = asked(LONGEST);
    size_t length = fread(input, 1, LONGEST, stdin);
    call(input, length, NULL, 0, NULL, 0);
    size_t output_room = answer.output_length, messages_room = answer.messages_length;
    char *output = asked(output_room), *messages = asked(messages_room);
    int status = call(input, length, output, output_room, messages, messages_room);
    fwrite(output, 1, output_room, stdout);
    fwrite(messages, 1, messages_room, stderr);
    return status;
}

static void take_all(rnxcmp_handle *handle) {
    char output[ROOM], messages[ROOM];
    while (answer.output_length > 0 || answer.messages_length > 0) {
        size_t ready = answer.output_length, told = answer.messages_length;
        rnxcmp_take(handle, output, ROOM, messages, ROOM, &answer);
        fwrite(output, 1, ready - answer.output_length, stdout);
        fwrite(messages, 1, told - answer.messages_length, stderr);
    }
}

/* The loop of the header. */
static int pieces(size_t piece) {
    rnxcmp_handle handle = RNXCMP_CLOSED;
    int status = strcmp(kind, "rnx2crx") == 0   ? rnxcmp_open_compact(&handle, &options, &answer)
                 : strcmp(kind, "crx2rnx") == 0 ? rnxcmp_open_expand(&handle, &options, &answer)
                                                : rnxcmp_open_check(&handle, &answer);
    char *bytes = asked(piece);
    size_t length, used;
    while (status == RNXCMP_GOOD && (length = fread(bytes, 1, piece, stdin)) > 0) {
        for (size_t from = 0; status == RNXCMP_GOOD && from < length; from += used) {
            status = rnxcmp_feed(&handle, bytes + from, length - from, &used, &answer);
            take_all(&handle);
        }
    }
    if (status == RNXCMP_GOOD) {
        status = rnxcmp_end(&handle, &answer);
        take_all(&handle);
    }
    rnxcmp_close(&handle);
    return status;
}

int main(int count, char **words) {
#ifdef _WIN32
    for (int stream = 0; stream < 3; stream++) {
        _setmode(stream, _O_BINARY);
    }
#endif
    kind = count > 2 ? words[2] : "";
    for (int k = 3; k < count; k++) {
        if (strcmp(words[k], "-s") == 0) {
            options.skip = 1;
        } else if (k + 1 == count) {
            return 9;
        } else if (strcmp(words[k], "--date") == 0) {
            options.date = words[++k];
        } else if (strcmp(words[k], "-e") == 0) {
            options.every = (uint32_t)atoi(words[++k]);
        } else {
            options.max_output = strtoull(words[++k], NULL, 10);
        }
    }
    return strcmp(words[1], "whole") == 0 ? whole() : pieces((size_t)atoi(words[1]));
}
