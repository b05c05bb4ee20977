/*
 * Many threads at once, for a sanitizer of threads: threads COUNT ROUNDS < FILE. Each compacts and expands the file, by calls over the whole
 * of it and by a handle of its own, and one handle goes from thread to thread. The status is 1 where a thread got something else.
 */
#include <pthread.h>
#include <rnxcmp.h>
#include <stdio.h>
#include <stdlib.h>
#include <string.h>

enum { MOST = 64, PIECE = 1000 };

static char *file;
static size_t file_length;
static int rounds;

/* Expands compact text by a handle, in pieces; gives how many bytes that makes. */
static size_t expanded(rnxcmp_handle *handle, const char *compact, size_t length, char *back) {
    rnxcmp_answer answer = {0, 0, 0, 0, 0};
    size_t made = 0;
    for (size_t at = 0, used = 0; at < length; at += used) {
        rnxcmp_feed(handle, compact + at, length - at < PIECE ? length - at : PIECE, &used, &answer);
        size_t ready = answer.output_length;
        rnxcmp_take(handle, back + made, file_length - made, NULL, 0, NULL);
        made += ready;
    }
    rnxcmp_end(handle, &answer);
    rnxcmp_take(handle, back + made, file_length - made, NULL, 0, NULL);
    return made + answer.output_length;
}

static void *rounds_of_a_thread(void *unused) {
    (void)unused;
    rnxcmp_options options = RNXCMP_OPTIONS;
    rnxcmp_answer answer;
    char *compact = malloc(file_length + 1), *back = malloc(file_length + 1);
    size_t wrong = compact == NULL || back == NULL;
    options.date = "D";
    for (int round = 0; round < rounds && wrong == 0; round++) {
        wrong += rnxcmp_compact(file, file_length, &options, compact, file_length, NULL, 0, &answer) != 0;
        size_t length = answer.output_length;
        wrong += rnxcmp_expand(compact, length, NULL, back, file_length, NULL, 0, &answer) != 0;
        wrong += answer.output_length != file_length || memcmp(back, file, file_length) != 0;
        rnxcmp_handle handle = RNXCMP_CLOSED;
        wrong += rnxcmp_open_expand(&handle, NULL, NULL) != 0;
        memset(back, 0, file_length);
        wrong += expanded(&handle, compact, length, back) != file_length || memcmp(back, file, file_length) != 0;
        rnxcmp_close(&handle);
        wrong += strcmp(rnxcmp_words(13), "bad satellite") != 0 || rnxcmp_version()[0] == 0 || strcmp(rnxcmp_status_words(0), "good") != 0;
    }
    free(compact);
    free(back);
    return (void *)wrong;
}

/* Runs something in so many threads at once; gives how much was wrong. */
static size_t in_threads(int count, void *(*work)(void *), void *place) {
    pthread_t threads[MOST];
    size_t wrong = 0;
    for (int k = 0; k < count; k++) {
        if (pthread_create(&threads[k], NULL, work, place) != 0) {
            abort();
        }
    }
    for (int k = 0; k < count; k++) {
        void *of_one = NULL;
        pthread_join(threads[k], &of_one);
        wrong += (size_t)of_one;
    }
    return wrong;
}

/* Feeds the next piece of the file to a check. */
static void *piece_of_a_thread(void *place) {
    static size_t at;
    size_t used, count = file_length - at < PIECE ? file_length - at : PIECE;
    int status = rnxcmp_feed(place, file + at, count, &used, NULL);
    at += used;
    return (void *)(size_t)(status != RNXCMP_GOOD || used != count);
}

/* A check whose pieces come from one thread after another. */
static size_t in_turn(void) {
    rnxcmp_handle handle = RNXCMP_CLOSED;
    size_t wrong = rnxcmp_open_check(&handle, NULL) != 0;
    for (size_t at = 0; at < file_length; at += PIECE) {
        wrong += in_threads(1, piece_of_a_thread, &handle);
    }
    wrong += rnxcmp_end(&handle, NULL) != RNXCMP_GOOD;
    rnxcmp_close(&handle);
    return wrong;
}

int main(int count, char **words) {
    size_t room = 1 << 20;
    if (count != 3 || atoi(words[1]) > MOST || (file = malloc(room)) == NULL) {
        return 2;
    }
    file_length = fread(file, 1, room, stdin);
    rounds = atoi(words[2]);
    size_t wrong = in_threads(atoi(words[1]), rounds_of_a_thread, NULL) + in_turn();
    free(file);
    return wrong != 0;
}
