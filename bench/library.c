/*
 * One file through the library and through the program, for library.py: `library PROGRAM RINEX COMPACT` prints, for compaction and
 * expansion, the least microseconds of 15 rounds for a call over the whole file, for a handle that is fed 4 KiB at a time, and for the
 * program as a process, which reads a file and writes to /dev/null.
 */
#define _GNU_SOURCE
#include <fcntl.h>
#include <rnxcmp.h>
#include <spawn.h>
#include <stdio.h>
#include <stdlib.h>
#include <string.h>
#include <sys/wait.h>
#include <time.h>
#include <unistd.h>

enum { PIECE = 4096 };

extern char **environ;
static char *input, *room;
static size_t length, room_length;
static const char *program, *path;
static int expands;

static double now(void) {
    struct timespec t;
    clock_gettime(CLOCK_MONOTONIC, &t);
    return (double)t.tv_sec * 1e6 + (double)t.tv_nsec / 1e3;
}

static size_t whole(void) {
    rnxcmp_answer answer;
    int status = (expands ? rnxcmp_expand : rnxcmp_compact)(input, length, NULL, room, room_length, NULL, 0, &answer);
    return status == RNXCMP_GOOD ? answer.output_length : 0;
}

static size_t taken(rnxcmp_handle *handle, rnxcmp_answer *answer, size_t at) {
    size_t ready = answer->output_length;
    if (ready != 0) {
        rnxcmp_take(handle, room + at, room_length - at, NULL, 0, answer);
    }
    return at + ready;
}

static size_t pieces(void) {
    rnxcmp_handle handle = RNXCMP_CLOSED;
    rnxcmp_answer answer;
    size_t written = 0;
    if ((expands ? rnxcmp_open_expand : rnxcmp_open_compact)(&handle, NULL, &answer) != RNXCMP_GOOD) {
        return 0;
    }
    for (size_t at = 0, used = 0; at < length; at += used) {
        if (rnxcmp_feed(&handle, input + at, length - at < PIECE ? length - at : PIECE, &used, &answer) != RNXCMP_GOOD) {
            break;
        }
        written = taken(&handle, &answer, written);
    }
    int status = rnxcmp_end(&handle, &answer);
    written = taken(&handle, &answer, written);
    rnxcmp_close(&handle);
    return status == RNXCMP_GOOD ? written : 0;
}

static size_t process(void) {
    char *words[] = {(char *)program, expands ? "crx2rnx" : "rnx2crx", NULL};
    posix_spawn_file_actions_t actions;
    pid_t id;
    int status;
    posix_spawn_file_actions_init(&actions);
    posix_spawn_file_actions_addopen(&actions, 0, path, O_RDONLY, 0);
    posix_spawn_file_actions_addopen(&actions, 1, "/dev/null", O_WRONLY, 0);
    if (posix_spawn(&id, program, &actions, NULL, words, environ) != 0 || waitpid(id, &status, 0) < 0) {
        return 0;
    }
    posix_spawn_file_actions_destroy(&actions);
    return status == 0;
}

static double least(size_t (*run)(void), int repeats) {
    double best = 1e18;
    for (int round = 0; round < 15; round++) {
        double start = now();
        for (int k = 0; k < repeats; k++) {
            if (run() == 0) {
                fprintf(stderr, "a run failed\n");
                exit(1);
            }
        }
        double each = (now() - start) / repeats;
        best = each < best ? each : best;
    }
    return best;
}

int main(int argc, char **argv) {
    if (argc != 4) {
        return 2;
    }
    program = argv[1];
    for (expands = 0; expands < 2; expands++) {
        path = argv[2 + expands];
        FILE *file = fopen(path, "rb");
        if (file == NULL) {
            return 1;
        }
        input = malloc(1 << 24);
        length = fread(input, 1, 1 << 24, file);
        fclose(file);
        room_length = 8 * length + 4096;
        room = malloc(room_length);
        size_t bytes = whole();
        if (pieces() != bytes) {
            fprintf(stderr, "the lengths differ\n");
            return 1;
        }
        printf("%s %zu %zu %.1f %.1f %.1f\n", expands ? "expand" : "compact", length, bytes, least(whole, 20), least(pieces, 20),
               least(process, 3));
        free(input);
        free(room);
    }
    return 0;
}
