/* What the program asks of the kit's C of the system, which is there for Linux on x86-64 alone: its arguments
   and errno. On another machine this file stands in its place, beside library/heap.c, and on Windows beside
   windows.c too. */
#include <errno.h>
#include <stddef.h>
#include <stdint.h>
#include <string.h>

static size_t count;
static char **words;

/* Keeps the arguments. glibc hands them to what runs before main; on Windows wmain does, in UTF-8. */
#ifndef _WIN32
__attribute__((constructor))
#endif
void rnxcmp_keep(int argc, char **argv) {
    count = (size_t)argc;
    words = argv;
}

/* The bytes of an argument; -1 where there is none, and -2 where it is longer than its place. */
intptr_t rattle_arg(size_t index, char *place, size_t length) {
    if (index >= count) {
        return -1;
    }
    size_t whole = strlen(words[index]);
    memcpy(place, words[index], whole < length ? whole : length);
    return whole <= length ? (intptr_t)whole : -2;
}

int rattle_errno(void) {
    return errno;
}

void rattle_set_errno(int error) {
    errno = error;
}
