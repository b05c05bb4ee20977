/* What the program asks of Linux, by Windows' own C library: packaging/retarget.py gives the program's calls
   the names that stand here, and os.c has what it asks of the kit.
   Names of files are UTF-8 inside the program, and UTF-16 at the system, whatever the code page is. Standard streams are binary. */
#include <errno.h>
#include <fcntl.h>
#include <io.h>
#include <stdint.h>
#include <stdlib.h>
#include <string.h>
#include <sys/stat.h>
#include <windows.h>

/* The bytes of a path that the program hands over, with its end; the flags of Linux. */
enum { PATH_ROOM = 4096, CREATES = 0100, IS_NEW = 0200, TRUNCATES = 01000, ACCESS = 3 };
enum { MOST_AT_ONCE = 1 << 30 };

/* Seconds from 1601, where Windows begins to count, to 1970, and its ticks of 100 nanoseconds in a second. */
#define SECONDS_TO_1970 11644473600
enum { TICKS = 10000000 };

int _dowildcard = 0; /* each argument is handed over as it is */

int rnxcmp_main(void);
void rnxcmp_keep(int argc, char **argv);

/* A text in UTF-8, in memory of its own; NULL where there is none. */
static char *in_utf8(const wchar_t *text) {
    int size = WideCharToMultiByte(CP_UTF8, 0, text, -1, NULL, 0, NULL, NULL);
    char *place = size > 0 ? malloc((size_t)size) : NULL;
    if (place != NULL) {
        WideCharToMultiByte(CP_UTF8, 0, text, -1, place, size, NULL, NULL);
    }
    return place;
}

/* The subcommand that the program's own name stands for, as in RNX2CRX.exe; NULL for any other name. (A .cmd of that
   name would end the batch file that runs it without `call`.) */
static char *subcommand(const char *program) {
    static char names[2][8] = {"rnx2crx", "crx2rnx"};
    for (const char *at = program; *at != 0; at++) {
        if (*at == '/' || *at == '\\') {
            program = at + 1;
        }
    }
    for (int k = 0; k < 2; k++) {
        if (_strnicmp(program, names[k], 7) == 0 && (program[7] == 0 || program[7] == '.')) {
            return names[k];
        }
    }
    return NULL;
}

int wmain(int argc, wchar_t **argv) {
    char **words = calloc((size_t)argc + 2, sizeof *words);
    if (words == NULL) {
        return 1;
    }
    for (int k = 0; k < argc; k++) {
        words[k] = in_utf8(argv[k]);
        if (words[k] == NULL) {
            return 1;
        }
    }
    char *named = argc > 0 ? subcommand(words[0]) : NULL;
    if (named != NULL) {
        for (int k = argc++; k > 1; k--) {
            words[k] = words[k - 1];
        }
        words[1] = named;
    }
    rnxcmp_keep(argc, words);
    for (int stream = 0; stream < 3; stream++) {
        _setmode(stream, _O_BINARY);
    }
    return rnxcmp_main();
}

int rnxcmp_open(const char *path, int flags, ...) {
    wchar_t wide[PATH_ROOM];
    int own = _O_BINARY | _O_NOINHERIT | (flags & ACCESS);
    if (MultiByteToWideChar(CP_UTF8, MB_ERR_INVALID_CHARS, path, -1, wide, PATH_ROOM) == 0) {
        errno = ENOENT;
        return -1;
    }
    own |= (flags & CREATES ? _O_CREAT : 0) | (flags & IS_NEW ? _O_EXCL : 0) | (flags & TRUNCATES ? _O_TRUNC : 0);
    int file = _wopen(wide, own, _S_IREAD | _S_IWRITE);
    if (file < 0 && errno == EACCES) {
        DWORD kind = GetFileAttributesW(wide);
        errno = kind != INVALID_FILE_ATTRIBUTES && (kind & FILE_ATTRIBUTE_DIRECTORY) ? EISDIR : EACCES;
    }
    return file;
}

int64_t rnxcmp_read(int file, void *place, uint64_t length) {
    return _read(file, place, length > MOST_AT_ONCE ? MOST_AT_ONCE : (unsigned)length);
}

int64_t rnxcmp_write(int file, const void *place, uint64_t length) {
    return _write(file, place, length > MOST_AT_ONCE ? MOST_AT_ONCE : (unsigned)length);
}

int rnxcmp_close(int file) {
    return _close(file);
}

/* No file is described: each input then counts as one that may wait, and a folder can't be opened anyway. */
int rnxcmp_statx(int folder, const char *name, int flags, unsigned wanted, void *place) {
    (void)folder, (void)name, (void)flags, (void)wanted, (void)place;
    errno = ENOSYS;
    return -1;
}

/* The seconds and nanoseconds since 1970, whichever clock is asked for: the program asks for that of the day alone. */
int rnxcmp_clock_gettime(int clock, int64_t *moment) {
    FILETIME time;
    (void)clock;
    GetSystemTimeAsFileTime(&time);
    int64_t ticks = (int64_t)((uint64_t)time.dwHighDateTime << 32 | time.dwLowDateTime) - SECONDS_TO_1970 * TICKS;
    moment[0] = ticks / TICKS;
    moment[1] = ticks % TICKS * 100;
    return 0;
}

/* There is no signal of a closed pipe: a write to one fails. */
int64_t rnxcmp_sysv_signal(int number, int64_t handler) {
    (void)number, (void)handler;
    return 0;
}
