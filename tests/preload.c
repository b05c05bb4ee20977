/* Stands before the C library (LD_PRELOAD), and does as the environment says:

   REFUSE           the call for memory of this number, counted from 1, is refused; with REFUSE_ON=1 also each later one. Calls for fewer bytes
                    than REFUSE_FROM aren't counted. For each refusal a byte goes to the open file REFUSE_TO.
   REFUSE_OF        calls from code of the file of this name alone are counted; refuse_growth(n, on) then refuses the n-th from now on in this
                    thread, growths() are those since, and blocks() those that the file's code holds.
   COUNT_TO         at the end a line goes to this open file: how many calls there were, the most bytes that were held at once, and the
                    bytes that were held when the input's end was read.
   INTERRUPTIONS    a signal seems to interrupt each read so many times before it is made.
   SHORT=1          each write takes one byte of those that it is given.
   CLOCK            each clock stands at this second, and CLOCK_NANOSECONDS after it; with CLOCK=none it gives no moment. */

typedef unsigned long size;
struct moment {
    long seconds, nanoseconds;
};

void *__libc_malloc(size bytes);
void *__libc_calloc(size count, size bytes);
void *__libc_realloc(void *old, size bytes);
void __libc_free(void *old);
size malloc_usable_size(void *block);
long __read(int file, void *bytes, size count);
long __write(int file, const void *bytes, size count);
int __clock_gettime(int clock, struct moment *moment);
char *getenv(const char *name);
char *strstr(const char *text, const char *part);
int dladdr(const void *place, void *about);
int *__errno_location(void);

enum { INTERRUPTED = 4 }; /* EINTR */

static size refused, on, least, told, counted, is_short; /* as the environment says */
static const char *only; /* the name of a file */
static size calls, held, most, at_end;
static long interruptions, left;
static __thread long refused_of, on_of, growths_of, blocks_of;

static long number(const char *name)
{
    const char *text = getenv(name), *digit = text && *text == '-' ? text + 1 : text;
    long value = 0;
    for (; digit && *digit; digit++)
        value = value * 10 + (*digit - '0');
    return digit && *text == '-' ? -value : value;
}

__attribute__((constructor)) static void begin(void)
{
    refused = (size)number("REFUSE");
    on = (size)number("REFUSE_ON");
    least = (size)number("REFUSE_FROM");
    told = (size)number("REFUSE_TO");
    counted = (size)number("COUNT_TO");
    is_short = number("SHORT") == 1;
    only = getenv("REFUSE_OF");
    left = interruptions = number("INTERRUPTIONS");
    calls = 0;
}

/* Writes the digits of a number before a place, and gives where they begin. */
static char *digits(size value, char *before)
{
    do
        *--before = (char)('0' + value % 10);
    while (value /= 10);
    return before;
}

__attribute__((destructor)) static void end(void)
{
    char line[64], *past = line + sizeof line, *first = past;
    if (!counted)
        return;
    *--first = '\n';
    first = digits(at_end, first);
    *--first = ' ';
    first = digits(most, first);
    *--first = ' ';
    first = digits(calls, first);
    __write((int)counted, first, (size)(past - first));
}

void refuse_growth(long place, long also_later)
{
    refused_of = place, on_of = also_later, growths_of = 0;
}

long growths(void)
{
    return growths_of;
}

long blocks(void)
{
    return blocks_of;
}

/* Whether code of the file calls. */
static int is_its(const void *caller)
{
    struct {
        const char *file;
        void *base;
        const char *name;
        void *place;
    } about = {0, 0, 0, 0};
    return only && dladdr(caller, &about) && about.file && strstr(about.file, only);
}

static int refuses(size bytes, const void *caller)
{
    if (only) {
        if (!is_its(caller))
            return 0;
        growths_of++;
        return refused_of && (growths_of == refused_of || (on_of && growths_of > refused_of));
    }
    if (bytes < least)
        return 0;
    calls++;
    if (!refused || calls < refused || (calls > refused && !on))
        return 0;
    return __write((int)told, "x", 1) >= 0;
}

static void *taken(void *block)
{
    held += block ? malloc_usable_size(block) : 0;
    most = held > most ? held : most;
    return block;
}

void *malloc(size bytes)
{
    void *block = refuses(bytes, __builtin_return_address(0)) ? 0 : taken(__libc_malloc(bytes));
    blocks_of += block && is_its(__builtin_return_address(0));
    return block;
}

void *calloc(size count, size bytes)
{
    return refuses(count * bytes, __builtin_return_address(0)) ? 0 : taken(__libc_calloc(count, bytes));
}

void *realloc(void *old, size bytes)
{
    size before = old ? malloc_usable_size(old) : 0;
    void *block;
    if (refuses(bytes, __builtin_return_address(0)))
        return 0;
    block = __libc_realloc(old, bytes);
    if (!block)
        return 0;
    held -= before;
    return taken(block);
}

void free(void *old)
{
    blocks_of -= old && is_its(__builtin_return_address(0));
    held -= old ? malloc_usable_size(old) : 0;
    __libc_free(old);
}

long read(int from, void *bytes, size count)
{
    long given;
    if (left > 0) {
        left--;
        *__errno_location() = INTERRUPTED;
        return -1;
    }
    left = interruptions;
    given = __read(from, bytes, count);
    if (given == 0 && count > 0)
        at_end = held;
    return given;
}

long write(int file, const void *bytes, size count)
{
    return __write(file, bytes, is_short && count > 1 ? 1 : count);
}

int clock_gettime(int clock, struct moment *moment)
{
    const char *text = getenv("CLOCK");
    if (!text)
        return __clock_gettime(clock, moment);
    if (*text == 'n')
        return -1;
    moment->seconds = number("CLOCK");
    moment->nanoseconds = number("CLOCK_NANOSECONDS");
    return 0;
}
