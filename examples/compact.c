/*
 * Compacts a RINEX file into memory, expands that again, and says whether the file came back, or its normal form, as a file does that isn't
 * standard: compact FILE
 */
#include <rnxcmp.h>
#include <stdio.h>
#include <stdlib.h>
#include <string.h>

typedef int filter(const void *, size_t, const rnxcmp_options *, void *, size_t, void *, size_t, rnxcmp_answer *);

/* Bytes in memory of their own. */
struct text {
    char *bytes;
    size_t length;
};

static void stop(const char *name, const char *why) {
    fprintf(stderr, "%s: %s\n", name, why);
    exit(1);
}

/* Memory for so many bytes. */
static struct text text_of(size_t length, const char *name) {
    struct text text = {malloc(length != 0 ? length : 1), length};
    if (text.bytes == NULL) {
        stop(name, "out of memory");
    }
    return text;
}

/* All bytes of a file. */
static struct text read_file(const char *name) {
    FILE *file = fopen(name, "rb");
    long length = file != NULL && fseek(file, 0, SEEK_END) == 0 ? ftell(file) : -1;
    if (length < 0) {
        stop(name, "it can't be read");
    }
    rewind(file);
    struct text text = text_of((size_t)length, name);
    if (fread(text.bytes, 1, text.length, file) != text.length) {
        stop(name, "it can't be read");
    }
    fclose(file);
    return text;
}

/* What a filter makes of an input. The first call has no room: its answer says how much the output needs. */
static struct text filtered(filter *call, struct text input, const char *name) {
    rnxcmp_options options = RNXCMP_OPTIONS;
    rnxcmp_answer answer;
    options.date = "01-Jan-24 00:00";
    call(input.bytes, input.length, &options, NULL, 0, NULL, 0, &answer);
    struct text output = text_of(answer.output_length, name);
    int status = call(input.bytes, input.length, &options, output.bytes, output.length, NULL, 0, &answer);
    if (status == RNXCMP_FAULT) {
        fprintf(stderr, "%s: line %llu: %s\n", name, (unsigned long long)answer.line, rnxcmp_words(answer.code));
        exit(1);
    } else if (status != RNXCMP_GOOD) {
        stop(name, rnxcmp_status_words((uint32_t)status));
    }
    return output;
}

int main(int count, char **words) {
    if (count != 2) {
        return 1;
    }
    struct text file = read_file(words[1]);
    struct text compact = filtered(rnxcmp_compact, file, words[1]);
    struct text back = filtered(rnxcmp_expand, compact, words[1]);
    int same = back.length == file.length && memcmp(back.bytes, file.bytes, file.length) == 0;
    printf("%zu bytes, compact %zu: %s\n", file.length, compact.length, same ? "the same again" : "its normal form");
    free(back.bytes);
    free(compact.bytes);
    free(file.bytes);
    return 0;
}
