/* On a processor that is too old each call has an answer of its own, and does nothing: the library's C is compiled for this with
   RNXCMP_PROCESSOR_IS_GOOD 0. Prints what doesn't hold; the status is 1 then. */
#include <rnxcmp.h>
#include <stdio.h>
#include <string.h>

static rnxcmp_answer answer;
static int wrong;

static void expect(int status, const char *what) {
    const rnxcmp_answer *a = &answer;
    if (status != RNXCMP_BAD_PROCESSOR || a->status != RNXCMP_BAD_PROCESSOR || a->code || a->line || a->output_length || a->messages_length) {
        wrong++;
        printf("%s: %d\n", what, status);
    }
    answer = (rnxcmp_answer){7, 7, 7, 7, 7};
}

int main(void) {
    rnxcmp_handle handle = RNXCMP_CLOSED;
    const rnxcmp_options other = {1, 0, 0, "a date that is far too long", 0};
    size_t used = 7;
    char room[4] = "###";
    expect(rnxcmp_compact("x", 1, NULL, room, 3, NULL, 0, &answer), "compact");
    expect(rnxcmp_compact(NULL, 1, &other, NULL, 1, NULL, 1, &answer), "compact with what is misused");
    expect(rnxcmp_expand("x", 1, NULL, room, 3, NULL, 0, &answer), "expand");
    expect(rnxcmp_check("x", 1, room, 3, NULL, 0, &answer), "check");
    expect(rnxcmp_open_compact(&handle, NULL, &answer), "open_compact");
    expect(rnxcmp_open_expand(&handle, NULL, &answer), "open_expand");
    expect(rnxcmp_open_check(&handle, &answer), "open_check");
    expect(rnxcmp_open_check(NULL, &answer), "open_check of no handle");
    expect(rnxcmp_feed(&handle, "x", 1, &used, &answer), "feed");
    expect(rnxcmp_feed(NULL, NULL, 1, NULL, &answer), "feed of no handle");
    expect(rnxcmp_end(&handle, &answer), "end");
    expect(rnxcmp_take(&handle, room, 3, NULL, 0, &answer), "take");
    rnxcmp_close(&handle);
    rnxcmp_close(NULL);
    if (used != 0 || handle.is_open || handle.place != NULL || strcmp(room, "###") != 0 || rnxcmp_check("x", 1, NULL, 0, NULL, 0, NULL) != RNXCMP_BAD_PROCESSOR) {
        wrong++;
        printf("used %zu, or a handle or a room that changed\n", used);
    }
    return wrong != 0;
}
