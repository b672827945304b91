/* Checks a history by fj_check, and says what `fj check` does, without its reason.
 *
 *     check < HISTORY
 *
 * The text is held in a block of its very size, and without a byte behind it. */
#include "fj.h"

#include <inttypes.h>
#include <stdio.h>
#include <stdlib.h>
#include <string.h>

/* All of the standard input. NULL if out of memory. */
static char *read_all(size_t *size) {
    static char chunk[65536];
    char *text = NULL;
    *size = 0;
    for (size_t n; (n = fread(chunk, 1, sizeof chunk, stdin)) > 0; *size += n) {
        char *more = realloc(text, *size + n);
        if (!more) {
            free(text);
            return NULL;
        }
        text = more;
        memcpy(text + *size, chunk, n);
    }
    return text ? text : malloc(1);
}

int main(void) {
    size_t size;
    char *text = read_all(&size);
    if (!text) return 4;
    fj_reply r = fj_check(text, size);
    free(text);
    switch (r.code) {
    case FJ_COUNT: printf("ok %" PRIu64 "\n", r.number); return 0;
    case FJ_BAD_EVENT: printf("line %" PRIu64 "\n", r.number); return 1;
    case FJ_BAD_LINE: printf("fault: line %" PRIu64 "\n", r.number); return 3;
    case FJ_BAD_LIMITS: printf("refused %" PRIu32 "\n", r.code); return r.number == 1 ? 3 : 5;
    default: printf("%s\n", fj_meaning(r.code)); return 4;
    }
}
