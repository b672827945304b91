/* Calls that must be refused and change nothing: of NULL, of a machine that was not made or is freed, with unknown codes, with numbers out of
 * range, and with each allocation failing in turn; and texts that are no history. Steps must not allocate. Link with -Wl,--wrap=malloc,--wrap=realloc. Says nothing if all is
 * well, with status 0. */
#include "fj.h"

#include <stdio.h>
#include <stdlib.h>
#include <string.h>

static int failures;

static void expect(int line, const char *call, uint32_t code, uint32_t wanted) {
    if (code == wanted) return;
    fprintf(stderr, "refusals.c:%d: %s is %u (%s) and not %u\n", line, call, code, fj_meaning(code) ? fj_meaning(code) : "unknown", wanted);
    failures++;
}

#define EXPECT(CALL, WANTED) expect(__LINE__, #CALL, (CALL).code, WANTED)

/* ---- allocations */

void *__real_malloc(size_t size);
void *__real_realloc(void *at, size_t size);

static long allocations, fails_at = -1;

static bool fails(void) { return allocations++ == fails_at; }

void *__wrap_malloc(size_t size) { return fails() ? NULL : __real_malloc(size); }

void *__wrap_realloc(void *at, size_t size) { return fails() ? NULL : __real_realloc(at, size); }

/* ---- all that a machine tells */

typedef struct { fj_reply replies[700]; int count; } Seen;

static void see(Seen *seen, fj_reply r) {
    if (seen->count < 700) seen->replies[seen->count++] = r;
}

/* Of a machine of 2 workers and 1 submitter with few tasks. */
static Seen look(fj_machine *m) {
    Seen seen = {.count = 0};
    see(&seen, fj_events(m));
    see(&seen, fj_epoch(m));
    see(&seen, fj_live(m));
    see(&seen, fj_queued(m));
    see(&seen, fj_is_quiescent(m));
    for (uint64_t i = 0; i < 12; i++) {
        fj_happened event = {0};
        see(&seen, fj_submitted(m, 0, i));
        see(&seen, fj_open(m, i));
        see(&seen, fj_gone(m, i));
        see(&seen, fj_state(m, i));
        see(&seen, fj_parent(m, i));
        see(&seen, fj_event(m, i, &event));
        see(&seen, (fj_reply){event.what, event.by, event.task});
        see(&seen, (fj_reply){event.kind, 0, event.value});
        for (uint32_t w = 0; w < 2; w++) {
            see(&seen, fj_forked(m, w, i));
            see(&seen, fj_stack(m, w, i));
            see(&seen, fj_hook(m, w));
        }
    }
    return seen;
}

static bool same(const Seen *a, const Seen *b) {
    if (a->count != b->count) return false;
    for (int i = 0; i < a->count; i++) {
        fj_reply x = a->replies[i], y = b->replies[i];
        if (x.code != y.code || x.by != y.by || x.number != y.number) return false;
    }
    return true;
}

/* ---- every call at a machine that is none */

static void refused_by_none(fj_machine *m) {
    fj_happened event;
    char line[FJ_LINE];
    EXPECT(fj_submit(m, 0), FJ_NO_MACHINE);
    EXPECT(fj_submit_completer(m, 0, 0, true), FJ_NO_MACHINE);
    EXPECT(fj_fork(m, 0), FJ_NO_MACHINE);
    EXPECT(fj_fork_completer(m, 0, FJ_NO_TASK, 0, true), FJ_NO_MACHINE);
    EXPECT(fj_trigger(m, 0, 0), FJ_NO_MACHINE);
    EXPECT(fj_poll(m, 0, 0), FJ_NO_MACHINE);
    EXPECT(fj_help(m, 0, 0), FJ_NO_MACHINE);
    EXPECT(fj_join(m, 0, 0, 0), FJ_NO_MACHINE);
    EXPECT(fj_end(m, 0, FJ_OK, 0), FJ_NO_MACHINE);
    EXPECT(fj_hook_done(m, 0), FJ_NO_MACHINE);
    EXPECT(fj_add(m, 0, 0, 1), FJ_NO_MACHINE);
    EXPECT(fj_quiet_root(m, 0, 0), FJ_NO_MACHINE);
    EXPECT(fj_fault(m, 0, 1), FJ_NO_MACHINE);
    EXPECT(fj_cancel(m, 0), FJ_NO_MACHINE);
    EXPECT(fj_shutdown(m), FJ_NO_MACHINE);
    EXPECT(fj_stop(m), FJ_NO_MACHINE);
    EXPECT(fj_is_quiescent(m), FJ_NO_MACHINE);
    EXPECT(fj_state(m, 0), FJ_NO_MACHINE);
    EXPECT(fj_release(m, 0), FJ_NO_MACHINE);
    EXPECT(fj_events(m), FJ_NO_MACHINE);
    EXPECT(fj_event(m, 0, &event), FJ_NO_MACHINE);
    EXPECT(fj_seal(m), FJ_NO_MACHINE);
    EXPECT(fj_epoch(m), FJ_NO_MACHINE);
    EXPECT(fj_submitted(m, 0, 0), FJ_NO_MACHINE);
    EXPECT(fj_forked(m, 0, 0), FJ_NO_MACHINE);
    EXPECT(fj_stack(m, 0, 0), FJ_NO_MACHINE);
    EXPECT(fj_open(m, 0), FJ_NO_MACHINE);
    EXPECT(fj_gone(m, 0), FJ_NO_MACHINE);
    EXPECT(fj_live(m), FJ_NO_MACHINE);
    EXPECT(fj_queued(m), FJ_NO_MACHINE);
    EXPECT(fj_hook(m, 0), FJ_NO_MACHINE);
    EXPECT(fj_parent(m, 0), FJ_NO_MACHINE);
    EXPECT(fj_print_event(m, 0, line, sizeof line), FJ_NO_MACHINE);
    fj_free(m);
}

/* A machine with a task in each place: 0 held, 1 queued, 2 gone, 3 open, 4 a completer in a queue; 2 workers and 1 submitter. */
static void prepare(fj_machine *m) {
    EXPECT(fj_new(m, FJ_JOINING, 2, 1, 8, 100), FJ_DONE);
    EXPECT(fj_submit(m, 0), FJ_TASK);
    EXPECT(fj_poll(m, 0, 0), FJ_RUN);
    EXPECT(fj_fork(m, 0), FJ_TASK);
    EXPECT(fj_fork(m, 0), FJ_TASK);
    EXPECT(fj_help(m, 0, 0), FJ_RUN);
    EXPECT(fj_end(m, 0, FJ_OK, 0), FJ_DONE);
    EXPECT(fj_trigger(m, 0, 1), FJ_TASK);
    EXPECT(fj_fork_completer(m, 0, 3, 0, true), FJ_TASK);
}

static void refused_arguments(fj_machine *m) {
    char line[4] = "abc";
    EXPECT(fj_new(m, FJ_ASYNC, 1, 1, 1, 1), FJ_IN_USE);
    EXPECT(fj_new(m, 2, 1, 1, 1, 1), FJ_BAD_ARGUMENT);
    EXPECT(fj_new(m, UINT32_MAX, 0, 0, 0, 0), FJ_BAD_ARGUMENT);
    EXPECT(fj_end(m, 0, 6, 0), FJ_BAD_ARGUMENT);
    EXPECT(fj_end(m, 0, UINT32_MAX, 0), FJ_BAD_ARGUMENT);
    EXPECT(fj_end(m, 9, 6, 0), FJ_BAD_ARGUMENT);
    EXPECT(fj_event(m, 0, NULL), FJ_BAD_ARGUMENT);
    EXPECT(fj_event(m, UINT64_MAX, &(fj_happened){0}), FJ_NO_PLACE);
    EXPECT(fj_submit(m, 1), FJ_NO_SUCH);
    EXPECT(fj_submit(m, UINT32_MAX), FJ_NO_SUCH);
    EXPECT(fj_poll(m, 2, 0), FJ_NO_SUCH);
    EXPECT(fj_poll(m, UINT32_MAX, UINT32_MAX), FJ_NO_SUCH);
    EXPECT(fj_hook(m, 2), FJ_NO_SUCH);
    EXPECT(fj_submit_completer(m, 0, 65536, false), FJ_COUNT_TOO_LARGE);
    EXPECT(fj_submit_completer(m, 0, UINT32_MAX, false), FJ_COUNT_TOO_LARGE);
    EXPECT(fj_fork_completer(m, 0, 99, 0, false), FJ_UNKNOWN);
    EXPECT(fj_fork_completer(m, 0, FJ_NO_TASK - 1, 0, false), FJ_UNKNOWN);
    EXPECT(fj_fork_completer(m, 0, 0, 0, false), FJ_NOT_COMPLETER);
    EXPECT(fj_trigger(m, 0, 65536), FJ_COUNT_TOO_LARGE);
    EXPECT(fj_add(m, 0, 3, 65535), FJ_COUNT_TOO_LARGE);
    EXPECT(fj_add(m, 0, 3, UINT32_MAX), FJ_COUNT_TOO_LARGE);
    EXPECT(fj_join(m, 0, UINT64_MAX, 0), FJ_UNKNOWN);
    EXPECT(fj_join(m, 0, 0, 0), FJ_OWN_STACK);
    EXPECT(fj_release(m, 0), FJ_NOT_DONE);
    EXPECT(fj_release(m, 3), FJ_NOT_DONE);
    EXPECT(fj_state(m, UINT64_MAX), FJ_UNKNOWN);
    EXPECT(fj_parent(m, 99), FJ_UNKNOWN);
    EXPECT(fj_seal(m), FJ_NOT_IDLE);
    EXPECT(fj_stack(m, UINT32_MAX, 0), FJ_NO_PLACE);
    EXPECT(fj_submitted(m, 7, 0), FJ_NO_PLACE);
    EXPECT(fj_gone(m, UINT64_MAX), FJ_NO_PLACE);
    EXPECT(fj_print_event(m, 99, line, sizeof line), FJ_NO_PLACE);
    EXPECT(fj_print_event(m, 0, line, 3), FJ_TOO_SMALL);
    EXPECT(fj_print_event(m, 0, NULL, 99), FJ_TOO_SMALL);
    EXPECT(fj_print_event(m, 0, line, 0), FJ_TOO_SMALL);
    EXPECT(fj_print_heading(2, 1, 1, 1, 1, line, 3), FJ_BAD_ARGUMENT);
    EXPECT(fj_print_heading(FJ_ASYNC, 33, 1, 1, 1, line, 3), FJ_BAD_LIMITS);
    EXPECT(fj_print_heading(FJ_ASYNC, 1, 1, 1, 1, line, 3), FJ_TOO_SMALL);
    EXPECT(fj_print_heading(FJ_ASYNC, 1, 1, 1, 1, NULL, 0), FJ_TOO_SMALL);
    if (strcmp(line, "abc") != 0) expect(__LINE__, "a refused line", 1, 0);
}

static void refused_limits(void) {
    static const uint32_t bad[][4] = {{0, 1, 1, 1}, {33, 1, 1, 1}, {1, 0, 1, 1}, {1, 33, 1, 1}, {1, 1, 0, 1}, {1, 1, 4097, 1}, {1, 1, 1, 0}, {1, 1, 1, 1048577},
                                      {UINT32_MAX, UINT32_MAX, UINT32_MAX, UINT32_MAX}};
    for (size_t i = 0; i < sizeof bad / sizeof *bad; i++) {
        fj_machine m = FJ_MACHINE_INIT;
        EXPECT(fj_new(&m, FJ_ASYNC, bad[i][0], bad[i][1], bad[i][2], bad[i][3]), FJ_BAD_LIMITS);
        if (m.at) expect(__LINE__, "a machine with bad limits", 1, 0);
    }
    EXPECT(fj_new(NULL, FJ_ASYNC, 1, 1, 1, 1), FJ_NO_MACHINE);
}

/* Each allocation of a making fails in turn, until one is made. */
static void refused_memory(void) {
    long number = 0;
    for (;; number++) {
        fj_machine m = FJ_MACHINE_INIT;
        allocations = 0;
        fails_at = number;
        fj_reply made = fj_new(&m, FJ_ASYNC, 2, 1, 8, 100);
        fails_at = -1;
        if (made.code == FJ_DONE) {
            fj_free(&m);
            break;
        }
        expect(__LINE__, "fj_new without memory", made.code, FJ_OUT_OF_MEMORY);
        if (m.at) expect(__LINE__, "a machine without memory", 1, 0);
    }
    if (number < 5) expect(__LINE__, "the number of allocations", (uint32_t)number, 5);
}

/* The same of a seal and of a line. A step allocates nothing. */
static void refused_later(void) {
    fj_machine m = FJ_MACHINE_INIT;
    char line[FJ_LINE];
    EXPECT(fj_new(&m, FJ_ASYNC, 2, 1, 8, 100), FJ_DONE);
    allocations = 0;
    EXPECT(fj_submit_completer(&m, 0, 0, true), FJ_TASK);
    EXPECT(fj_poll(&m, 0, 0), FJ_RUN);
    EXPECT(fj_fork_completer(&m, 0, 0, 0, true), FJ_TASK);
    EXPECT(fj_end(&m, 0, FJ_TRY, 0), FJ_HOOK);
    EXPECT(fj_hook_done(&m, 0), FJ_ROOT);
    EXPECT(fj_poll(&m, 0, 0), FJ_RUN);
    EXPECT(fj_end(&m, 0, FJ_FAIL, 7), FJ_DONE);
    EXPECT(fj_release(&m, 1), FJ_DONE);
    EXPECT(fj_release(&m, 0), FJ_DONE);
    look(&m);
    if (allocations) expect(__LINE__, "allocations of steps and queries", (uint32_t)allocations, 0);
    fails_at = 0;
    Seen before = look(&m);
    EXPECT(fj_print_event(&m, 0, line, sizeof line), FJ_OUT_OF_MEMORY);
    for (long number = 0;; number++) {
        allocations = 0;
        fails_at = number;
        fj_reply sealed = fj_seal(&m);
        fails_at = -1;
        if (sealed.code == FJ_DONE) break;
        expect(__LINE__, "fj_seal without memory", sealed.code, FJ_OUT_OF_MEMORY);
        Seen after = look(&m);
        if (!same(&before, &after)) expect(__LINE__, "a machine whose seal was refused", 1, 0);
    }
    fj_free(&m);
}

/* ---- texts */

enum { PARTS = 2, TASKS = 100, EVENTS = PARTS * TASKS * 5, LINES = 1 + EVENTS + PARTS - 1 };

static char text[LINES * FJ_LINE];
static size_t size;

static void print_event(fj_machine *m, uint64_t place) {
    fj_reply r = fj_print_event(m, place, text + size, sizeof text - size);
    expect(__LINE__, "fj_print_event", r.code, FJ_COUNT);
    size += r.number;
}

/* A history of 1,000 events, sealed once. Line 2 is that task 0 was accepted, line 3 that it was handed out. */
static void print_history(void) {
    fj_machine m = FJ_MACHINE_INIT;
    EXPECT(fj_new(&m, FJ_ASYNC, 1, 1, 1, TASKS * 5), FJ_DONE);
    size = fj_print_heading(FJ_ASYNC, 1, 1, 1, TASKS * 5, text, sizeof text).number;
    for (int part = 0; part < PARTS; part++) {
        if (part > 0) {
            EXPECT(fj_seal(&m), FJ_DONE);
            memcpy(text + size, "seal\n", 5);
            size += 5;
        }
        for (uint64_t i = 0; i < TASKS; i++) {
            uint64_t t = fj_submit(&m, 0).number;
            EXPECT(fj_poll(&m, 0, 0), FJ_RUN);
            EXPECT(fj_end(&m, 0, FJ_OK, 0), FJ_DONE);
            EXPECT(fj_release(&m, t), FJ_DONE);
            for (uint64_t place = 5 * i; place < 5 * i + 5; place++) print_event(&m, place);
        }
    }
    fj_free(&m);
}

/* Of bytes that have none behind them. */
static void expect_check(int line, const char *bytes, size_t count, uint32_t wanted, uint64_t number) {
    char *copy = malloc(count + (count == 0));
    if (!copy) abort();
    memcpy(copy, bytes, count);
    fj_reply r = fj_check(copy, count);
    free(copy);
    expect(line, "fj_check", r.code, wanted);
    if (r.number != number) expect(line, "the number of fj_check", (uint32_t)r.number, (uint32_t)number);
}

#define EXPECT_CHECK(TEXT, CODE, NUMBER) expect_check(__LINE__, TEXT, sizeof TEXT - 1, CODE, NUMBER)

/* Every beginning of the first lines: a history where it ends with a line, and then of an event for each line but the heading. */
static void check_beginnings(void) {
    uint64_t lines = 0;
    for (size_t end = 1; lines < 20; end++) {
        lines += text[end - 1] == '\n';
        if (text[end - 1] == '\n') expect_check(__LINE__, text, end, FJ_COUNT, lines - 1);
        else expect_check(__LINE__, text, end, FJ_BAD_LINE, lines + 1);
    }
}

static void check_changed(const char *where, char byte, uint32_t wanted, uint64_t number) {
    char *at = strstr(text, where), old = *at;
    *at = byte;
    expect_check(__LINE__, text, size, wanted, number);
    *at = old;
}

static void refused_texts(void) {
    print_history();
    expect_check(__LINE__, text, size, FJ_COUNT, EVENTS);
    expect_check(__LINE__, text, size - 1, FJ_BAD_LINE, LINES);
    expect_check(__LINE__, text, size - 4, FJ_BAD_LINE, LINES);
    check_beginnings();
    check_changed("async 1", 'b', FJ_BAD_LINE, 1);
    check_changed("0 sub 0", '1', FJ_BAD_EVENT, 2);
    check_changed("out 0", 'O', FJ_BAD_LINE, 3);
    check_changed("0 normal", '1', FJ_BAD_EVENT, 5);
    check_changed("\nout 0", '\0', FJ_BAD_LINE, 2);
    check_changed("seal", 'S', FJ_BAD_LINE, 2 + EVENTS / PARTS);
    EXPECT(fj_check(NULL, 0), FJ_BAD_ARGUMENT);
    EXPECT(fj_check(NULL, 99), FJ_BAD_ARGUMENT);
    EXPECT_CHECK("", FJ_BAD_LINE, 1);
    EXPECT_CHECK("\n", FJ_BAD_LINE, 1);
    EXPECT_CHECK("async 1 1 1 1\n", FJ_COUNT, 0);
    EXPECT_CHECK("async 1 1 1 1\n\n", FJ_BAD_LINE, 2);
    EXPECT_CHECK("async 1 1 1 1\r\n", FJ_BAD_LINE, 1);
    EXPECT_CHECK("async 33 1 1 1\n", FJ_BAD_LIMITS, 1);
    EXPECT_CHECK("async 33 1 1 1", FJ_BAD_LINE, 1);
    EXPECT_CHECK("async 1 1 1 1\nacc 0 sub 0 plain\nout 0 0\n", FJ_BAD_EVENT, 3);
    EXPECT_CHECK("async 1 1 1 9\nacc 0 sub 0 plain\nseal\n", FJ_BAD_EVENT, 3);
}

/* Each allocation of a check fails in turn. */
static void refused_check(void) {
    long number = 0;
    for (fj_reply r = {0}; r.code != FJ_COUNT; number++) {
        allocations = 0;
        fails_at = number;
        r = fj_check(text, size);
        fails_at = -1;
        if (r.code != FJ_COUNT) expect(__LINE__, "fj_check without memory", r.code, FJ_OUT_OF_MEMORY);
    }
    if (number < 6) expect(__LINE__, "the number of allocations", (uint32_t)number, 6);
}

int main(void) {
    fj_machine m = FJ_MACHINE_INIT;
    refused_by_none(NULL);
    refused_by_none(&m);
    refused_limits();
    prepare(&m);
    Seen before = look(&m);
    refused_arguments(&m);
    Seen after = look(&m);
    if (!same(&before, &after)) expect(__LINE__, "a machine whose calls were refused", 1, 0);
    fj_free(&m);
    refused_by_none(&m);
    EXPECT(fj_new(&m, FJ_ASYNC, 1, 1, 1, 1), FJ_DONE);
    fj_free(&m);
    refused_memory();
    refused_later();
    refused_texts();
    refused_check();
    return failures ? 1 : 0;
}
