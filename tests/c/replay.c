/* Replays a script of version 1 through fj.h, as `fj replay` does: a reply line for each step line.
 *
 *     replay < SCRIPT            the replies
 *     replay history < SCRIPT    the history of the run, as `fj trace` writes it
 *
 * In this way it also has the lines `seal` and `epoch`, with the replies of version 2. Any other line that is no step ends it, with status 2. */
#include "fj.h"

#include <inttypes.h>
#include <stdio.h>
#include <stdlib.h>
#include <string.h>

enum { MAX_WORDS = 6 };

static fj_machine machine = FJ_MACHINE_INIT;
static uint32_t mode, limits[4]; /* workers, submitters, tasks, events */
static char *words[MAX_WORDS];
static int count;

static void fault(const char *why) {
    fprintf(stderr, "replay: %s\n", why);
    exit(2);
}

/* Cuts a line into words. */
static bool read_line(void) {
    static char line[128];
    if (!fgets(line, sizeof line, stdin)) return false;
    count = 0;
    for (char *word = strtok(line, " \n"); word && count < MAX_WORDS; word = strtok(NULL, " \n")) words[count++] = word;
    if (count == 0) fault("an empty line");
    return true;
}

static uint32_t number(int word) {
    if (word >= count) fault("a word is missing");
    return (uint32_t)strtoul(words[word], NULL, 10);
}

static bool relays(int word) { return word < count && strcmp(words[word], "relay") == 0; }

static bool is(const char *word) { return strcmp(words[0], word) == 0; }

/* ---- steps */

static uint32_t ending(void) {
    static const char *const names[] = {"ok", "quiet", "try", "pass", "complete", "fail"};
    for (uint32_t i = 0; i < 6; i++)
        if (strcmp(words[2], names[i]) == 0) return i;
    return 6;
}

static fj_reply fork_step(void) {
    if (count == 2) return fj_fork(&machine, number(1));
    uint64_t parent = strcmp(words[2], "-") == 0 ? FJ_NO_TASK : number(2);
    return fj_fork_completer(&machine, number(1), parent, number(3), relays(4));
}

static fj_reply step(void) {
    fj_machine *m = &machine;
    if (is("submit")) return count == 2 ? fj_submit(m, number(1)) : fj_submit_completer(m, number(1), number(2), relays(3));
    if (is("fork")) return fork_step();
    if (is("trigger")) return fj_trigger(m, number(1), number(2));
    if (is("poll")) return fj_poll(m, number(1), number(2));
    if (is("help")) return fj_help(m, number(1), number(2));
    if (is("join")) return fj_join(m, number(1), number(2), number(3));
    if (is("end")) return fj_end(m, number(1), ending(), count > 3 ? number(3) : 0);
    if (is("hook")) return fj_hook_done(m, number(1));
    if (is("add")) return fj_add(m, number(1), number(2), number(3));
    if (is("root")) return fj_quiet_root(m, number(1), number(2));
    if (is("fault")) return fj_fault(m, number(1), number(2));
    if (is("cancel")) return fj_cancel(m, number(1));
    if (is("shutdown")) return fj_shutdown(m);
    if (is("stop")) return fj_stop(m);
    if (is("quiet")) return fj_is_quiescent(m);
    if (is("state")) return fj_state(m, number(1));
    if (is("release")) return fj_release(m, number(1));
    fault("no step");
    return fj_stop(m);
}

/* ---- replies */

static void say_status(uint64_t status) {
    if (status == FJ_STATUS_UNDONE) puts("undone");
    else if (status == FJ_STATUS_NORMAL) puts("normal");
    else if (status == FJ_STATUS_CANCELLED) puts("cancelled");
    else printf("exceptional %" PRIu64 "\n", status - FJ_STATUS_FAULT);
}

static void say(fj_reply r) {
    switch (r.code) {
    case FJ_SUBMITTED: printf("state queued %" PRIu32 " ", r.by); break;
    case FJ_FORKED: printf("state queued %" PRIu32 " ", limits[1] + r.by); break;
    case FJ_HELD: printf("state held %" PRIu32 " ", r.by); break;
    case FJ_OPEN: printf("state open "); break;
    case FJ_GONE: printf("state gone "); break;
    case FJ_DONE: case FJ_NONE: case FJ_YES: case FJ_NO: case FJ_NORMAL: case FJ_CANCELLED: puts(fj_meaning(r.code)); return;
    default:
        if (fj_refused(r)) printf("refused %" PRIu32 "\n", r.code);
        else printf("%s %" PRIu64 "\n", fj_meaning(r.code), r.number);
        return;
    }
    say_status(r.number);
}

static void say_seal(void) {
    fj_reply epoch = fj_epoch(&machine), sealed = fj_seal(&machine);
    if (fj_refused(sealed)) say(sealed);
    else printf("sealed %" PRIu64 " %" PRIu64 "\n", epoch.number, sealed.number);
}

/* ---- the history */

/* How many events since the last seal were written. */
static uint64_t written;

static void print_new_events(void) {
    char line[FJ_LINE];
    fj_reply r;
    for (; (r = fj_print_event(&machine, written, line, sizeof line)).code == FJ_COUNT; written++) fwrite(line, 1, r.number, stdout);
    if (r.code != FJ_NO_PLACE) fault(fj_meaning(r.code));
}

static void print_heading(void) {
    char line[FJ_LINE];
    fj_reply r = fj_print_heading(mode, limits[0], limits[1], limits[2], limits[3], line, sizeof line);
    if (r.code != FJ_COUNT) fault(fj_meaning(r.code));
    fwrite(line, 1, r.number, stdout);
}

static void print_seal(void) {
    if (fj_refused(fj_seal(&machine))) return;
    puts("seal");
    written = 0;
}

/* Makes a step or a seal, and writes the reply, or the history so far. */
static void make(bool tells) {
    if (is("seal")) {
        if (tells) say_seal();
        else print_seal();
    } else if (is("epoch")) {
        if (tells) printf("epoch %" PRIu64 " %" PRIu64 "\n", fj_epoch(&machine).number, fj_events(&machine).number);
    } else {
        fj_reply r = step();
        if (tells) say(r);
        else print_new_events();
    }
}

int main(int arguments, char **argument) {
    bool tells = arguments < 2 || strcmp(argument[1], "history") != 0;
    if (!read_line() || count != 5) fault("no heading");
    mode = is("joining") ? FJ_JOINING : FJ_ASYNC;
    for (int i = 0; i < 4; i++) limits[i] = number(i + 1);
    fj_reply made = fj_new(&machine, mode, limits[0], limits[1], limits[2], limits[3]);
    if (made.code != FJ_DONE) {
        say(made);
        return 3;
    }
    if (!tells) print_heading();
    while (read_line()) make(tells);
    fj_free(&machine);
    return 0;
}
