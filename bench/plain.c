/* The job of `fj replay` in plain C, for comparison: the heading, and the step lines that the benchmark's scripts have. They are
   submit, fork, poll, end W ok, end W try, end W pass, hook, fault, cancel and release; any other line is a fault here. Without
   help and join a worker holds one task at most. The events are kept to the end, and never read again. */

#include <stdbool.h>
#include <stdint.h>
#include <stdio.h>
#include <stdlib.h>
#include <string.h>

enum { MAX_OWNERS = 32, MAX_QUEUES = 64, MAX_TASKS = 4096, MAX_EVENTS = 1048576, MAX_PENDING = 65535 };
enum { MAX_LINE = 64, MAX_WORDS = 5 };
enum { TOO_MANY = 2, LOG_FULL, NO_SUCH, UNKNOWN, NOT_RUNNING, NOT_COMPLETER = 8, NOT_DONE, TOO_LARGE, NOT_IDLE = 14 };

typedef enum { QUEUED, HELD, OPEN, GONE } Place;
typedef enum { UNDONE, NORMAL, EXCEPTIONAL, CANCELLED } Status;
typedef enum { ACC, OUT, SKIP, END, DEC, FIRE, PASS, HOOKED, SETTLE, REL } What;
typedef enum { COUNTED, EARLY, FIRES, SPENT } Arrival;

typedef struct {
    bool completer, relay, has_parent;
    uint32_t parent, count;
} Kind;

typedef struct {
    uint32_t number, code, pending, children;
    Kind kind;
    Place place;
    Status status;
    bool spent;
} Task;

typedef struct {
    What what;
    uint32_t task, by, code; /* by: a queue, a worker or a status */
    Kind kind;
} Event;

typedef struct {
    uint32_t first, length, tasks[MAX_TASKS];
} Queue;

typedef struct {
    bool full, has_parent, left; /* left: the completer was released with this status */
    uint32_t completer, parent;
    Status status;
} Hand;

static bool joining;
static uint32_t workers, submitters, max_tasks, max_events;
static Queue queues[MAX_QUEUES];
static Task *running[MAX_OWNERS];
static Hand hands[MAX_OWNERS];
static Task tasks[MAX_TASKS];
static uint32_t free_slots[MAX_TASKS], kept, made, happened;
static uint32_t slots[MAX_EVENTS]; /* by number: the task's slot and 1, or 0 if it is not kept */
static Event *history;
static char replies[8192];
static size_t replied;

static _Noreturn void fail(int status, const char *text) {
    fprintf(stderr, "%s\n", text);
    exit(status);
}

static void flush_replies(void) {
    if (fwrite(replies, 1, replied, stdout) != replied || fflush(stdout) != 0) fail(5, "write failed");
    replied = 0;
}

static void write_text(const char *text) {
    while (*text != '\0') replies[replied++] = *text++;
}

static void write_number(uint32_t number) {
    char digits[10];
    int length = 0;
    do digits[length++] = (char)('0' + number % 10);
    while ((number /= 10) > 0);
    while (length > 0) replies[replied++] = digits[--length];
}

/* Ends a reply. After it there is room for another one. */
static void end_line(void) {
    replies[replied++] = '\n';
    if (replied > sizeof replies - MAX_LINE) flush_replies();
}

static void say(const char *word) {
    write_text(word);
    end_line();
}

static void say_of(const char *word, uint32_t number) {
    write_text(word);
    write_text(" ");
    write_number(number);
    end_line();
}

static void refuse(uint32_t number) { say_of("refused", number); }

static void log_event(What what, uint32_t task, uint32_t by, uint32_t code) {
    history[happened++] = (Event){.what = what, .task = task, .by = by, .code = code};
}

/* Whether so many events fit into the history; if not, the step is refused. */
static bool has_room(uint32_t events) {
    if (events > max_events - happened) refuse(LOG_FULL);
    return events <= max_events - happened;
}

static Task *find(uint32_t number) { return number < made && slots[number] > 0 ? &tasks[slots[number] - 1] : NULL; }

static bool is_spent(const Task *t) { return t->spent || t->status != UNDONE; }

static void accept(uint32_t queue, Kind kind) {
    uint32_t slot = free_slots[kept++], number = made++;
    Queue *q = &queues[queue];
    tasks[slot] = (Task){.number = number, .pending = kind.count, .kind = kind, .place = QUEUED};
    slots[number] = slot + 1;
    if (kind.has_parent) find(kind.parent)->children++;
    history[happened++] = (Event){.what = ACC, .task = number, .by = queue, .kind = kind};
    q->tasks[(q->first + q->length++) % MAX_TASKS] = number;
    say_of("task", number);
}

static void accept_if_room(uint32_t queue, Kind kind) {
    if (kind.count > MAX_PENDING) refuse(TOO_LARGE);
    else if (kept == max_tasks) refuse(TOO_MANY);
    else if (has_room(1)) accept(queue, kind);
}

static void submit(uint32_t s, Kind kind) {
    if (s >= submitters) refuse(NO_SUCH);
    else accept_if_room(s, kind);
}

/* Whether the worker has a running task and no hook in its hand; if not, the step is refused. */
static bool runs(uint32_t w) {
    if (w >= workers) refuse(NO_SUCH);
    else if (hands[w].full) refuse(NOT_IDLE);
    else if (running[w] == NULL) refuse(NOT_RUNNING);
    else return true;
    return false;
}

static void fork_task(uint32_t w, Kind kind) {
    if (!runs(w)) return;
    const Task *parent = kind.has_parent ? find(kind.parent) : NULL;
    if (kind.has_parent && parent == NULL) refuse(UNKNOWN);
    else if (kind.has_parent && !parent->kind.completer) refuse(NOT_COMPLETER);
    else accept_if_room(submitters + w, kind);
}

static Queue *scan(uint32_t r) {
    uint32_t owners = submitters + workers, start = r % owners;
    for (uint32_t i = 0; i < owners; i++) {
        Queue *q = &queues[(start + i) % owners];
        if (q->length > 0) return q;
    }
    return NULL;
}

static void take(uint32_t w, Queue *q, bool newest) {
    uint32_t number = q->tasks[(q->first + (newest ? q->length - 1 : 0)) % MAX_TASKS];
    Task *t = find(number);
    q->length--;
    if (!newest) q->first = (q->first + 1) % MAX_TASKS;
    if (t->status != UNDONE) {
        log_event(SKIP, number, w, 0);
        t->place = GONE;
        say_of("skip", number);
        return;
    }
    log_event(OUT, number, w, 0);
    t->place = HELD;
    running[w] = t;
    say_of("run", number);
}

static void poll(uint32_t w, uint32_t r) {
    if (w >= workers) { refuse(NO_SUCH); return; }
    if (hands[w].full || running[w] != NULL) { refuse(NOT_IDLE); return; }
    Queue *own = &queues[submitters + w];
    Queue *q = own->length > 0 ? own : scan(r);
    if (q == NULL) say("none");
    else if (has_room(1)) take(w, q, joining && q == own);
}

static void settle(Task *t, Status status, uint32_t code) {
    log_event(SETTLE, t->number, status, code);
    t->status = status;
    t->code = code;
    if (t->place == OPEN) t->place = GONE;
}

static Arrival arrival(const Task *t, bool looks_at_place) {
    if (t == NULL || is_spent(t)) return SPENT;
    if (t->pending > 0) return COUNTED;
    return looks_at_place && (t->place == QUEUED || t->place == HELD) ? EARLY : FIRES;
}

static uint32_t events_of(Arrival a) { return a == COUNTED || a == FIRES ? 1 : 0; }

static void count_down(Task *t) {
    log_event(DEC, t->number, 0, 0);
    t->pending--;
    say_of("counted", t->number);
}

static void arrive(uint32_t number, uint32_t w) {
    Task *t = find(number);
    switch (arrival(t, true)) {
    case SPENT: say_of("spent", number); break;
    case COUNTED: count_down(t); break;
    case EARLY: say_of("early", number); break;
    case FIRES:
        log_event(FIRE, number, w, 0);
        t->spent = true;
        t->place = GONE;
        hands[w] = (Hand){.full = true, .has_parent = t->kind.has_parent, .completer = number, .parent = t->kind.parent};
        say_of("hook", number);
    }
}

static void end_body(Task *t, uint32_t w) {
    log_event(END, t->number, w, 0);
    running[w] = NULL;
    t->place = t->kind.completer && !is_spent(t) ? OPEN : GONE;
}

static void end_ok(Task *t, uint32_t w) {
    bool undone = t->status == UNDONE;
    if (!has_room(undone ? 2 : 1)) return;
    end_body(t, w);
    if (undone) settle(t, NORMAL, 0);
    say("done");
}

static void end_try(Task *t, uint32_t w) {
    if (!has_room(is_spent(t) ? 1 : 2)) return;
    end_body(t, w);
    arrive(t->number, w);
}

static void end_pass(Task *t, uint32_t w) {
    uint32_t passed = 0;
    Task *at = t, *root = NULL;
    Arrival a;
    while ((a = arrival(at, at != t)) == FIRES) {
        passed++;
        root = at;
        if (!at->kind.has_parent) break;
        at = find(at->kind.parent);
    }
    if (!has_room(1 + passed + events_of(a))) return;
    end_body(t, w);
    at = t;
    for (uint32_t i = 0; i < passed; i++) {
        log_event(PASS, at->number, 0, 0);
        at->spent = true;
        at->place = GONE;
        if (at->kind.has_parent) at = find(at->kind.parent);
    }
    if (a == FIRES) {
        settle(root, NORMAL, 0);
        say_of("root", root->number);
    } else if (a == COUNTED) count_down(at);
    else say_of(a == EARLY ? "early" : "spent", at->number);
}

static void end(uint32_t w, const char *ending) {
    if (!runs(w)) return;
    Task *t = running[w];
    bool ok = strcmp(ending, "ok") == 0;
    if (t->kind.completer == ok) refuse(NOT_COMPLETER);
    else if (ok) end_ok(t, w);
    else if (strcmp(ending, "try") == 0) end_try(t, w);
    else end_pass(t, w);
}

static void root_hook(uint32_t w, uint32_t number) {
    Task *t = find(number);
    bool undone = (hands[w].left ? hands[w].status : t->status) == UNDONE;
    if (!has_room(undone ? 2 : 1)) return;
    log_event(HOOKED, number, w, 0);
    hands[w].full = false;
    if (undone && t != NULL) settle(t, NORMAL, 0);
    else if (undone) log_event(SETTLE, number, NORMAL, 0);
    say_of(undone ? "root" : "spent", number);
}

static void hook(uint32_t w) {
    if (w >= workers) { refuse(NO_SUCH); return; }
    if (!hands[w].full) { refuse(NOT_RUNNING); return; }
    Hand *hand = &hands[w];
    if (!hand->has_parent) { root_hook(w, hand->completer); return; }
    if (!has_room(1 + events_of(arrival(find(hand->parent), true)))) return;
    log_event(HOOKED, hand->completer, w, 0);
    hand->full = false;
    arrive(hand->parent, w);
}

static Task *next_relayed(const Task *t) { return t->kind.relay && t->kind.has_parent ? find(t->kind.parent) : NULL; }

static void fault(uint32_t number, uint32_t code) {
    Task *t = find(number);
    uint32_t relayed = 0;
    if (t == NULL) { refuse(UNKNOWN); return; }
    if (t->status != UNDONE) { say("no"); return; }
    for (Task *at = t; at != NULL && at->status == UNDONE; at = next_relayed(at)) relayed++;
    if (!has_room(relayed)) return;
    for (; t != NULL && t->status == UNDONE; t = next_relayed(t)) settle(t, EXCEPTIONAL, code);
    say("yes");
}

static void cancel(uint32_t number) {
    Task *t = find(number);
    if (t == NULL) refuse(UNKNOWN);
    else if (t->status == CANCELLED) say("yes");
    else if (t->status != UNDONE) say("no");
    else if (has_room(1)) {
        settle(t, CANCELLED, 0);
        say("yes");
    }
}

static void release(uint32_t number) {
    Task *t = find(number);
    if (t == NULL) { refuse(UNKNOWN); return; }
    if (t->place != GONE || t->children > 0) { refuse(NOT_DONE); return; }
    if (!has_room(1)) return;
    log_event(REL, number, 0, 0);
    if (t->kind.has_parent) find(t->kind.parent)->children--;
    for (uint32_t w = 0; w < workers; w++)
        if (hands[w].full && hands[w].completer == number) {
            hands[w].left = true;
            hands[w].status = t->status;
        }
    free_slots[--kept] = slots[number] - 1;
    slots[number] = 0;
    say("done");
}

/* A number in its one form: up to 4,294,967,295, without leading zeros. */
static bool read_number(const char *word, uint32_t *number) {
    uint64_t value = 0;
    size_t length = strlen(word);
    if (length == 0 || length > 10 || (word[0] == '0' && length > 1)) return false;
    for (; *word != '\0'; word++) {
        if (*word < '0' || *word > '9') return false;
        value = 10 * value + (uint64_t)(*word - '0');
    }
    *number = (uint32_t)value;
    return value <= UINT32_MAX;
}

/* How many words a line has, with exactly one space between them. 0 if it has no line feed, or too many words. */
static int split(char *line, char *words[MAX_WORDS]) {
    int count = 0;
    char *end = strchr(line, '\n');
    if (end == NULL) return 0;
    *end = '\0';
    for (char *next = line; next != NULL; count++) {
        if (count == MAX_WORDS) return 0;
        words[count] = next;
        next = strchr(next, ' ');
        if (next != NULL) *next++ = '\0';
    }
    return count;
}

static bool read_kind(char *parent, char *count, char *relay, Kind *kind) {
    *kind = (Kind){.completer = true, .relay = strcmp(relay, "relay") == 0, .has_parent = strcmp(parent, "-") != 0};
    if (kind->has_parent && !read_number(parent, &kind->parent)) return false;
    return read_number(count, &kind->count) && (kind->relay || strcmp(relay, "stop") == 0);
}

static bool is_ending(const char *word) { return strcmp(word, "ok") == 0 || strcmp(word, "try") == 0 || strcmp(word, "pass") == 0; }

/* Makes the step of a line, and replies. False if it is no line of this program. */
static bool step(int count, char *words[MAX_WORDS]) {
    static char no_parent[] = "-";
    const char *verb = words[0];
    uint32_t a, b;
    Kind kind = {0};
    if (count < 2 || !read_number(words[1], &a)) return false;
    if (strcmp(verb, "submit") == 0 && count == 2) submit(a, kind);
    else if (strcmp(verb, "submit") == 0 && count == 4 && read_kind(no_parent, words[2], words[3], &kind)) submit(a, kind);
    else if (strcmp(verb, "fork") == 0 && count == 2) fork_task(a, kind);
    else if (strcmp(verb, "fork") == 0 && count == 5 && read_kind(words[2], words[3], words[4], &kind)) fork_task(a, kind);
    else if (strcmp(verb, "poll") == 0 && count == 3 && read_number(words[2], &b)) poll(a, b);
    else if (strcmp(verb, "end") == 0 && count == 3 && is_ending(words[2])) end(a, words[2]);
    else if (strcmp(verb, "hook") == 0 && count == 2) hook(a);
    else if (strcmp(verb, "fault") == 0 && count == 3 && read_number(words[2], &b)) fault(a, b);
    else if (strcmp(verb, "cancel") == 0 && count == 2) cancel(a);
    else if (strcmp(verb, "release") == 0 && count == 2) release(a);
    else return false;
    return true;
}

static bool is_in(uint32_t number, uint32_t most) { return 1 <= number && number <= most; }

/* Reads the heading, and takes the memory for the events. */
static bool start(int count, char *words[MAX_WORDS]) {
    joining = strcmp(words[0], "joining") == 0;
    if (count != 5 || !(joining || strcmp(words[0], "async") == 0)) return false;
    if (!read_number(words[1], &workers) || !read_number(words[2], &submitters)) return false;
    if (!read_number(words[3], &max_tasks) || !read_number(words[4], &max_events)) return false;
    bool owners = is_in(workers, MAX_OWNERS) && is_in(submitters, MAX_OWNERS);
    if (!owners || !is_in(max_tasks, MAX_TASKS) || !is_in(max_events, MAX_EVENTS)) fail(3, "refused 13");
    for (uint32_t slot = 0; slot < max_tasks; slot++) free_slots[slot] = slot;
    history = malloc(max_events * sizeof *history);
    if (history == NULL) fail(4, "out of memory");
    return true;
}

int main(void) {
    char line[MAX_LINE + 2], *words[MAX_WORDS];
    unsigned long number = 0;
    bool good = true;
    while (good && fgets(line, sizeof line, stdin) != NULL) {
        number++;
        int count = split(line, words);
        good = count > 0 && (number == 1 ? start(count, words) : step(count, words));
    }
    flush_replies();
    if (good && number > 0) return 0;
    fprintf(stderr, "fault: line %lu\n", number == 0 ? 1 : number);
    return 3;
}
