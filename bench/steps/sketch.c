/* The structures of the machine in plain C, and the loads of main.rt.in on them, for comparison: the history, a table of queues, the
   records with an index of their numbers, stacks, hands, and the lists of open and of gone tasks. It has the steps that the loads make,
   each with its refusals in their order: submit, fork, trigger, poll, join, end W ok, cancel and release. */

#define _POSIX_C_SOURCE 200809L
#include <stdbool.h>
#include <stdint.h>
#include <stdio.h>
#include <stdlib.h>
#include <string.h>
#include <time.h>

enum { TASKS = 4096, EVENTS = 1048576, MAX_WORKERS = 32, MAX_QUEUES = 64, MAX_PENDING = 65535, HINTS = 16384, TWICE = 2 * TASKS };
enum { EVENT_BYTES = 48 }; /* as an event of fj_rules has */
static const uint32_t NO_CELL = UINT32_MAX, NO_QUEUE = UINT32_MAX;
static const uint64_t NO_TASK = UINT64_MAX; /* at a key at which there is no record */

typedef enum { ASYNC, JOINING } Mode;
typedef enum { QUEUED, HELD, OPEN, GONE } Place;
typedef enum { UNDONE, NORMAL, EXCEPTIONAL, CANCELLED } Status;
typedef enum { ACC, MAKE, OUT, SKIP, END, SETTLE, REL } What;
typedef enum { SUBMIT, FORK, TRIGGER, POLL, JOIN, END_OK, CANCEL, RELEASE } Asked;
typedef enum { TASK, NONE, RUN, SKIPPED, DONE, YES, NO, JOINED, REFUSED } Reply;
typedef enum {
    CLOSED = 1, TOO_MANY, LOG_FULL, NO_SUCH, UNKNOWN, NOT_RUNNING, OWN_STACK, NOT_COMPLETER, NOT_DONE, TOO_LARGE, NOT_IDLE = 14
} Refusal;

typedef struct {
    bool completer, relay, has_parent;
    uint32_t count;
    uint64_t parent;
} Kind;

typedef struct {
    Asked asked;
    uint32_t who, number; /* who: a worker or a submitter; number: where a scan begins, or a count */
    uint64_t task;
    Kind kind;
} Step;

typedef struct {
    Reply reply;
    uint64_t value; /* a task, a status or a refusal */
} Said;

typedef union {
    struct {
        What what;
        uint32_t by; /* a queue, a worker or a status */
        uint64_t task;
        Kind kind;
    };
    char bytes[EVENT_BYTES];
} Event;

typedef struct {
    uint64_t task;
    Kind kind;
    Place place;
    uint32_t at; /* a queue or a worker */
    Status status;
    uint32_t code, pending;
    bool fired;
    uint64_t children;
} Record;

typedef struct {
    uint64_t task;
    uint32_t older, newer; /* a free cell has the next free one as its newer neighbour */
} Cell;

typedef struct {
    uint32_t oldest, newest, length;
} Queue;

typedef struct {
    uint64_t task;
    uint32_t key;
} Pair;

typedef struct {
    bool full, has_parent, released;
    uint64_t completer, parent;
    Status status; /* with which the completer was released */
} Hand;

typedef struct {
    Mode mode;
    uint32_t workers, submitters;
    bool closed, stopped;
    Event *history;
    uint32_t happened;
    Record *records;
    uint32_t *vacant, vacancies; /* the keys at which there is no record */
    uint64_t made;
    Pair *pairs; /* the numbers of the records, rising, and of those that were released since the list was closed up */
    uint32_t listed, released;
    uint16_t hints[HINTS]; /* by the rest of a number: the key to look at first */
    Cell *cells;
    uint32_t used, free_cell, queued;
    Queue queues[MAX_QUEUES];
    uint64_t *stacks[MAX_WORKERS];
    uint32_t depth[MAX_WORKERS];
    Hand hands[MAX_WORKERS];
    uint64_t *open, *stamps; /* the open tasks from place `open_from` on, and the stamps under which they were put, rising */
    uint32_t open_from, opened;
    uint64_t given, stamp_of[TASKS]; /* by key: the stamp that was given last */
    uint64_t *gone;
    uint32_t went;
} Machine;

static void stop(const char *why) {
    fprintf(stderr, "steps: %s\n", why);
    exit(1);
}

static void *room(size_t bytes) {
    void *taken = malloc(bytes);
    if (taken == NULL) stop("out of memory");
    return taken;
}

static Machine *new_machine(Mode mode, uint32_t workers) {
    Machine *m = calloc(1, sizeof *m);
    if (m == NULL) stop("out of memory");
    m->mode = mode;
    m->workers = workers;
    m->submitters = 1;
    m->history = room(sizeof(Event) * EVENTS);
    m->records = room(sizeof(Record) * TASKS);
    m->vacant = room(sizeof(uint32_t) * TASKS);
    m->vacancies = TASKS;
    for (uint32_t i = 0; i < TASKS; i++) {
        m->vacant[i] = TASKS - 1 - i;
        m->records[i].task = NO_TASK;
    }
    m->pairs = room(sizeof(Pair) * TWICE);
    m->cells = room(sizeof(Cell) * TASKS);
    m->free_cell = NO_CELL;
    for (uint32_t q = 0; q < m->submitters + workers; q++) m->queues[q] = (Queue){NO_CELL, NO_CELL, 0};
    for (uint32_t w = 0; w < workers; w++) m->stacks[w] = room(sizeof(uint64_t) * TASKS);
    m->open = room(sizeof(uint64_t) * TWICE);
    m->stamps = room(sizeof(uint64_t) * TWICE);
    m->gone = room(sizeof(uint64_t) * (EVENTS + TASKS));
    return m;
}

static void drop_machine(Machine *m) {
    free(m->history);
    free(m->records);
    free(m->vacant);
    free(m->pairs);
    free(m->cells);
    for (uint32_t w = 0; w < m->workers; w++) free(m->stacks[w]);
    free(m->open);
    free(m->stamps);
    free(m->gone);
    free(m);
}

/* The history. */

static Event *append(Machine *m, What what, uint64_t task, uint32_t by) {
    Event *event = &m->history[m->happened++];
    event->what = what;
    event->by = by;
    event->task = task;
    return event;
}

static bool has_room(const Machine *m, uint32_t events) { return events <= EVENTS - m->happened; }

/* The queues. */

static void join_cells(Machine *m, Queue *queue, uint32_t older, uint32_t newer) {
    if (older == NO_CELL) queue->oldest = newer;
    else m->cells[older].newer = newer;
    if (newer == NO_CELL) queue->newest = older;
    else m->cells[newer].older = older;
}

static void push(Machine *m, uint32_t q, uint64_t task) {
    Queue *queue = &m->queues[q];
    uint32_t number = m->free_cell;
    if (number == NO_CELL) number = m->used++;
    else m->free_cell = m->cells[number].newer;
    m->cells[number].task = task;
    join_cells(m, queue, queue->newest, number);
    join_cells(m, queue, number, NO_CELL);
    queue->length++;
    m->queued++;
}

static uint64_t take_from(Machine *m, uint32_t q, bool newest) {
    Queue *queue = &m->queues[q];
    uint32_t number = newest ? queue->newest : queue->oldest;
    Cell *cell = &m->cells[number];
    if (newest) join_cells(m, queue, cell->older, NO_CELL);
    else join_cells(m, queue, NO_CELL, cell->newer);
    cell->newer = m->free_cell;
    m->free_cell = number;
    queue->length--;
    m->queued--;
    return cell->task;
}

static uint32_t first_from(const Machine *m, uint32_t r) {
    uint32_t queues = m->submitters + m->workers, q = r % queues;
    for (uint32_t i = 0; i < queues; i++) {
        if (m->queues[q].length > 0) return q;
        if (++q == queues) q = 0;
    }
    return NO_QUEUE;
}

/* The records. */

static uint32_t key_of(const Machine *m, const Record *record) { return (uint32_t)(record - m->records); }

static Record *find(const Machine *m, uint64_t task) {
    uint32_t key = m->hints[task % HINTS], low = 0, high = m->listed;
    if (m->records[key].task == task) return &m->records[key];
    while (low < high) {
        uint32_t middle = low + (high - low) / 2;
        const Pair *pair = &m->pairs[middle];
        if (pair->task == task) return m->records[pair->key].task == task ? &m->records[pair->key] : NULL;
        if (pair->task < task) low = middle + 1;
        else high = middle;
    }
    return NULL;
}

static Record *insert(Machine *m, Kind kind, Place place, uint32_t at, Record *parent) {
    uint32_t key = m->vacant[--m->vacancies];
    Record *record = &m->records[key];
    *record = (Record){.task = m->made, .kind = kind, .place = place, .at = at, .pending = kind.count};
    m->pairs[m->listed++] = (Pair){m->made, key};
    m->hints[m->made % HINTS] = (uint16_t)key;
    m->made++;
    if (parent != NULL) parent->children++;
    return record;
}

/* The list is closed up once as many records were released as there is room for. */
static void forget(Machine *m, Record *record) {
    record->task = NO_TASK;
    m->vacant[m->vacancies++] = key_of(m, record);
    if (++m->released < TASKS) return;
    uint32_t left = 0;
    for (uint32_t i = 0; i < m->listed; i++)
        if (m->records[m->pairs[i].key].task == m->pairs[i].task) m->pairs[left++] = m->pairs[i];
    m->listed = left;
    m->released = 0;
}

/* The open tasks. */

static void add_open(Machine *m, const Record *record) {
    if (m->open_from + m->opened == TWICE) {
        memcpy(m->open, &m->open[m->open_from], sizeof(uint64_t) * m->opened);
        memcpy(m->stamps, &m->stamps[m->open_from], sizeof(uint64_t) * m->opened);
        m->open_from = 0;
    }
    m->open[m->open_from + m->opened] = record->task;
    m->stamps[m->open_from + m->opened++] = ++m->given;
    m->stamp_of[key_of(m, record)] = m->given;
}

/* A number is taken out of a list of so many by moving those before it, or those behind it. */
static void close_up(uint64_t *list, uint32_t length, uint32_t i, bool from_front) {
    if (from_front) memmove(list + 1, list, sizeof(uint64_t) * i);
    else memmove(list + i, list + i + 1, sizeof(uint64_t) * (length - i - 1));
}

/* The place is found by the stamp. The side with fewer numbers closes up. */
static void take_out(Machine *m, const Record *record) {
    uint64_t *open = &m->open[m->open_from], *stamps = &m->stamps[m->open_from], stamp = m->stamp_of[key_of(m, record)];
    uint32_t low = 0, high = m->opened;
    bool from_front;
    while (low < high) {
        uint32_t middle = low + (high - low) / 2;
        if (stamps[middle] < stamp) low = middle + 1;
        else high = middle;
    }
    from_front = low < m->opened - 1 - low;
    close_up(open, m->opened, low, from_front);
    close_up(stamps, m->opened, low, from_front);
    if (from_front) m->open_from++;
    m->opened--;
}

/* The updates: each appends one event. */

static Said accept(Machine *m, uint32_t q, Kind kind, Record *parent) {
    Record *record = insert(m, kind, QUEUED, q, parent);
    append(m, ACC, record->task, q)->kind = kind;
    push(m, q, record->task);
    return (Said){TASK, record->task};
}

static Said make_trigger(Machine *m, uint32_t count) {
    Kind kind = {.completer = true, .relay = true, .count = count};
    Record *record = insert(m, kind, OPEN, 0, NULL);
    append(m, MAKE, record->task, 0)->kind = kind;
    add_open(m, record);
    return (Said){TASK, record->task};
}

static Said take(Machine *m, uint32_t w, uint32_t q, bool newest) {
    uint64_t task = take_from(m, q, newest);
    Record *record = find(m, task);
    if (record->status != UNDONE) {
        append(m, SKIP, task, w);
        record->place = GONE;
        m->gone[m->went++] = task;
        return (Said){SKIPPED, task};
    }
    append(m, OUT, task, w);
    record->place = HELD;
    record->at = w;
    m->stacks[w][m->depth[w]++] = task;
    return (Said){RUN, task};
}

static void end_body(Machine *m, Record *record, uint32_t w) {
    append(m, END, record->task, w);
    m->depth[w]--;
    if (record->kind.completer && !record->fired && record->status == UNDONE) {
        record->place = OPEN;
        add_open(m, record);
    } else {
        record->place = GONE;
        m->gone[m->went++] = record->task;
    }
}

static void settle(Machine *m, Record *record, Status status) {
    append(m, SETTLE, record->task, status);
    record->status = status;
    if (record->place == OPEN) {
        record->place = GONE;
        take_out(m, record);
        m->gone[m->went++] = record->task;
    }
}

static void let_go(Machine *m, Record *record) {
    uint64_t task = record->task;
    Status status = record->status;
    append(m, REL, task, 0);
    if (record->kind.has_parent) {
        Record *parent = find(m, record->kind.parent);
        if (parent != NULL) parent->children--;
    }
    forget(m, record);
    for (uint32_t w = 0; w < m->workers; w++) {
        Hand *hand = &m->hands[w];
        if (hand->full && hand->completer == task) {
            hand->released = true;
            hand->status = status;
        }
    }
}

/* The steps. */

static Said refuse(Refusal refusal) { return (Said){REFUSED, refusal}; }

static Said submit(Machine *m, uint32_t s, Kind kind) {
    if (s >= m->submitters) return refuse(NO_SUCH);
    if (m->closed || m->stopped) return refuse(CLOSED);
    if (kind.count > MAX_PENDING) return refuse(TOO_LARGE);
    if (m->vacancies == 0) return refuse(TOO_MANY);
    if (!has_room(m, 1)) return refuse(LOG_FULL);
    return accept(m, s, kind, NULL);
}

static Said fork_task(Machine *m, uint32_t w, Kind kind) {
    Record *parent = NULL;
    if (w >= m->workers) return refuse(NO_SUCH);
    if (m->hands[w].full) return refuse(NOT_IDLE);
    if (m->depth[w] == 0) return refuse(NOT_RUNNING);
    if (kind.has_parent) {
        parent = find(m, kind.parent);
        if (parent == NULL) return refuse(UNKNOWN);
        if (!parent->kind.completer) return refuse(NOT_COMPLETER);
    }
    if (m->stopped) return refuse(CLOSED);
    if (kind.count > MAX_PENDING) return refuse(TOO_LARGE);
    if (m->vacancies == 0) return refuse(TOO_MANY);
    if (!has_room(m, 1)) return refuse(LOG_FULL);
    return accept(m, m->submitters + w, kind, parent);
}

static Said trigger(Machine *m, uint32_t w, uint32_t count) {
    if (w >= m->workers) return refuse(NO_SUCH);
    if (m->hands[w].full) return refuse(NOT_IDLE);
    if (m->depth[w] == 0) return refuse(NOT_RUNNING);
    if (m->stopped) return refuse(CLOSED);
    if (count > MAX_PENDING) return refuse(TOO_LARGE);
    if (m->vacancies == 0) return refuse(TOO_MANY);
    if (!has_room(m, 1)) return refuse(LOG_FULL);
    return make_trigger(m, count);
}

static Said take_choice(Machine *m, uint32_t w, uint32_t r) {
    uint32_t q = m->submitters + w;
    bool own = m->queues[q].length > 0;
    if (!own) q = first_from(m, r);
    if (q == NO_QUEUE) return (Said){NONE, 0};
    if (!has_room(m, 1)) return refuse(LOG_FULL);
    return take(m, w, q, own && m->mode == JOINING);
}

static Said poll(Machine *m, uint32_t w, uint32_t r) {
    if (w >= m->workers) return refuse(NO_SUCH);
    if (m->hands[w].full || m->depth[w] > 0) return refuse(NOT_IDLE);
    return take_choice(m, w, r);
}

static Said join(Machine *m, uint32_t w, uint64_t task, uint32_t r) {
    Record *record;
    if (w >= m->workers) return refuse(NO_SUCH);
    if (m->hands[w].full) return refuse(NOT_IDLE);
    if (m->depth[w] == 0) return refuse(NOT_RUNNING);
    record = find(m, task);
    if (record == NULL) return refuse(UNKNOWN);
    if (record->status != UNDONE) return (Said){JOINED, record->status};
    if (record->place == HELD && record->at == w) return refuse(OWN_STACK);
    return take_choice(m, w, r);
}

static Said end_ok(Machine *m, uint32_t w) {
    Record *record;
    bool undone;
    if (w >= m->workers) return refuse(NO_SUCH);
    if (m->hands[w].full) return refuse(NOT_IDLE);
    if (m->depth[w] == 0) return refuse(NOT_RUNNING);
    record = find(m, m->stacks[w][m->depth[w] - 1]);
    if (record->kind.completer) return refuse(NOT_COMPLETER);
    undone = record->status == UNDONE;
    if (!has_room(m, undone ? 2 : 1)) return refuse(LOG_FULL);
    end_body(m, record, w);
    if (undone) settle(m, record, NORMAL);
    return (Said){DONE, 0};
}

static Said cancel(Machine *m, uint64_t task) {
    Record *record = find(m, task);
    if (record == NULL) return refuse(UNKNOWN);
    if (record->status == CANCELLED) return (Said){YES, 0};
    if (record->status != UNDONE) return (Said){NO, 0};
    if (!has_room(m, 1)) return refuse(LOG_FULL);
    settle(m, record, CANCELLED);
    return (Said){YES, 0};
}

static Said release(Machine *m, uint64_t task) {
    Record *record = find(m, task);
    if (record == NULL) return refuse(UNKNOWN);
    if (record->place != GONE || record->children > 0) return refuse(NOT_DONE);
    if (!has_room(m, 1)) return refuse(LOG_FULL);
    let_go(m, record);
    return (Said){DONE, 0};
}

/* Not inlined: its caller does not tell it which step comes. */
__attribute__((noinline)) static Said make_step(Machine *m, const Step *step) {
    switch (step->asked) {
    case SUBMIT: return submit(m, step->who, step->kind);
    case FORK: return fork_task(m, step->who, step->kind);
    case TRIGGER: return trigger(m, step->who, step->number);
    case POLL: return poll(m, step->who, step->number);
    case JOIN: return join(m, step->who, step->task, step->number);
    case END_OK: return end_ok(m, step->who);
    case CANCEL: return cancel(m, step->task);
    case RELEASE: return release(m, step->task);
    }
    return refuse(NO_SUCH);
}

/* The loads, as in main.rt.in. */

typedef enum { PLAIN, JOINS, MIDDLE, FIRST, RANDOM } Load;

static const char *const names[] = {"plain", "join", "middle", "first", "random"};
static const uint32_t events_of[] = {5, 5, 5, 3, 3}, steps_of[] = {4, 5, 4, 3, 3};

typedef struct {
    Machine *machine;
    uint64_t accepted, random, tasks[TASKS];
    uint32_t kept, first;
} Bench;

static void make(Bench *b, Step step, Reply reply, uint64_t value) {
    Said said = make_step(b->machine, &step);
    if (said.reply != reply || said.value != value) stop("another reply than the one that is due");
}

static uint64_t accept_next(Bench *b, Step step) {
    uint64_t task = b->accepted;
    make(b, step, TASK, task);
    b->accepted++;
    return task;
}

static uint64_t begin(Bench *b) {
    uint64_t task = accept_next(b, (Step){.asked = SUBMIT});
    make(b, (Step){.asked = POLL}, RUN, task);
    return task;
}

static uint64_t pass(Bench *b) {
    uint64_t task = begin(b);
    make(b, (Step){.asked = END_OK}, DONE, 0);
    return task;
}

static uint64_t descend(Bench *b) {
    uint64_t task = accept_next(b, (Step){.asked = FORK});
    make(b, (Step){.asked = JOIN, .task = task}, RUN, task);
    return task;
}

static void release_task(Bench *b, uint64_t task) { make(b, (Step){.asked = RELEASE, .task = task}, DONE, 0); }

static void prepare(Bench *b, Load load, uint32_t keep) {
    if (load != PLAIN && load != MIDDLE) begin(b);
    for (uint32_t i = 0; i < keep; i++) {
        b->tasks[b->kept++] = load == PLAIN || load == MIDDLE ? pass(b)
                              : load == JOINS                 ? descend(b)
                                                              : accept_next(b, (Step){.asked = TRIGGER});
    }
}

static uint32_t next_first(Bench *b) {
    uint32_t i = b->first++;
    if (b->first == b->kept) b->first = 0;
    return i;
}

static uint32_t next_random(Bench *b) {
    b->random = b->random * 6364136223846793005u + 1442695040888963407u;
    return b->kept == 0 ? 0 : (uint32_t)((b->random >> 33) % b->kept);
}

static void plain_round(Bench *b) { release_task(b, pass(b)); }

static void join_round(Bench *b) {
    uint64_t task = descend(b);
    make(b, (Step){.asked = END_OK}, DONE, 0);
    make(b, (Step){.asked = JOIN, .task = task}, JOINED, NORMAL);
    release_task(b, task);
}

static void middle_round(Bench *b) {
    uint32_t i = next_random(b);
    if (i >= b->kept) stop("no tasks are kept");
    release_task(b, b->tasks[i]);
    b->tasks[i] = pass(b);
}

static void open_round(Bench *b, uint32_t i) {
    if (i >= b->kept) stop("no tasks are kept");
    make(b, (Step){.asked = CANCEL, .task = b->tasks[i]}, YES, 0);
    release_task(b, b->tasks[i]);
    b->tasks[i] = accept_next(b, (Step){.asked = TRIGGER});
}

static void make_round(Bench *b, Load load) {
    switch (load) {
    case PLAIN: plain_round(b); break;
    case JOINS: join_round(b); break;
    case MIDDLE: middle_round(b); break;
    case FIRST: open_round(b, next_first(b)); break;
    case RANDOM: open_round(b, next_random(b)); break;
    }
}

static uint64_t now(void) {
    struct timespec time;
    clock_gettime(CLOCK_MONOTONIC, &time);
    return (uint64_t)time.tv_sec * 1000000000u + (uint64_t)time.tv_nsec;
}

/* As many rounds as the history of one machine has room for, and no more than are wanted: how many they were. */
static uint64_t run(Load load, uint32_t keep, uint32_t workers, uint64_t wanted, uint64_t *spent) {
    Bench b = {.machine = new_machine(load == JOINS ? JOINING : ASYNC, workers), .random = 1};
    uint64_t rounds, start;
    prepare(&b, load, keep);
    rounds = (EVENTS - b.machine->happened) / events_of[load];
    if (wanted < rounds) rounds = wanted;
    start = now();
    for (uint64_t i = 0; i < rounds; i++) make_round(&b, load);
    *spent += now() - start;
    drop_machine(b.machine);
    return rounds;
}

static uint64_t number(const char *word, uint64_t most) {
    char *end;
    uint64_t value = strtoull(word, &end, 10);
    if (*end != '\0' || value > most) stop("usage: sketch ROUNDS KEEP [LOAD [WORKERS]]");
    return value;
}

int main(int count, char **words) {
    uint64_t rounds = count > 1 ? number(words[1], UINT32_MAX) : 1000000, spent = 0;
    uint32_t keep = count > 2 ? (uint32_t)number(words[2], TASKS) : 0;
    uint32_t workers = count > 4 ? (uint32_t)number(words[4], MAX_WORKERS) : 4;
    Load load = PLAIN;
    if (count > 3) {
        while (load <= RANDOM && strcmp(words[3], names[load]) != 0) load++;
        if (load > RANDOM) stop("a load is plain, join, middle, first or random");
    }
    if (workers == 0) stop("usage: sketch ROUNDS KEEP [LOAD [WORKERS]]");
    for (uint64_t left = rounds; left > 0;) left -= run(load, keep, workers, left, &spent);
    printf("%llu %llu\n", (unsigned long long)(rounds * steps_of[load]), (unsigned long long)spent);
    return 0;
}
