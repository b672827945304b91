/* The loads of main.rt.in, each step by a call of fj.h, for comparison. */

#define _POSIX_C_SOURCE 200809L
#include "fj.h"

#include <stdio.h>
#include <stdlib.h>
#include <string.h>
#include <time.h>

enum { TASKS = 4096, EVENTS = 1048576 };

typedef enum { PLAIN, JOINS, MIDDLE, FIRST, RANDOM } Load;

static const char *const names[] = {"plain", "join", "middle", "first", "random"};
static const uint32_t events_of[] = {5, 5, 5, 3, 3}, steps_of[] = {4, 5, 4, 3, 3};

typedef struct {
    fj_machine machine;
    bool failed; /* some reply was not the expected one */
    uint64_t accepted, tasks[TASKS], random;
    uint32_t kept, first;
} Bench;

static void stop(const char *why) {
    fprintf(stderr, "%s\n", why);
    exit(1);
}

static void expect(Bench *b, fj_reply r, uint32_t code, uint64_t number) {
    if (r.code != code || r.number != number) b->failed = true;
}

/* The number of the task that a step accepted. */
static uint64_t accepted(Bench *b, fj_reply r) {
    uint64_t task = b->accepted++;
    expect(b, r, FJ_TASK, task);
    return task;
}

static uint64_t begin(Bench *b) {
    uint64_t task = accepted(b, fj_submit(&b->machine, 0));
    expect(b, fj_poll(&b->machine, 0, 0), FJ_RUN, task);
    return task;
}

static uint64_t pass(Bench *b) {
    uint64_t task = begin(b);
    expect(b, fj_end(&b->machine, 0, FJ_OK, 0), FJ_DONE, 0);
    return task;
}

static uint64_t descend(Bench *b) {
    uint64_t task = accepted(b, fj_fork(&b->machine, 0));
    expect(b, fj_join(&b->machine, 0, task, 0), FJ_RUN, task);
    return task;
}

static uint64_t open_next(Bench *b) { return accepted(b, fj_trigger(&b->machine, 0, 0)); }

static void release(Bench *b, uint64_t task) { expect(b, fj_release(&b->machine, task), FJ_DONE, 0); }

static void prepare(Bench *b, Load load, uint32_t keep) {
    if (load != PLAIN && load != MIDDLE) begin(b);
    for (uint32_t i = 0; i < keep; i++) {
        b->tasks[b->kept++] = load == PLAIN || load == MIDDLE ? pass(b) : load == JOINS ? descend(b) : open_next(b);
    }
}

static uint32_t next_first(Bench *b) {
    uint32_t i = b->first++;
    if (b->first == b->kept) b->first = 0;
    return i;
}

static uint32_t next_random(Bench *b) {
    b->random = b->random * 6364136223846793005u + 1442695040888963407u;
    return b->kept == 0 ? 0 : (uint32_t)((b->random >> 33) % b->kept);
}

static void plain_round(Bench *b) { release(b, pass(b)); }

static void join_round(Bench *b) {
    uint64_t task = descend(b);
    expect(b, fj_end(&b->machine, 0, FJ_OK, 0), FJ_DONE, 0);
    expect(b, fj_join(&b->machine, 0, task, 0), FJ_NORMAL, 0);
    release(b, task);
}

static void middle_round(Bench *b) {
    uint32_t i = next_random(b);
    if (i >= b->kept) stop("no tasks are kept");
    release(b, b->tasks[i]);
    b->tasks[i] = pass(b);
}

static void open_round(Bench *b, uint32_t i) {
    if (i >= b->kept) stop("no tasks are kept");
    expect(b, fj_cancel(&b->machine, b->tasks[i]), FJ_YES, 0);
    release(b, b->tasks[i]);
    b->tasks[i] = open_next(b);
}

static void make_round(Bench *b, Load load) {
    switch (load) {
    case PLAIN: plain_round(b); break;
    case JOINS: join_round(b); break;
    case MIDDLE: middle_round(b); break;
    case FIRST: open_round(b, next_first(b)); break;
    case RANDOM: open_round(b, next_random(b)); break;
    }
}

static uint64_t now(void) {
    struct timespec time;
    clock_gettime(CLOCK_MONOTONIC, &time);
    return (uint64_t)time.tv_sec * 1000000000u + (uint64_t)time.tv_nsec;
}

/* As many rounds as the history of one machine has room for, and no more than are wanted: how many they were. */
static uint64_t run(Load load, uint32_t keep, uint32_t workers, uint64_t wanted, uint64_t *spent) {
    static Bench b;
    uint64_t rounds, start;
    b = (Bench){.random = 1};
    if (fj_new(&b.machine, load == JOINS ? FJ_JOINING : FJ_ASYNC, workers, 1, TASKS, EVENTS).code != FJ_DONE) stop("no machine");
    prepare(&b, load, keep);
    rounds = (EVENTS - fj_events(&b.machine).number) / events_of[load];
    if (wanted < rounds) rounds = wanted;
    start = now();
    for (uint64_t i = 0; i < rounds; i++) make_round(&b, load);
    *spent += now() - start;
    if (b.failed) stop("another reply than the one that is due");
    fj_free(&b.machine);
    return rounds;
}

static uint64_t number(const char *word, uint64_t most) {
    char *end;
    uint64_t value = strtoull(word, &end, 10);
    if (*end != '\0' || value > most) stop("usage: interface ROUNDS KEEP [LOAD [WORKERS]]");
    return value;
}

int main(int count, char **words) {
    uint64_t rounds = count > 1 ? number(words[1], UINT32_MAX) : 1000000, spent = 0;
    uint32_t keep = count > 2 ? (uint32_t)number(words[2], TASKS) : 0;
    uint32_t workers = count > 4 ? (uint32_t)number(words[4], 32) : 4;
    Load load = PLAIN;
    if (count > 3) {
        while (load <= RANDOM && strcmp(words[3], names[load]) != 0) load++;
        if (load > RANDOM) stop("a load is plain, join, middle, first or random");
    }
    for (uint64_t left = rounds; left > 0;) left -= run(load, keep, workers, left, &spent);
    printf("%llu %llu\n", (unsigned long long)(rounds * steps_of[load]), (unsigned long long)spent);
    return 0;
}
