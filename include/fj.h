/* The scheduler of a fork-join pool as single steps: no thread, no lock, and no allocation once a machine is made.
 *
 * A machine keeps queues, stacks and counted completers, as ForkJoinPool of Java SE 17. It never runs a body: fj_poll says which task a
 * worker of yours is to run, and fj_end takes in how its body ended. Tasks have numbers, 0, 1, 2 .. in the order of acceptance.
 *
 *     fj_machine m = FJ_MACHINE_INIT;
 *     if (fj_new(&m, FJ_ASYNC, 2, 1, 64, 4096).code != FJ_DONE) return 1;
 *     fj_submit(&m, 0);
 *     fj_reply r = fj_poll(&m, 0, 0);
 *     if (r.code == FJ_RUN) { body(r.number); fj_end(&m, 0, FJ_OK, 0); fj_release(&m, r.number); }
 *     fj_free(&m);
 *
 * docs/C.md says how to link, and what a caller must uphold. Every call is refused with a code, and then changes nothing, where an
 * argument is out of its range, the machine was not made or is freed, or a pointer is NULL. */
#ifndef FJ_H
#define FJ_H

#include <stdbool.h>
#include <stddef.h>
#include <stdint.h>

#ifdef __cplusplus
extern "C" {
#endif

/* A machine, or none. Begin with FJ_MACHINE_INIT. Never copy one, and never write to it. */
typedef struct { void *at; } fj_machine;

#define FJ_MACHINE_INIT {0}

/* What a call answers: a code, and two numbers that the code explains. Where nothing is said of one it is 0. */
typedef struct { uint32_t code, by; uint64_t number; } fj_reply;

/* ---- codes */

enum {
    FJ_DONE = 0, /* the call did what it was asked for */

    /* Refusals, 1 to 31. Where several apply, the first of those that the call lists. */
    FJ_CLOSED = 1,           /* nothing more is accepted */
    FJ_TOO_MANY_TASKS = 2,   /* as many tasks are kept as the limit allows: release some */
    FJ_LOG_FULL = 3,         /* the events of the step do not fit into the history: seal it */
    FJ_NO_SUCH = 4,          /* there is no such submitter or worker */
    FJ_UNKNOWN = 5,          /* the task was never accepted, or was released */
    FJ_NOT_RUNNING = 6,      /* the worker runs nothing, or has no completion action in its hand */
    FJ_OWN_STACK = 7,        /* the task to join is undone and on the worker's own stack */
    FJ_NOT_COMPLETER = 8,    /* the task is of the wrong kind for this step */
    FJ_NOT_DONE = 9,         /* the task is not gone, or a kept task names it as its parent */
    FJ_COUNT_TOO_LARGE = 10, /* a pending count would pass 65535 */
    FJ_OUT_OF_MEMORY = 12,
    FJ_BAD_LIMITS = 13,      /* a limit is out of its range */
    FJ_NOT_IDLE = 14,        /* the worker is not idle, or has a completion action in its hand */
    FJ_NO_MACHINE = 17,      /* NULL, or not made, or freed */
    FJ_BAD_ARGUMENT = 18,    /* an unknown mode or ending, or NULL where something is to be read or written */
    FJ_IN_USE = 19,          /* there is a machine already */
    FJ_NO_PLACE = 20,        /* the list or the history has nothing at this place */
    FJ_TOO_SMALL = 21,       /* the text does not fit; number: its bytes */
    FJ_BAD_LINE = 22,        /* the line is none of a history, or has no line feed; number: which, from 1 on */
    FJ_BAD_EVENT = 23,       /* the event of the line does not follow those before it, or a seal may not stand there; number: which line */

    /* Replies, from 32 on. What is named is the number. */
    FJ_TASK = 32,        /* the task that was accepted, or is asked for */
    FJ_NONE = 33,        /* there is no task */
    FJ_RUN = 34,         /* the task whose body is to be run */
    FJ_SKIP = 35,        /* the task, done already; it left its queue and is not run */
    FJ_COUNTED = 36,     /* the completer whose pending count fell by one */
    FJ_HOOK = 37,        /* the completer whose completion action is to be run, and then fj_hook_done to be called */
    FJ_SPENT = 38,       /* the completer, which had fired, was passed or is done; nothing changed at it */
    FJ_EARLY = 39,       /* the completer, still queued or held; nothing changed at it */
    FJ_ROOT = 40,        /* the completer without a parent that became normal */
    FJ_COUNT = 41,       /* what was counted */
    FJ_YES = 42,
    FJ_NO = 43,
    FJ_NORMAL = 44,      /* the joined task is done, without a fault */
    FJ_EXCEPTIONAL = 45, /* the code of the fault with which the joined task is done */
    FJ_CANCELLED = 46,   /* the joined task is cancelled */

    /* Replies to fj_state: where the task is. by: whose queue or stack; number: a status, below. */
    FJ_SUBMITTED = 47, /* in the queue of a submitter */
    FJ_FORKED = 48,    /* in the queue of a worker */
    FJ_HELD = 49,      /* on the stack of a worker: its body has begun and has not ended */
    FJ_OPEN = 50,      /* a completer that waits for arrivals */
    FJ_GONE = 51       /* everywhere else */
};

/* Whether a call was refused, and changed nothing. */
static inline bool fj_refused(fj_reply r) { return r.code - 1 < 31; }

/* The meaning of a code in words. NULL if there is no such code. */
const char *fj_meaning(uint32_t code);

/* How far a task has come. From FJ_STATUS_FAULT on: a fault, of the code status - FJ_STATUS_FAULT. */
#define FJ_STATUS_UNDONE ((uint64_t)0)
#define FJ_STATUS_NORMAL ((uint64_t)1)
#define FJ_STATUS_CANCELLED ((uint64_t)2)
#define FJ_STATUS_FAULT ((uint64_t)1 << 32)

/* No parent. */
#define FJ_NO_TASK UINT64_MAX

/* ---- life */

/* In which order a worker takes tasks from its own queue. */
enum { FJ_ASYNC = 0 /* the oldest first */, FJ_JOINING = 1 /* the newest first */ };

/* Makes a machine, with all memory that it will need: 1 to 32 workers, numbered from 0 on, and as many submitters, 1 to 4096 tasks that
 * are kept at once, and a history of 1 to 1048576 events between two seals.
 * FJ_DONE. Refused: FJ_NO_MACHINE (NULL), FJ_BAD_ARGUMENT, FJ_IN_USE, FJ_BAD_LIMITS, FJ_OUT_OF_MEMORY. */
fj_reply fj_new(fj_machine *m, uint32_t mode, uint32_t workers, uint32_t submitters, uint32_t tasks, uint32_t events);

/* Frees a machine, if there is one. Later calls are refused with FJ_NO_MACHINE, but for fj_new. */
void fj_free(fj_machine *m);

/* ---- steps: a task comes into the pool. s is a submitter, w a worker. FJ_TASK.
 * A count is a completer's pending count, 0 to 65535. With relay its fault is passed on to its parent.
 * Every step may also be refused with FJ_NO_MACHINE. */

/* ForkJoinPool.submit. Refused: FJ_NO_SUCH, FJ_CLOSED, FJ_COUNT_TOO_LARGE, FJ_TOO_MANY_TASKS, FJ_LOG_FULL. */
fj_reply fj_submit(fj_machine *m, uint32_t s);
fj_reply fj_submit_completer(fj_machine *m, uint32_t s, uint32_t count, bool relay);

/* ForkJoinTask.fork, by the running task of w. The parent is a kept completer, or FJ_NO_TASK.
 * Refused: FJ_NO_SUCH, FJ_NOT_IDLE, FJ_NOT_RUNNING, FJ_UNKNOWN or FJ_NOT_COMPLETER (the parent), FJ_CLOSED, FJ_COUNT_TOO_LARGE,
 * FJ_TOO_MANY_TASKS, FJ_LOG_FULL. */
fj_reply fj_fork(fj_machine *m, uint32_t w);
fj_reply fj_fork_completer(fj_machine *m, uint32_t w, uint64_t parent, uint32_t count, bool relay);

/* The running task of w makes a completer without a parent that is never queued: only arrivals at it count. Refused as fj_fork. */
fj_reply fj_trigger(fj_machine *m, uint32_t w, uint32_t count);

/* ---- steps: a worker takes a task. r, modulo the number of queues, is where its scan begins: first the submitters' queues, then the
 * workers'. FJ_RUN, FJ_SKIP, FJ_NONE. */

/* An idle worker asks for its next task. Refused: FJ_NO_SUCH, FJ_NOT_IDLE, FJ_LOG_FULL. */
fj_reply fj_poll(fj_machine *m, uint32_t w, uint32_t r);

/* The running task of w helps. Refused: FJ_NO_SUCH, FJ_NOT_IDLE, FJ_NOT_RUNNING, FJ_LOG_FULL. */
fj_reply fj_help(fj_machine *m, uint32_t w, uint32_t r);

/* The running task of w joins t: FJ_NORMAL, FJ_EXCEPTIONAL or FJ_CANCELLED if t is done, else w takes a task, as by fj_poll.
 * Refused: FJ_NO_SUCH, FJ_NOT_IDLE, FJ_NOT_RUNNING, FJ_UNKNOWN, FJ_OWN_STACK, FJ_LOG_FULL. */
fj_reply fj_join(fj_machine *m, uint32_t w, uint64_t t, uint32_t r);

/* ---- steps: a body or a completion action ends */

enum {
    FJ_OK = 0,       /* a plain task: it becomes normal */
    FJ_QUIET = 1,    /* a completer: nothing is completed */
    FJ_TRY = 2,      /* CountedCompleter.tryComplete */
    FJ_PASS = 3,     /* CountedCompleter.propagateCompletion */
    FJ_COMPLETE = 4, /* CountedCompleter.complete */
    FJ_FAIL = 5      /* the body failed, with this fault */
};

/* The body of the running task of w ends. The fault is read for FJ_FAIL alone.
 * FJ_DONE, FJ_COUNTED, FJ_HOOK, FJ_SPENT, FJ_EARLY, FJ_ROOT.
 * Refused: FJ_BAD_ARGUMENT, FJ_NO_SUCH, FJ_NOT_IDLE, FJ_NOT_RUNNING, FJ_NOT_COMPLETER, FJ_LOG_FULL. */
fj_reply fj_end(fj_machine *m, uint32_t w, uint32_t ending, uint32_t fault);

/* The completion action in the hand of w ends. FJ_COUNTED, FJ_HOOK (of the parent), FJ_SPENT, FJ_EARLY, FJ_ROOT.
 * Refused: FJ_NO_SUCH, FJ_NOT_RUNNING, FJ_LOG_FULL. */
fj_reply fj_hook_done(fj_machine *m, uint32_t w);

/* ---- steps of a running task at completers */

/* CountedCompleter.addToPendingCount. FJ_COUNT: the new pending count.
 * Refused: FJ_NO_SUCH, FJ_NOT_IDLE, FJ_NOT_RUNNING, FJ_UNKNOWN, FJ_NOT_COMPLETER, FJ_COUNT_TOO_LARGE, FJ_LOG_FULL. */
fj_reply fj_add(fj_machine *m, uint32_t w, uint64_t c, uint32_t n);

/* CountedCompleter.quietlyCompleteRoot. FJ_ROOT, FJ_SPENT.
 * Refused: FJ_NO_SUCH, FJ_NOT_IDLE, FJ_NOT_RUNNING, FJ_UNKNOWN, FJ_NOT_COMPLETER, FJ_LOG_FULL. */
fj_reply fj_quiet_root(fj_machine *m, uint32_t w, uint64_t t);

/* ---- steps of anyone. Refused: FJ_UNKNOWN, FJ_LOG_FULL. */

/* ForkJoinTask.completeExceptionally, with a code. FJ_YES; FJ_NO if t was done. */
fj_reply fj_fault(fj_machine *m, uint64_t t, uint32_t fault);

/* ForkJoinTask.cancel. FJ_YES if t was undone or is cancelled; FJ_NO if it was done. */
fj_reply fj_cancel(fj_machine *m, uint64_t t);

/* ForkJoinPool.shutdown: no more submissions. FJ_DONE. Never FJ_UNKNOWN. */
fj_reply fj_shutdown(fj_machine *m);

/* ForkJoinPool.shutdownNow: nothing more is accepted, and every undone task is cancelled. FJ_DONE. Never FJ_UNKNOWN. */
fj_reply fj_stop(fj_machine *m);

/* Whether nothing is queued or held, and no completion action is in a hand. FJ_YES, FJ_NO. Never refused but for FJ_NO_MACHINE. */
fj_reply fj_is_quiescent(fj_machine *m);

/* Where t is, and its status. FJ_SUBMITTED, FJ_FORKED, FJ_HELD, FJ_OPEN, FJ_GONE. Never FJ_LOG_FULL. */
fj_reply fj_state(fj_machine *m, uint64_t t);

/* Forgets a task that is gone and that no kept task has as its parent. FJ_DONE. Also refused with FJ_NOT_DONE. */
fj_reply fj_release(fj_machine *m, uint64_t t);

/* ---- history: an event for each change, the oldest first. Refused: FJ_NO_MACHINE, FJ_NO_PLACE. */

/* What an event is. The fields that it has are named; the others are 0, the kind FJ_PLAIN, the parent FJ_NO_TASK. */
enum {
    FJ_ACC_SUB = 64,       /* task, by (a submitter), kind, value (the pending count), parent: accepted */
    FJ_ACC_WORK = 65,      /* the same by a worker */
    FJ_MAKE = 66,          /* task, kind, value, parent: a trigger */
    FJ_OUT = 67,           /* task, by (a worker): handed out to run */
    FJ_SKIPPED = 68,       /* task, by: left its queue without being run */
    FJ_END = 69,           /* task, by: its body ended */
    FJ_ADD = 70,           /* task, value: added to its pending count */
    FJ_DEC = 71,           /* task: its pending count fell by one */
    FJ_FIRE_ZERO = 72,     /* task: its completion action was handed out, at pending count 0 */
    FJ_FIRE_COMPLETE = 73, /* the same by FJ_COMPLETE */
    FJ_PASSED = 74,        /* task: a climb passed it, without its completion action */
    FJ_HOOKED = 75,        /* task: its completion action ended */
    FJ_SETTLE = 76,        /* task, value: it got this status */
    FJ_CLOSE = 77,         /* shutdown */
    FJ_STOPPED = 78,       /* stop */
    FJ_REL = 79            /* task: released */
};

enum { FJ_PLAIN = 0, FJ_COMPLETER = 1, FJ_RELAYING = 2 /* a completer with relay */ };

typedef struct { uint32_t what, by, kind; uint64_t task, value, parent; } fj_happened;

/* How many events there are since the last seal. FJ_COUNT. */
fj_reply fj_events(fj_machine *m);

/* The event at a place, from 0 on. FJ_DONE. Also refused with FJ_BAD_ARGUMENT (NULL). */
fj_reply fj_event(fj_machine *m, uint64_t place, fj_happened *event);

/* Forgets the events so far, which makes room for more. Kept tasks stay, and task numbers go on. FJ_DONE, number: how many they were.
 * Refused: FJ_NO_MACHINE, FJ_NOT_IDLE (the machine is not quiescent), FJ_CLOSED (after a shutdown or a stop), FJ_LOG_FULL (after 2^62
 * events), FJ_OUT_OF_MEMORY. */
fj_reply fj_seal(fj_machine *m);

/* How many seals there were. FJ_COUNT. */
fj_reply fj_epoch(fj_machine *m);

/* ---- lists, one task at a time: FJ_TASK at the places from 0 on, then FJ_NO_PLACE. There is nobody whose list is refused: it is empty */

fj_reply fj_submitted(fj_machine *m, uint32_t s, uint64_t place); /* the queue of a submitter, the oldest first */
fj_reply fj_forked(fj_machine *m, uint32_t w, uint64_t place);    /* the queue of a worker, the oldest first */
fj_reply fj_stack(fj_machine *m, uint32_t w, uint64_t place);     /* what a worker holds, the oldest first; the last is running */
fj_reply fj_open(fj_machine *m, uint64_t place);                  /* open tasks, in the order in which they became open */
fj_reply fj_gone(fj_machine *m, uint64_t place);                  /* tasks that became gone since the last seal, in that order */

/* How many tasks are kept: accepted, and not released. FJ_COUNT. */
fj_reply fj_live(fj_machine *m);

/* How many tasks are in queues. FJ_COUNT. */
fj_reply fj_queued(fj_machine *m);

/* The completer whose completion action is in the hand of w. FJ_HOOK, FJ_NONE. Refused: FJ_NO_MACHINE, FJ_NO_SUCH. */
fj_reply fj_hook(fj_machine *m, uint32_t w);

/* The parent of a kept task. FJ_TASK, FJ_NONE. Refused: FJ_NO_MACHINE, FJ_UNKNOWN. */
fj_reply fj_parent(fj_machine *m, uint64_t t);

/* ---- text: a history that `fj check` reads is the heading, the line of each event, and a line "seal" for each seal.
 * A line is written with its line feed, and without a byte 0 behind it. FJ_COUNT: its bytes. FJ_LINE bytes are always enough. */
#define FJ_LINE 128

/* The heading of the history of such a machine.
 * Refused: FJ_BAD_ARGUMENT (the mode), FJ_BAD_LIMITS, FJ_OUT_OF_MEMORY, FJ_TOO_SMALL. */
fj_reply fj_print_heading(uint32_t mode, uint32_t workers, uint32_t submitters, uint32_t tasks, uint32_t events, char *text, size_t size);

/* The line of the event at a place. Refused: FJ_NO_MACHINE, FJ_NO_PLACE, FJ_OUT_OF_MEMORY, FJ_TOO_SMALL. */
fj_reply fj_print_event(fj_machine *m, uint64_t place, char *text, size_t size);

/* Whether a text, of this machine or from elsewhere, is a history, as `fj check` says: a heading within its limits, and behind it events that
 * each follow those before it, and seals where they may stand. It is read to its end or to the first line that is at fault, in one pass; some
 * words are kept for each task until then. FJ_COUNT: its events, seals not counted.
 * Refused: FJ_BAD_ARGUMENT (NULL), FJ_BAD_LINE, FJ_BAD_EVENT, FJ_BAD_LIMITS (number: 1, the line of the heading), FJ_OUT_OF_MEMORY. */
fj_reply fj_check(const char *text, size_t size);

#ifdef __cplusplus
}
#endif

#endif
