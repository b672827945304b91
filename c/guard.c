/* The functions of fj.h. Each refuses NULL, of which a proof can say nothing, and calls the proved function of crates/fj_c. */
#include "fj.h"

static const fj_reply no_machine = {FJ_NO_MACHINE, 0, 0};
static const fj_reply bad_argument = {FJ_BAD_ARGUMENT, 0, 0};

/* A call at a machine, which is the first parameter, m. */
#define CALL(NAME, PARAMETERS, ARGUMENTS)     \
    fj_reply fj_c_##NAME PARAMETERS;          \
    fj_reply fj_##NAME PARAMETERS {           \
        return m ? fj_c_##NAME ARGUMENTS : no_machine; \
    }

CALL(new, (fj_machine *m, uint32_t mode, uint32_t workers, uint32_t submitters, uint32_t tasks, uint32_t events),
     (m, mode, workers, submitters, tasks, events))
CALL(submit, (fj_machine *m, uint32_t s), (m, s))
CALL(submit_completer, (fj_machine *m, uint32_t s, uint32_t count, bool relay), (m, s, count, relay))
CALL(fork, (fj_machine *m, uint32_t w), (m, w))
CALL(fork_completer, (fj_machine *m, uint32_t w, uint64_t parent, uint32_t count, bool relay), (m, w, parent, count, relay))
CALL(trigger, (fj_machine *m, uint32_t w, uint32_t count), (m, w, count))
CALL(poll, (fj_machine *m, uint32_t w, uint32_t r), (m, w, r))
CALL(help, (fj_machine *m, uint32_t w, uint32_t r), (m, w, r))
CALL(join, (fj_machine *m, uint32_t w, uint64_t t, uint32_t r), (m, w, t, r))
CALL(end, (fj_machine *m, uint32_t w, uint32_t ending, uint32_t fault), (m, w, ending, fault))
CALL(hook_done, (fj_machine *m, uint32_t w), (m, w))
CALL(add, (fj_machine *m, uint32_t w, uint64_t c, uint32_t n), (m, w, c, n))
CALL(quiet_root, (fj_machine *m, uint32_t w, uint64_t t), (m, w, t))
CALL(fault, (fj_machine *m, uint64_t t, uint32_t fault), (m, t, fault))
CALL(cancel, (fj_machine *m, uint64_t t), (m, t))
CALL(shutdown, (fj_machine *m), (m))
CALL(stop, (fj_machine *m), (m))
CALL(is_quiescent, (fj_machine *m), (m))
CALL(state, (fj_machine *m, uint64_t t), (m, t))
CALL(release, (fj_machine *m, uint64_t t), (m, t))
CALL(events, (fj_machine *m), (m))
CALL(seal, (fj_machine *m), (m))
CALL(epoch, (fj_machine *m), (m))
CALL(submitted, (fj_machine *m, uint32_t s, uint64_t place), (m, s, place))
CALL(forked, (fj_machine *m, uint32_t w, uint64_t place), (m, w, place))
CALL(stack, (fj_machine *m, uint32_t w, uint64_t place), (m, w, place))
CALL(open, (fj_machine *m, uint64_t place), (m, place))
CALL(gone, (fj_machine *m, uint64_t place), (m, place))
CALL(live, (fj_machine *m), (m))
CALL(queued, (fj_machine *m), (m))
CALL(hook, (fj_machine *m, uint32_t w), (m, w))
CALL(parent, (fj_machine *m, uint64_t t), (m, t))

void fj_c_free(fj_machine *m);
void fj_free(fj_machine *m) {
    if (m) fj_c_free(m);
}

fj_reply fj_c_event(fj_machine *m, uint64_t place, fj_happened *event);
fj_reply fj_event(fj_machine *m, uint64_t place, fj_happened *event) {
    if (!m) return no_machine;
    return event ? fj_c_event(m, place, event) : bad_argument;
}

/* Room for no bytes has an address all the same. */
static char nothing;

fj_reply fj_c_print_heading(uint32_t mode, uint32_t workers, uint32_t submitters, uint32_t tasks, uint32_t events, char *text, size_t size);
fj_reply fj_print_heading(uint32_t mode, uint32_t workers, uint32_t submitters, uint32_t tasks, uint32_t events, char *text, size_t size) {
    return fj_c_print_heading(mode, workers, submitters, tasks, events, text ? text : &nothing, text ? size : 0);
}

fj_reply fj_c_print_event(fj_machine *m, uint64_t place, char *text, size_t size);
fj_reply fj_print_event(fj_machine *m, uint64_t place, char *text, size_t size) {
    return m ? fj_c_print_event(m, place, text ? text : &nothing, text ? size : 0) : no_machine;
}

fj_reply fj_c_check(const char *text, size_t size);
fj_reply fj_check(const char *text, size_t size) {
    return text ? fj_c_check(text, size) : bad_argument;
}

const char *fj_meaning(uint32_t code) {
    static const char *const meanings[] = {
        [FJ_DONE] = "done",
        [FJ_CLOSED] = "nothing more is accepted",
        [FJ_TOO_MANY_TASKS] = "as many tasks are kept as the limit allows",
        [FJ_LOG_FULL] = "the events of the step do not fit into the history",
        [FJ_NO_SUCH] = "there is no such submitter or worker",
        [FJ_UNKNOWN] = "the task was never accepted, or was released",
        [FJ_NOT_RUNNING] = "the worker runs nothing",
        [FJ_OWN_STACK] = "the task is on the worker's own stack",
        [FJ_NOT_COMPLETER] = "the task is of the wrong kind",
        [FJ_NOT_DONE] = "the task is still needed",
        [FJ_COUNT_TOO_LARGE] = "a pending count would pass 65535",
        [FJ_OUT_OF_MEMORY] = "out of memory",
        [FJ_BAD_LIMITS] = "a limit is out of its range",
        [FJ_NOT_IDLE] = "the worker is not idle",
        [FJ_NO_MACHINE] = "there is no machine",
        [FJ_BAD_ARGUMENT] = "an argument is out of its range",
        [FJ_IN_USE] = "there is a machine already",
        [FJ_NO_PLACE] = "there is nothing at this place",
        [FJ_TOO_SMALL] = "the text does not fit",
        [FJ_BAD_LINE] = "the line is none of a history",
        [FJ_BAD_EVENT] = "the event does not follow those before it",
        [FJ_TASK] = "task",
        [FJ_NONE] = "none",
        [FJ_RUN] = "run",
        [FJ_SKIP] = "skip",
        [FJ_COUNTED] = "counted",
        [FJ_HOOK] = "hook",
        [FJ_SPENT] = "spent",
        [FJ_EARLY] = "early",
        [FJ_ROOT] = "root",
        [FJ_COUNT] = "count",
        [FJ_YES] = "yes",
        [FJ_NO] = "no",
        [FJ_NORMAL] = "normal",
        [FJ_EXCEPTIONAL] = "exceptional",
        [FJ_CANCELLED] = "cancelled",
        [FJ_SUBMITTED] = "in the queue of a submitter",
        [FJ_FORKED] = "in the queue of a worker",
        [FJ_HELD] = "held",
        [FJ_OPEN] = "open",
        [FJ_GONE] = "gone",
    };
    return code < sizeof meanings / sizeof *meanings ? meanings[code] : NULL;
}
