/* A build runner: runs the commands of targets, each once the targets that it needs are built, by threads of its own.
 *
 *     build FILE WORKERS HISTORY
 *
 * FILE has `NAME: NAME ..` for each target, and below it its commands, indented. A target with inputs has a trigger, a completer that counts
 * them down. A built target forks a notice to each target that needs it, a completer whose parent is that trigger. So the last notice fires the
 * trigger, and the target is submitted. Where a command fails, the triggers above it get its status as a fault. HISTORY gets the history of the
 * run, for `fj check` and `fj view`. Exit status: 0 if all is built, 1 if a command failed, 2 if there is nothing to build it from. */
#include "fj.h"

#include <pthread.h>
#include <stdio.h>
#include <stdlib.h>
#include <string.h>
#include <sys/wait.h>

enum { MAX_TARGETS = 500, MAX_INPUTS = 32, TASKS = 4096, EVENTS = 200000 };

typedef struct {
    char *name, *commands;
    char *inputs[MAX_INPUTS];
    int count;
    uint64_t gate; /* its trigger, if it has inputs */
    bool failed;
} Target;

/* What a task does: it runs the commands of a target, or notifies it. */
typedef struct { Target *target; bool notifies; } Task;

static Target targets[MAX_TARGETS];
static int target_count;

/* The lock guards all below. */
static pthread_mutex_t lock = PTHREAD_MUTEX_INITIALIZER;
static pthread_cond_t changed = PTHREAD_COND_INITIALIZER;
static fj_machine machine = FJ_MACHINE_INIT;
static Task tasks[MAX_TARGETS * (MAX_INPUTS + 2) + 1]; /* by number */
static int left, failures;
static uint32_t workers;

static void die(const char *what, const char *which) {
    fprintf(stderr, "build: %s %s\n", what, which);
    exit(2);
}

/* A call that the machine must not refuse. */
static fj_reply made(fj_reply r) {
    if (fj_refused(r)) die("refused:", fj_meaning(r.code));
    return r;
}

/* ---- the file */

static char *copy(const char *text) {
    char *made = malloc(strlen(text) + 1);
    if (!made) die("out", "of memory");
    return strcpy(made, text);
}

static void read_target(char *line) {
    if (target_count == MAX_TARGETS) die("too many targets:", line);
    Target *t = &targets[target_count++];
    char *colon = strchr(line, ':');
    if (!colon) die("no colon:", line);
    *colon = '\0';
    t->name = copy(line);
    t->commands = copy("");
    for (char *word = strtok(colon + 1, " \n"); word; word = strtok(NULL, " \n")) {
        if (t->count == MAX_INPUTS) die("too many inputs:", t->name);
        t->inputs[t->count++] = copy(word);
    }
}

static void read_command(const char *line) {
    if (target_count == 0) die("no target:", line);
    Target *t = &targets[target_count - 1];
    t->commands = realloc(t->commands, strlen(t->commands) + strlen(line) + 1);
    if (!t->commands) die("out", "of memory");
    strcat(t->commands, line);
}

static void read_file(const char *name) {
    char line[1024];
    FILE *file = fopen(name, "r");
    if (!file) die("cannot read", name);
    while (fgets(line, sizeof line, file)) {
        if (line[0] == ' ' || line[0] == '\t') read_command(line);
        else if (line[0] != '\n' && line[0] != '#') read_target(line);
    }
    fclose(file);
}

static Target *find(const char *name) {
    for (int i = 0; i < target_count; i++)
        if (strcmp(targets[i].name, name) == 0) return &targets[i];
    die("no such target:", name);
    return NULL;
}

static bool needs(const Target *t, const Target *input) {
    for (int i = 0; i < t->count; i++)
        if (find(t->inputs[i]) == input) return true;
    return false;
}

/* ---- what workers do, under the lock */

/* The first task, run by worker 0, makes the triggers and forks the targets without inputs. */
static void plan(void) {
    made(fj_submit(&machine, 0));
    made(fj_poll(&machine, 0, 0));
    for (Target *t = targets; t < targets + target_count; t++) {
        for (int i = 0; i < t->count; i++) find(t->inputs[i]);
        if (t->count > 0) t->gate = made(fj_trigger(&machine, 0, (uint32_t)t->count - 1)).number;
        else tasks[made(fj_fork(&machine, 0)).number] = (Task){t, false};
    }
    made(fj_end(&machine, 0, FJ_OK, 0));
}

/* Nothing that needs a failed target is built. */
static void fail(Target *input, uint32_t status) {
    input->failed = true;
    left--;
    for (Target *t = targets; t < targets + target_count; t++) {
        if (t->failed || !needs(t, input)) continue;
        made(fj_fault(&machine, t->gate, status));
        fail(t, status);
    }
}

static void run_commands(uint32_t w, Target *target) {
    pthread_mutex_unlock(&lock);
    printf("%s\n", target->name);
    fflush(stdout);
    int status = system(target->commands);
    pthread_mutex_lock(&lock);
    if (status != 0) {
        uint32_t code = WIFEXITED(status) ? (uint32_t)WEXITSTATUS(status) : 255;
        fprintf(stderr, "build: %s failed with status %u\n", target->name, (unsigned)code);
        made(fj_end(&machine, w, FJ_FAIL, code));
        failures++;
        fail(target, code);
        return;
    }
    left--;
    for (Target *t = targets; t < targets + target_count; t++)
        for (int i = 0; i < t->count; i++)
            if (find(t->inputs[i]) == target && !t->failed)
                tasks[made(fj_fork_completer(&machine, w, t->gate, 0, true)).number] = (Task){t, true};
    made(fj_end(&machine, w, FJ_OK, 0));
}

/* The end of a notice fires it, and the end of its completion action is an arrival at the trigger. */
static void notify(uint32_t w, Target *target) {
    made(fj_end(&machine, w, FJ_TRY, 0));
    if (made(fj_hook_done(&machine, w)).code != FJ_HOOK) return;
    made(fj_hook_done(&machine, w));
    tasks[made(fj_submit(&machine, 0)).number] = (Task){target, false};
}

static void *work(void *number) {
    uint32_t w = (uint32_t)(uintptr_t)number;
    pthread_mutex_lock(&lock);
    while (left > 0) {
        fj_reply r = made(fj_poll(&machine, w, w));
        if (r.code == FJ_RUN) {
            Task task = tasks[r.number];
            if (task.notifies) notify(w, task.target);
            else run_commands(w, task.target);
            made(fj_release(&machine, r.number));
            pthread_cond_broadcast(&changed);
        } else if (fj_is_quiescent(&machine).code == FJ_YES) {
            die("targets that need", "each other");
        } else {
            pthread_cond_wait(&changed, &lock);
        }
    }
    pthread_mutex_unlock(&lock);
    return NULL;
}

/* ---- the history */

static void write_history(const char *name) {
    char line[FJ_LINE];
    FILE *file = fopen(name, "w");
    if (!file) die("cannot write", name);
    fj_reply r = made(fj_print_heading(FJ_ASYNC, workers, 1, TASKS, EVENTS, line, sizeof line));
    fwrite(line, 1, r.number, file);
    for (uint64_t i = 0; (r = fj_print_event(&machine, i, line, sizeof line)).code == FJ_COUNT; i++) fwrite(line, 1, r.number, file);
    if (fclose(file) != 0) die("cannot write", name);
}

int main(int count, char **words) {
    pthread_t threads[32];
    if (count != 4 || (workers = (uint32_t)atoi(words[2])) < 1 || workers > 32) die("usage: build FILE", "WORKERS HISTORY");
    read_file(words[1]);
    left = target_count;
    made(fj_new(&machine, FJ_ASYNC, workers, 1, TASKS, EVENTS));
    plan();
    for (uintptr_t w = 0; w < workers; w++)
        if (pthread_create(&threads[w], NULL, work, (void *)w) != 0) die("no thread", "");
    for (uint32_t w = 0; w < workers; w++) pthread_join(threads[w], NULL);
    write_history(words[3]);
    fj_free(&machine);
    return failures ? 1 : 0;
}
