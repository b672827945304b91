/* Loaded before the C library: refuses the allocation whose number, counted from 1, is in REFUSE_AT, and the start of the thread whose number
   is in REFUSE_THREAD, and grants all others. At the end the number of allocations is written to the file that REFUSE_COUNT names. A program with threads ends by _exit. */
#define _GNU_SOURCE
#include <dlfcn.h>
#include <errno.h>
#include <pthread.h>
#include <stdatomic.h>
#include <stdio.h>
#include <stdlib.h>
#include <sys/syscall.h>
#include <unistd.h>

static void *(*granted_malloc)(size_t);
static void *(*granted_realloc)(void *, size_t);
static long refused_number;
static atomic_long allocations;
static atomic_int counting;
static int (*granted_start)(pthread_t *, const pthread_attr_t *, void *(*)(void *), void *);
static long refused_thread;
static atomic_long threads;

__attribute__((constructor)) static void start(void) {
    const char *number = getenv("REFUSE_AT");
    granted_malloc = dlsym(RTLD_NEXT, "malloc");
    granted_realloc = dlsym(RTLD_NEXT, "realloc");
    refused_number = number ? atol(number) : 0;
    granted_start = dlsym(RTLD_NEXT, "pthread_create");
    number = getenv("REFUSE_THREAD");
    refused_thread = number ? atol(number) : 0;
    counting = 1;
}

static int is_refused(void) {
    if (!counting || atomic_fetch_add(&allocations, 1) + 1 != refused_number) return 0;
    errno = ENOMEM;
    return 1;
}

void *malloc(size_t size) {
    if (!granted_malloc) granted_malloc = dlsym(RTLD_NEXT, "malloc");
    return is_refused() ? NULL : granted_malloc(size);
}

void *realloc(void *block, size_t size) {
    if (!granted_realloc) granted_realloc = dlsym(RTLD_NEXT, "realloc");
    return is_refused() ? NULL : granted_realloc(block, size);
}

int pthread_create(pthread_t *thread, const pthread_attr_t *attributes, void *(*run)(void *), void *argument) {
    if (atomic_fetch_add(&threads, 1) + 1 == refused_thread) return EAGAIN;
    return granted_start(thread, attributes, run, argument);
}

__attribute__((destructor)) static void finish(void) {
    const char *name = getenv("REFUSE_COUNT");
    counting = 0;
    FILE *file = name ? fopen(name, "w") : NULL;
    if (file) {
        fprintf(file, "%ld\n", (long)allocations);
        fclose(file);
    }
}

void _exit(int status) {
    finish();
    syscall(SYS_exit_group, status);
    __builtin_unreachable();
}
