// Preloaded into a program: its allocations whose numbers FAIL_AT lists, as in 3,17, give no memory, and it can make no more threads than THREADS, if
// these are set. At its end it writes into the file ALLOCATIONS, if that is set, how many allocations it asked for.
#define _GNU_SOURCE
#include <dlfcn.h>
#include <errno.h>
#include <fcntl.h>
#include <pthread.h>
#include <stddef.h>
#include <stdio.h>
#include <stdlib.h>
#include <sys/syscall.h>
#include <unistd.h>

extern void *__libc_malloc(size_t);
extern void *__libc_realloc(void *, size_t);

typedef int (*creates)(pthread_t *, const pthread_attr_t *, void *(*)(void *), void *);

enum { MOST_FAILURES = 8 };

static creates create;
static long fails_at[MOST_FAILURES], asked, most = -1, made;

static __attribute__((constructor)) void start(void) {
    const char *at = getenv("FAIL_AT"), *threads = getenv("THREADS");
    create = (creates)dlsym(RTLD_NEXT, "pthread_create");
    most = threads ? atol(threads) : -1;
    asked = 0;
    for (int i = 0; at && *at && i < MOST_FAILURES; i++) {
        char *end;
        fails_at[i] = strtol(at, &end, 10);
        at = *end ? end + 1 : end;
    }
}

// The program's way to end.
void _exit(int status) {
    const char *path = getenv("ALLOCATIONS");
    int file = path ? open(path, O_WRONLY | O_CREAT | O_TRUNC, 0600) : -1;
    if (file >= 0) dprintf(file, "%ld\n", asked), close(file);
    for (;;) syscall(SYS_exit_group, status);
}

// Threads allocate side by side.
static int fails(void) {
    long number = __atomic_add_fetch(&asked, 1, __ATOMIC_RELAXED);
    for (int i = 0; i < MOST_FAILURES; i++)
        if (fails_at[i] == number) return 1;
    return 0;
}

void *malloc(size_t size) { return fails() ? NULL : __libc_malloc(size); }
void *realloc(void *old, size_t size) { return fails() ? NULL : __libc_realloc(old, size); }

int pthread_create(pthread_t *thread, const pthread_attr_t *attr, void *(*f)(void *), void *arg) {
    int is_refused = most >= 0 && __atomic_fetch_add(&made, 1, __ATOMIC_RELAXED) >= most;
    return is_refused ? EAGAIN : create(thread, attr, f, arg);
}
