// Preloaded into a program: after the first FAIL_AFTER allocations each one gives no memory once in FAIL_ONE_IN times, at random. The
// allocations by which a thread is made always succeed, since a loop whose other loop has no thread waits for it forever.
#define _GNU_SOURCE
#include <dlfcn.h>
#include <errno.h>
#include <pthread.h>
#include <stdatomic.h>
#include <stddef.h>
#include <stdint.h>
#include <stdio.h>
#include <stdlib.h>

extern void *__libc_malloc(size_t);
extern void *__libc_calloc(size_t, size_t);
extern void *__libc_realloc(void *, size_t);
extern void *__libc_memalign(size_t, size_t);

typedef int create_thread(pthread_t *, const pthread_attr_t *, void *(*)(void *), void *);

static atomic_ulong calls, failures;
static unsigned long after, one_in;
static create_thread *create;
static _Thread_local int makes_thread __attribute__((tls_model("initial-exec")));

static unsigned long number_of(const char *name) {
    const char *text = getenv(name);
    return text ? strtoul(text, NULL, 10) : 0;
}

static __attribute__((constructor)) void start(void) {
    create = (create_thread *)dlsym(RTLD_NEXT, "pthread_create");
    after = number_of("FAIL_AFTER");
    one_in = number_of("FAIL_ONE_IN");
}

static __attribute__((destructor)) void end(void) {
    fprintf(stderr, "allocations %lu\nfailed_allocations %lu\n", atomic_load(&calls), atomic_load(&failures));
}

// Scatters a number (the mixer of SplitMix64).
static uint64_t mix(uint64_t number) {
    number += 0x9e3779b97f4a7c15u;
    number = (number ^ (number >> 30)) * 0xbf58476d1ce4e5b9u;
    number = (number ^ (number >> 27)) * 0x94d049bb133111ebu;
    return number ^ (number >> 31);
}

static int fails(void) {
    if (one_in == 0 || makes_thread) return 0;
    unsigned long call = atomic_fetch_add(&calls, 1);
    if (call < after || mix(call) % one_in != 0) return 0;
    atomic_fetch_add(&failures, 1);
    errno = ENOMEM;
    return 1;
}

int pthread_create(pthread_t *thread, const pthread_attr_t *attributes, void *(*run)(void *), void *argument) {
    makes_thread = 1;
    int status = create(thread, attributes, run, argument);
    makes_thread = 0;
    return status;
}

void *malloc(size_t size) { return fails() ? NULL : __libc_malloc(size); }
void *calloc(size_t count, size_t size) { return fails() ? NULL : __libc_calloc(count, size); }
void *realloc(void *old, size_t size) { return fails() ? NULL : __libc_realloc(old, size); }
void *memalign(size_t alignment, size_t size) { return fails() ? NULL : __libc_memalign(alignment, size); }
void *aligned_alloc(size_t alignment, size_t size) { return fails() ? NULL : __libc_memalign(alignment, size); }

int posix_memalign(void **made, size_t alignment, size_t size) {
    void *memory = fails() ? NULL : __libc_memalign(alignment, size);
    if (memory == NULL) return ENOMEM;
    *made = memory;
    return 0;
}
