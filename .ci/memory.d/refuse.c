// Stands before the C library's calls that take memory and that start threads, and refuses some of them. REFUSE in the environment has
// three words: `memory` or `threads`, and the first and the last call that is refused, counted from where start-up ends. What is refused,
// and each thread that starts, is told on standard error.
#define _GNU_SOURCE
#include <dlfcn.h>
#include <errno.h>
#include <pthread.h>
#include <stdatomic.h>
#include <stdbool.h>
#include <stdio.h>
#include <stdlib.h>
#include <unistd.h>

// The C library's own calls, by names that nothing stands before.
extern void *__libc_malloc(size_t size);
extern void *__libc_calloc(size_t count, size_t size);
extern void *__libc_realloc(void *old, size_t size);
extern void *__libc_memalign(size_t alignment, size_t size);

typedef int Start(pthread_t *thread, const pthread_attr_t *attributes, void *(*body)(void *), void *argument);

// The calls of one kind, and which of them are refused.
struct calls {
    long first, last;
    atomic_long made;
};

static struct calls memory, threads;
static Start *start;

// What the loader and the C library took before is the same in each run, and isn't counted.
__attribute__((constructor)) static void end_start_up(void) {
    const char *words = getenv("REFUSE");
    start = (Start *)dlsym(RTLD_NEXT, "pthread_create");
    if (words) {
        sscanf(words, "memory %ld %ld", &memory.first, &memory.last);
        sscanf(words, "threads %ld %ld", &threads.first, &threads.last);
    }
    memory.made = threads.made = 0;
}

static void tell(const char *what, size_t size) {
    char line[64];
    int length = snprintf(line, sizeof line, "%s %zu\n", what, size);
    if (write(STDERR_FILENO, line, length) != length)
        abort();
}

static bool is_refused(struct calls *calls, const char *what, size_t size) {
    long number = ++calls->made;
    if (number < calls->first || number > calls->last)
        return false;
    tell(what, size);
    errno = ENOMEM;
    return true;
}

void *malloc(size_t size) {
    return is_refused(&memory, "refused malloc", size) ? NULL : __libc_malloc(size);
}

void *calloc(size_t count, size_t size) {
    return is_refused(&memory, "refused calloc", count * size) ? NULL : __libc_calloc(count, size);
}

void *realloc(void *old, size_t size) {
    return is_refused(&memory, "refused realloc", size) ? NULL : __libc_realloc(old, size);
}

void *aligned_alloc(size_t alignment, size_t size) {
    return is_refused(&memory, "refused aligned_alloc", size) ? NULL : __libc_memalign(alignment, size);
}

int posix_memalign(void **place, size_t alignment, size_t size) {
    void *taken = is_refused(&memory, "refused posix_memalign", size) ? NULL : __libc_memalign(alignment, size);
    if (taken)
        *place = taken;
    return taken ? 0 : ENOMEM;
}

int pthread_create(pthread_t *thread, const pthread_attr_t *attributes, void *(*body)(void *), void *argument) {
    if (is_refused(&threads, "refused thread", 1))
        return EAGAIN;
    int fault = start(thread, attributes, body, argument);
    if (!fault)
        tell("started thread", 1);
    return fault;
}
