// Preloaded into a program, refuses its request for memory number FAIL_AT, and each thread that it asks for from number THREADS_FROM
// on. At the end it writes to the file FAIL_LOG how many requests for memory there were, 1 where something was refused, and how many
// blocks of memory were never given back; and to the file THREADS_LOG how many nanoseconds of a processor each thread took that was
// started, in the order of their starts.
#define _GNU_SOURCE
#include <dlfcn.h>
#include <errno.h>
#include <pthread.h>
#include <stdio.h>
#include <stdlib.h>
#include <sys/syscall.h>
#include <time.h>
#include <unistd.h>

extern void *__libc_malloc(size_t);
extern void *__libc_calloc(size_t, size_t);
extern void *__libc_realloc(void *, size_t);
extern void *__libc_memalign(size_t, size_t);
extern void __libc_free(void *);

// Threads request memory too, so these are counted by atomic steps.
static long fail_at = -1, seen = 0, refused = 0, live = 0;

static int refuses(void) {
    if (fail_at < 0) {
        const char *number = getenv("FAIL_AT");
        fail_at = number ? atol(number) : 0;
    }
    if (__atomic_add_fetch(&seen, 1, __ATOMIC_SEQ_CST) != fail_at) return 0;
    refused = 1;
    errno = ENOMEM; // the C library asserts it
    return 1;
}

static void *given(void *block) {
    if (block) __atomic_add_fetch(&live, 1, __ATOMIC_SEQ_CST);
    return block;
}

void *malloc(size_t size) { return refuses() ? NULL : given(__libc_malloc(size)); }

void *calloc(size_t count, size_t size) { return refuses() ? NULL : given(__libc_calloc(count, size)); }

void *realloc(void *block, size_t size) {
    if (refuses()) return NULL;
    void *moved = __libc_realloc(block, size);
    return block ? moved : given(moved);
}

void *aligned_alloc(size_t align, size_t size) { return refuses() ? NULL : given(__libc_memalign(align, size)); }

int posix_memalign(void **block, size_t align, size_t size) {
    if (refuses()) return 12; // ENOMEM
    *block = given(__libc_memalign(align, size));
    return *block ? 0 : 12;
}

void free(void *block) {
    if (block) __atomic_sub_fetch(&live, 1, __ATOMIC_SEQ_CST);
    __libc_free(block);
}

// What a thread runs, and what it took. There is room for so many, and those after them aren't told of.
enum { MOST_THREADS = 1024 };
static struct thread { void *(*start)(void *); void *given_to; long took; } started[MOST_THREADS];
static long threads = 0;

static void *run(void *it) {
    struct thread *thread = it;
    void *result = thread->start(thread->given_to);
    struct timespec time;
    clock_gettime(CLOCK_THREAD_CPUTIME_ID, &time);
    thread->took = time.tv_sec * 1000000000L + time.tv_nsec;
    return result;
}

int pthread_create(pthread_t *thread, const pthread_attr_t *settings, void *(*start)(void *), void *given_to) {
    const char *number = getenv("THREADS_FROM");
    long place = __atomic_fetch_add(&threads, 1, __ATOMIC_SEQ_CST);
    if (number && place + 1 >= atol(number)) {
        refused = 1;
        return EAGAIN;
    }
    int (*create)(pthread_t *, const pthread_attr_t *, void *(*)(void *), void *) = dlsym(RTLD_NEXT, "pthread_create");
    if (place >= MOST_THREADS) return create(thread, settings, start, given_to);
    started[place] = (struct thread){start, given_to, 0};
    return create(thread, settings, run, &started[place]);
}

static void report_threads(void) {
    const char *name = getenv("THREADS_LOG");
    FILE *log = name ? fopen(name, "w") : NULL;
    if (!log) return;
    for (long i = 0; i < threads && i < MOST_THREADS; i++) fprintf(log, "%ld\n", started[i].took);
    fclose(log);
}

static void report(void) {
    long requests = seen, was_refused = refused, left = live;
    fail_at = 0; // what is requested from here on is this report's own
    report_threads();
    const char *name = getenv("FAIL_LOG");
    FILE *log = name ? fopen(name, "w") : NULL;
    if (!log) return;
    fprintf(log, "%ld %ld %ld\n", requests, was_refused, left);
    fclose(log);
}

__attribute__((destructor)) static void at_exit(void) { report(); }

// A program may end without the destructors.
void _exit(int status) {
    report();
    syscall(SYS_exit_group, status);
    __builtin_unreachable();
}
