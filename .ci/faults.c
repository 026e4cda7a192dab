// Refuses memory or threads to the program that it is put into by LD_PRELOAD, as .ci/faults tells it by four words in the environment:
// FAULTS_OF is `memory` or `threads`, which requests are counted: malloc, calloc, realloc, memalign, aligned_alloc and posix_memalign,
// or pthread_create; from the first instruction of main on. FAULTS_FROM is the number of the one that is refused, from 1, or 0 for none;
// FAULTS_ALL is `all` where each after it is refused, too. FAULTS_TOLD is a file into which two numbers of 64 bits go: how many requests
// there were, and how many of them were refused.
#define _GNU_SOURCE
#include <dlfcn.h>
#include <errno.h>
#include <fcntl.h>
#include <pthread.h>
#include <stdatomic.h>
#include <stdint.h>
#include <stdlib.h>
#include <string.h>
#include <sys/mman.h>
#include <unistd.h>

extern void *__libc_malloc(size_t size);
extern void *__libc_calloc(size_t count, size_t size);
extern void *__libc_realloc(void *old, size_t size);
extern void *__libc_memalign(size_t alignment, size_t size);

struct told {
    atomic_uint_least64_t requests, refused;
};

typedef int (*main_type)(int, char **, char **);
typedef int (*create_type)(pthread_t *, const pthread_attr_t *, void *(*)(void *), void *);
typedef int (*start_type)(main_type, int, char **, void (*)(void), void (*)(void), void (*)(void), void *);

static struct told *told;  // none before main
static uint64_t first;
static int all, of_threads;
static main_type own_main;
static create_type own_create;

static int is_refused(int is_thread) {
    if (told == NULL || is_thread != of_threads) return 0;
    uint64_t number = atomic_fetch_add(&told->requests, 1) + 1;
    if (first == 0 || number < first || (number > first && !all)) return 0;
    atomic_fetch_add(&told->refused, 1);
    errno = ENOMEM;
    return 1;
}

void *malloc(size_t size) { return is_refused(0) ? NULL : __libc_malloc(size); }

void *calloc(size_t count, size_t size) { return is_refused(0) ? NULL : __libc_calloc(count, size); }

void *realloc(void *old, size_t size) { return is_refused(0) ? NULL : __libc_realloc(old, size); }

void *memalign(size_t alignment, size_t size) { return is_refused(0) ? NULL : __libc_memalign(alignment, size); }

void *aligned_alloc(size_t alignment, size_t size) { return memalign(alignment, size); }

int posix_memalign(void **at, size_t alignment, size_t size) {
    void *got = memalign(alignment, size);
    if (got == NULL) return ENOMEM;
    *at = got;
    return 0;
}

int pthread_create(pthread_t *thread, const pthread_attr_t *how, void *(*start)(void *), void *argument) {
    return is_refused(1) ? EAGAIN : own_create(thread, how, start, argument);
}

static int counted_main(int count, char **words, char **environment) {
    const char *from = getenv("FAULTS_FROM"), *of = getenv("FAULTS_OF"), *path = getenv("FAULTS_TOLD"), *more = getenv("FAULTS_ALL");
    int file = from && of && path && more ? open(path, O_RDWR | O_CLOEXEC) : -1;
    void *place = file < 0 ? MAP_FAILED : mmap(NULL, sizeof *told, PROT_READ | PROT_WRITE, MAP_SHARED, file, 0);
    own_create = (create_type)dlsym(RTLD_NEXT, "pthread_create");
    if (place == MAP_FAILED || own_create == NULL) _exit(99);
    close(file);
    first = strtoull(from, NULL, 10);
    all = strcmp(more, "all") == 0;
    of_threads = strcmp(of, "threads") == 0;
    told = place;
    return own_main(count, words, environment);
}

int __libc_start_main(main_type start, int count, char **words, void (*begin)(void), void (*end)(void), void (*late)(void), void *stack) {
    own_main = start;
    return ((start_type)dlsym(RTLD_NEXT, "__libc_start_main"))(counted_main, count, words, begin, end, late, stack);
}
