/* Lies below a program (LD_PRELOAD, or linked with it) and refuses what it asks of the system.
 *
 * The environment says what: REFUSE_GROWTH, REFUSE_THREAD, REFUSE_RANDOM, REFUSE_OPEN, REFUSE_READ, REFUSE_DISK or REFUSE_WRITE=n refuses
 * the n-th, counted from 1; with a + behind it, that one and all that follow; and with :e behind that, by the error e. By the error 0 a
 * write takes nothing. MOST_READ and MOST_WRITE let a read or a write take at most this many bytes. OPEN counts the files that are
 * opened, READ the reads of standard input, DISK those of other files, and WRITE the writes to standard output. With REFUSE_IN, only the
 * growths count that a library asks for whose file has this in its name. YIELD=s lets threads yield or sleep for an instant at growths,
 * as s draws it.
 *
 * A test asks from inside, by growths of sizes that nothing else has (crates/dl_tests): GROWTHS + n bytes refuse the n-th growth from
 * then on, and ENDS bytes end that, and are refused themselves if one was.
 *
 * REFUSE_TOLD is the number of an open file, whose first eight bytes become how many were refused. */
#define _GNU_SOURCE
#include "refuse.h"

#include <dlfcn.h>
#include <errno.h>
#include <pthread.h>
#include <sched.h>
#include <stdatomic.h>
#include <stdbool.h>
#include <stdint.h>
#include <stdlib.h>
#include <string.h>
#include <sys/mman.h>
#include <sys/syscall.h>
#include <time.h>
#include <unistd.h>

/* The C library's own, which it keeps under these names too. */
extern void *__libc_malloc(size_t), *__libc_realloc(void *, size_t), *__libc_calloc(size_t, size_t);

typedef enum { GROWTH, THREAD, RANDOM, OPEN, READ, DISK, WRITE, KINDS } kind;

/* The sizes by which a test asks. */
enum { GROWTHS = 5000011, ENDS = 5400013, MOST = 10000 };

/* Of each kind: how many were asked for, which are refused, from the first to the last (0: none), and by which error. */
static struct {
    atomic_long asked, first, last;
    int error;
} rules[KINDS];

static atomic_long own_count, *refused_count = &own_count;
/* How many were refused since a test asked for it. */
static atomic_long asked_count;
static size_t most_read = SIZE_MAX, most_write = SIZE_MAX;
static const char *counted_object;
static uint64_t yield_seed;
static bool yields;

static size_t number_of(const char *name, size_t without)
{
    const char *text = getenv(name);
    return text == NULL ? without : strtoul(text, NULL, 10);
}

static void read_rule(kind kind, const char *text)
{
    char *end;

    rules[kind].first = rules[kind].last = strtol(text, &end, 10);
    if (*end == '+') {
        rules[kind].last = INT32_MAX;
        end++;
    }
    if (*end == ':') {
        rules[kind].error = atoi(end + 1);
    }
}

__attribute__((constructor)) static void read_environment(void)
{
    static const char *const names[KINDS] = {"REFUSE_GROWTH", "REFUSE_THREAD", "REFUSE_RANDOM", "REFUSE_OPEN", "REFUSE_READ", "REFUSE_DISK", "REFUSE_WRITE"};
    static const int errors[KINDS] = {ENOMEM, EAGAIN, EIO, EACCES, EIO, EIO, ENOSPC};
    int told = (int)number_of("REFUSE_TOLD", 0);

    if (told != 0) {
        refused_count = mmap(NULL, sizeof *refused_count, PROT_READ | PROT_WRITE, MAP_SHARED, told, 0);
        if (refused_count == MAP_FAILED) {
            abort();
        }
    }
    most_read = number_of("MOST_READ", SIZE_MAX);
    most_write = number_of("MOST_WRITE", SIZE_MAX);
    counted_object = getenv("REFUSE_IN");
    yields = getenv("YIELD") != NULL;
    yield_seed = number_of("YIELD", 0);
    for (int kind = 0; kind < KINDS; kind++) {
        const char *text = getenv(names[kind]);
        rules[kind].error = errors[kind];
        if (text != NULL) {
            read_rule(kind, text);
        }
    }
}

static bool is_refused(kind kind)
{
    long n;

    if (rules[kind].first == 0) {
        return false;
    }
    n = atomic_fetch_add(&rules[kind].asked, 1) + 1;
    if (n < rules[kind].first || n > rules[kind].last) {
        return false;
    }
    atomic_fetch_add(refused_count, 1);
    atomic_fetch_add(&asked_count, 1);
    errno = rules[kind].error;
    return true;
}

/* Has the n-th growth refused from now on, and no other. */
static void refuse_from_now(long n)
{
    asked_count = 0;
    rules[GROWTH].asked = 0;
    rules[GROWTH].first = rules[GROWTH].last = n;
}

void refuse_growth(long n)
{
    *refused_count = 0;
    refuse_from_now(n);
}

long growths_refused(void)
{
    rules[GROWTH].first = 0;
    return *refused_count;
}

/* Every other growth goes on, one of four yields, and one of four sleeps for some microseconds. */
static void yield_at_random(void)
{
    static atomic_ulong growths;
    uint64_t drawn;

    if (!yields) {
        return;
    }
    drawn = (yield_seed + atomic_fetch_add(&growths, 1) + 1) * 0x9e3779b97f4a7c15;
    drawn = (drawn ^ drawn >> 31) * 0xbf58476d1ce4e5b9;
    if (drawn >> 62 == 0) {
        sched_yield();
    } else if (drawn >> 62 == 1) {
        struct timespec instant = {.tv_nsec = (long)(drawn >> 32 & 0x3fff)};
        nanosleep(&instant, NULL);
    }
}

/* Whether a growth of this size is a test's word. It is followed, and `fails` says whether the growth itself is refused. */
static bool is_word(size_t size, bool *fails)
{
    *fails = false;
    if (size > GROWTHS && size <= GROWTHS + MOST) {
        refuse_from_now((long)(size - GROWTHS));
    } else if (size == ENDS) {
        rules[GROWTH].first = 0;
        *fails = atomic_exchange(&asked_count, 0) > 0;
    } else {
        return false;
    }
    return true;
}

/* Whether a growth is refused that is asked for by the code at this place. */
static bool is_growth_refused(size_t size, void *caller)
{
    Dl_info object;
    bool fails;

    yield_at_random();
    if (is_word(size, &fails)) {
        return fails;
    }
    if (rules[GROWTH].first == 0) {
        return false;
    }
    if (counted_object != NULL && (!dladdr(caller, &object) || strstr(object.dli_fname, counted_object) == NULL)) {
        return false;
    }
    return is_refused(GROWTH);
}

#define IS_REFUSED(size) is_growth_refused(size, __builtin_return_address(0))

void *malloc(size_t size)
{
    return IS_REFUSED(size) ? NULL : __libc_malloc(size);
}

void *calloc(size_t count, size_t size)
{
    return IS_REFUSED(0) ? NULL : __libc_calloc(count, size);
}

void *realloc(void *block, size_t size)
{
    bool frees = block != NULL && size == 0;
    return !frees && IS_REFUSED(size) ? NULL : __libc_realloc(block, size);
}

int pthread_create(pthread_t *thread, const pthread_attr_t *attributes, void *(*start)(void *), void *argument)
{
    int (*real)(pthread_t *, const pthread_attr_t *, void *(*)(void *), void *) = dlsym(RTLD_NEXT, "pthread_create");
    return is_refused(THREAD) ? rules[THREAD].error : real(thread, attributes, start, argument);
}

int getentropy(void *bytes, size_t count)
{
    return is_refused(RANDOM) || syscall(SYS_getrandom, bytes, count, 0) != (long)count ? -1 : 0;
}

/* With a mode or without one, which the system then doesn't look at. */
int open(const char *path, int flags, unsigned mode)
{
    return is_refused(OPEN) ? -1 : (int)syscall(SYS_open, path, flags, mode);
}

ssize_t read(int file, void *bytes, size_t count)
{
    if (file != STDIN_FILENO) {
        return is_refused(DISK) ? -1 : syscall(SYS_read, file, bytes, count);
    }
    return is_refused(READ) ? -1 : syscall(SYS_read, file, bytes, count < most_read ? count : most_read);
}

ssize_t write(int file, const void *bytes, size_t count)
{
    if (file != STDOUT_FILENO) {
        return syscall(SYS_write, file, bytes, count);
    }
    if (is_refused(WRITE)) {
        return rules[WRITE].error == 0 ? 0 : -1;
    }
    return syscall(SYS_write, file, bytes, count < most_write ? count : most_write);
}

/* The name by which the C library's own streams write. */
ssize_t __write(int file, const void *bytes, size_t count)
{
    return write(file, bytes, count);
}
