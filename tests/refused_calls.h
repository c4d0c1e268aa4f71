/* How the tests of the C libraries refuse growths: of each call the first, then the second, and so on until it meets no refusal. A call
 * that is refused a growth answers DL_OUT_OF_MEMORY or its own answer. If it is made again it gives its own, and so do all later calls.
 * Define HANDLE, what calls are made on, before you include this; define `make`; and link with refuse.c. */
#ifndef REFUSED_CALLS_H
#define REFUSED_CALLS_H

#include "dl_types.h"
#include "refuse.h"

#include <stdio.h>
#include <string.h>

/* What a call answers: its code, and three numbers. */
typedef struct {
    uint32_t code, first, second, third;
} answer;

/* A call with its id, the letters of its keys or a number, its own answer, and whether it may take memory. */
typedef struct {
    unsigned name;
    const char *ids;
    uint32_t number;
    answer own;
    bool grows;
} call;

/* Makes a call. */
static answer make(HANDLE *handle, const call *call);

static unsigned faults;
static long refusals;

static void check(bool holds, const char *what, size_t place, long growth)
{
    if (!holds) {
        faults++;
        printf("call %zu, growth %ld: %s\n", place, growth, what);
    }
}

static bool is(answer given, answer own)
{
    return given.code == own.code && given.first == own.first && given.second == own.second && given.third == own.third;
}

/* The most keys of a call. */
enum { MOST = 16 };

/* The texts of keys whose ids are these letters, and how long they are: of the table `user`, and of `item` if the letter is a capital.
 * How many keys. */
static size_t keys_of(const char *ids, uint8_t texts[5 * MOST], dl_key_lengths lengths[MOST])
{
    size_t count = strlen(ids);

    for (size_t i = 0; i < count; i++) {
        memcpy(texts + 5 * i, ids[i] < 'a' ? "item" : "user", 4);
        texts[5 * i + 4] = (uint8_t)ids[i];
        lengths[i] = (dl_key_lengths){4, 1};
    }
    return count;
}

/* Makes all calls, one of them with that growth refused. Whether it was refused. */
static bool make_all(const call *calls, size_t count, size_t place, long growth)
{
    static const answer refused = {DL_OUT_OF_MEMORY, 0, 0, 0};
    HANDLE handle = {0};
    answer given;
    bool met = false;

    for (size_t i = 0; i < count; i++) {
        if (i == place) {
            refuse_growth(growth);
            given = make(&handle, &calls[i]);
            met = growths_refused() > 0;
            refusals += met;
            check(is(given, calls[i].own) || (met && is(given, refused)), "the answer", i, growth);
            if (!met || is(given, calls[i].own)) {
                continue;
            }
        }
        given = make(&handle, &calls[i]);
        check(is(given, calls[i].own), i == place ? "the answer of the call made again" : "a later answer", i, growth);
    }
    return met;
}

/* Refuses the growths of all calls in turn, and has them grow that have names up to this one. How many calls and names failed. */
static unsigned refuse_each(const call *calls, size_t count, unsigned last_growing)
{
    uint64_t grew = 0;
    unsigned failed = 0;

    for (size_t place = 0; place < count; place++) {
        unsigned before = faults;
        long growth = 1;
        while (make_all(calls, count, place, growth)) {
            growth++;
        }
        grew |= (uint64_t)(growth > 1) << calls[place].name;
        check(growth == 1 || calls[place].grows, "it takes memory", place, growth);
        failed += faults > before;
    }
    for (unsigned name = 0; name <= last_growing; name++) {
        if (!(grew >> name & 1)) {
            failed++;
            printf("call %u: no growth was refused\n", name);
        }
    }
    return failed;
}

/* Prints how many of these passed, and gives the status. */
static int sum_up(size_t count, unsigned failed)
{
    printf("%ld growths refused\n%zu passed, %u failed\n", refusals, failed < count ? count - failed : 0, failed);
    return failed == 0 ? 0 : 1;
}

#endif
