/* What the tests of both C libraries share: checks that are counted, places in structs, and keys of literals. */
#ifndef DL_CHECKS_H
#define DL_CHECKS_H

#include "dl_types.h"

#include <stdio.h>

#define AT(type, member, place) _Static_assert(offsetof(type, member) == (place), "the place of " #member)

static unsigned passed, failed;

static void check(bool holds, const char *what, const char *file, int line)
{
    if (holds) {
        passed++;
    } else {
        failed++;
        printf("%s:%d: %s\n", file, line, what);
    }
}

#define CHECK(holds) check((holds), #holds, __FILE__, __LINE__)

/* A key of two literals. */
#define KEY(table, id) (const uint8_t *)table, sizeof(table) - 1, (const uint8_t *)id, sizeof(id) - 1
#define USER(id) KEY("user", id)

static bool is(dl_loaded answer, uint32_t code, uint32_t cell, uint32_t batch)
{
    return answer.code == code && answer.cell == cell && answer.batch == batch;
}

static bool sent(dl_dispatched answer, uint32_t first, size_t count)
{
    return answer.code == DL_DONE && answer.first == first && answer.count == count;
}

#endif
