/* A C program that makes the calls of dl_desk.h and refuses their growths, as refused_calls.h says. It first checks that refuse.c refuses
 * each way to grow: a sweep can't see which refusals it lacks. It prints each check that fails, and how many calls and ways passed. */
#include "dl_desk.h"

#define HANDLE dl_desk
#include "refused_calls.h"

#include <stdlib.h>

/* The calls. Those that make or look up something by a key or for a host, up to DISPATCH, grow. */
enum { OPEN, OPEN_BY_TABLE, LOAD, LOAD_MANY, PRIME, HELD, CLEAR, DISPATCH, CLEAR_ALL, MEMBER, KEY, SETTLE, FAIL, CLOSE };

static answer loaded(dl_loaded given)
{
    return (answer){given.code, given.cell, given.batch, 0};
}

static answer load_many(dl_desk *desk, const char *ids)
{
    uint8_t texts[5 * MOST] = {0};
    dl_key_lengths lengths[MOST] = {{0, 0}};
    dl_loaded answers[MOST] = {{0, 0, 0}};
    answer given = {0, 0, 0, 0};
    size_t count = keys_of(ids, texts, lengths);

    given.code = dl_desk_load_many(desk, texts, 5 * count, lengths, count, answers, count);
    for (size_t i = 0; i < count; i++) {
        given.first += answers[i].cell;
        given.second += answers[i].batch;
        given.third += answers[i].code;
    }
    return given;
}

static answer key_of(dl_desk *desk, uint32_t batch)
{
    dl_key_texts texts;
    answer given = {0, 0, 0, 0};

    memset(&texts, 0, sizeof texts);
    given.code = dl_desk_key(desk, batch, 0, &texts);
    given.first = (uint32_t)texts.table_len;
    given.second = (uint32_t)texts.id_len;
    given.third = texts.id[0];
    return given;
}

static answer open_by_table(dl_desk *desk)
{
    static const dl_opening opening = {.max_batch = 2, .max_cells = 64, .seed_low = 1, .seed_high = 2};
    static const dl_table_limit tables[3] = {{4, 1}, {5, 2}, {3, 3}};

    return (answer){dl_desk_open_by_table(desk, &opening, (const uint8_t *)"userordertag", 12, tables, 3), 0, 0, 0};
}

static answer make(dl_desk *desk, const call *call)
{
    const uint8_t *user = (const uint8_t *)"user", *id = (const uint8_t *)call->ids;
    size_t length = strlen(call->ids);
    dl_dispatched sent;

    switch (call->name) {
    case OPEN:
        return (answer){dl_desk_open(desk, 2, 64, 1, 2), 0, 0, 0};
    case OPEN_BY_TABLE:
        return open_by_table(desk);
    case LOAD:
        return loaded(dl_desk_load(desk, user, 4, id, length));
    case LOAD_MANY:
        return load_many(desk, call->ids);
    case PRIME:
        return loaded(dl_desk_prime(desk, user, 4, id, length));
    case HELD:
        return loaded(dl_desk_held(desk, user, 4, id, length));
    case CLEAR:
        return (answer){dl_desk_clear(desk, user, 4, id, length), 0, 0, 0};
    case CLEAR_ALL:
        return (answer){dl_desk_clear_all(desk), 0, 0, 0};
    case DISPATCH:
        sent = dl_desk_dispatch(desk);
        return (answer){sent.code, sent.first, (uint32_t)sent.count, 0};
    case MEMBER:
        return loaded(dl_desk_member(desk, call->number, 0));
    case KEY:
        return key_of(desk, call->number);
    case SETTLE:
        return (answer){dl_desk_settle(desk, call->number), 0, 0, 0};
    case FAIL:
        return (answer){dl_desk_fail(desk, call->number), 0, 0, 0};
    case CLOSE:
        return (answer){dl_desk_close(desk), 0, 0, 0};
    }
    return (answer){0, 0, 0, 0};
}

/* An id that is too long for a key's own block of memory. */
#define LONG "abcdefghijklmnopqrstuvwxyzabcdefghijklmnopqrstuvwxyz"

static const call CALLS[] = {
    {OPEN, "", 0, {DL_DONE, 0, 0, 0}, true},
    {LOAD, "a", 0, {DL_FRESH, 0, 0, 0}, true},
    {LOAD, "b", 0, {DL_FRESH, 1, 0, 0}, true},
    /* A call on a key takes memory for it if the last one's is shared, as here. */
    {HELD, "a", 0, {DL_HIT, 0, 0, 0}, true},
    {LOAD, "a", 0, {DL_HIT, 0, 0, 0}, true},
    {HELD, "z", 0, {DL_FRESH, 0, 0, 0}, true},
    {PRIME, "c", 0, {DL_FRESH, 2, 0, 0}, true},
    {PRIME, "c", 0, {DL_HIT, 0, 0, 0}, true},
    /* d, e, a hit, f, and g: cells 3, 4, 1, 5, 6 and batches 1, 1, none, 2, 2. Four are fresh. */
    {LOAD_MANY, "debfg", 0, {DL_DONE, 19, 6, 4}, true},
    {CLEAR, "d", 0, {DL_DONE, 0, 0, 0}, true},
    {CLEAR, "z", 0, {DL_DONE, 0, 0, 0}, true},
    {SETTLE, "", 0, {DL_NOT_SENT, 0, 0, 0}, false},
    {DISPATCH, "", 0, {DL_DONE, 0, 3, 0}, true},
    {DISPATCH, "", 0, {DL_DONE, 0, 0, 0}, true},
    {MEMBER, "", 1, {DL_HIT, 3, 0, 0}, false},
    {KEY, "", 2, {DL_DONE, 4, 1, 'f'}, false},
    {SETTLE, "", 0, {DL_DONE, 0, 0, 0}, false},
    {LOAD, "d", 0, {DL_FRESH, 7, 3, 0}, true},
    {CLEAR, "y", 0, {DL_DONE, 0, 0, 0}, true},
    {FAIL, "", 1, {DL_DONE, 0, 0, 0}, false},
    {FAIL, "", 1, {DL_ENDED_BEFORE, 0, 0, 0}, false},
    {HELD, "d", 0, {DL_HIT, 7, 0, 0}, true},
    /* e was forgotten with its batch, and a and b are held. */
    {LOAD_MANY, "eab", 0, {DL_DONE, 8 + 0 + 1, 3, 1}, true},
    {CLEAR_ALL, "", 0, {DL_DONE, 0, 0, 0}, false},
    {LOAD_MANY, "abcdefghijklmnop", 0, {DL_DONE, (9 + 24) * 8, 4 * 16 + 2 * (0 + 1 + 2 + 3 + 4 + 5 + 6 + 7), 16}, true},
    {DISPATCH, "", 0, {DL_DONE, 3, 9, 0}, true},
    {CLOSE, "", 0, {DL_DONE, 0, 0, 0}, false},
    /* A batch of this desk has one key of the table `user`, or two of the table `item`. */
    {OPEN_BY_TABLE, "", 0, {DL_DONE, 0, 0, 0}, true},
    {LOAD, "a", 0, {DL_FRESH, 0, 0, 0}, true},
    /* b, A, a hit, B, c and C: cells 1, 2, 0, 3, 4, 5 and batches 1, 2, none, 2, 3, 4. */
    {LOAD_MANY, "bAaBcC", 0, {DL_DONE, 15, 12, 5}, true},
    {LOAD, LONG, 0, {DL_FRESH, 6, 5, 0}, true},
    {HELD, LONG, 0, {DL_HIT, 6, 0, 0}, true},
    {DISPATCH, "", 0, {DL_DONE, 0, 6, 0}, true},
    {CLOSE, "", 0, {DL_DONE, 0, 0, 0}, false},
};

enum { MALLOC, CALLOC, REALLOC, WAYS };

static void *grow(unsigned way, void *block)
{
    switch (way) {
    case MALLOC:
        return malloc(8);
    case CALLOC:
        return calloc(2, 8);
    default:
        return realloc(block, 64);
    }
}

/* How many of the ways to grow aren't refused when they should be: as the first growth, and as the second. */
static unsigned ways_unrefused(void)
{
    static const char *const names[WAYS] = {"malloc", "calloc", "realloc"};
    unsigned failed = 0;

    for (unsigned way = 0; way < WAYS; way++) {
        bool holds = true;
        for (long nth = 1; nth <= 2; nth++) {
            void *volatile block = malloc(16), *volatile before, *volatile given;
            refuse_growth(nth);
            before = nth == 2 ? malloc(8) : NULL;
            given = grow(way, block);
            holds &= growths_refused() == 1 && given == NULL && (before != NULL) == (nth == 2);
            free(given == NULL ? block : given);
            free(before);
        }
        failed += !holds;
        if (!holds) {
            printf("%s isn't refused\n", names[way]);
        }
    }
    return failed;
}

int main(void)
{
    enum { COUNT = sizeof CALLS / sizeof CALLS[0] };
    unsigned unrefused = ways_unrefused();

    return sum_up(COUNT + WAYS, unrefused + refuse_each(CALLS, COUNT, DISPATCH));
}
