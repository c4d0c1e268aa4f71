/* A C program that makes the calls of dl_loader.h and refuses their growths, as refused_calls.h says; the history is the same each time.
 * It prints each check that fails, and how many calls passed. */
#include "dl_loader.h"

#define HANDLE dl_loader *
#include "refused_calls.h"

/* The calls. What makes a loader or a cell, up to PRIME, grows. */
enum { OPEN, OPEN_BY_TABLE, LOAD, LOAD_MANY, PRIME, CLEAR, CLEAR_ALL, DISPATCH, MEMBER, SETTLE, FAIL, LOOK, SAW, CLOSE, EVENT,
       OPENED, FREE };

static const dl_serial_opening opening = {.max_batch = 2, .max_cells = 64, .max_calls = 64, .callers = 2, .seed_low = 1, .seed_high = 2};

static answer open_by_table(dl_loader **loader)
{
    static const dl_table_limit tables[3] = {{4, 1}, {5, 2}, {3, 3}};

    return (answer){dl_loader_open_by_table(loader, &opening, (const uint8_t *)"userordertag", 12, tables, 3), 0, 0, 0};
}

/* The sums of the cells, the batches and the codes of several loads. */
static answer load_many(dl_loader *loader, uint32_t caller, const char *ids)
{
    uint8_t texts[5 * MOST] = {0};
    dl_key_lengths lengths[MOST] = {{0, 0}};
    dl_ticket answers[MOST] = {{0, 0, 0, 0}};
    answer given = {0, 0, 0, 0};
    size_t count = keys_of(ids, texts, lengths);

    given.code = dl_loader_load_many(loader, caller, texts, 5 * count, lengths, count, answers, count);
    for (size_t i = 0; i < count; i++) {
        given.first += answers[i].cell;
        given.second += answers[i].batch;
        given.third += answers[i].code;
    }
    return given;
}

/* The code 1 if its batches are of one table, its callers, the bytes of the names of its tables, and the sum of their limits. */
static answer opened(const dl_loader *loader)
{
    const dl_opened *with = dl_loader_opened(loader);
    answer given = {with->is_by_table, with->opening.callers, (uint32_t)with->names_len, 0};

    for (size_t i = 0; i < with->tables_len; i++) {
        given.third += with->tables[i].limit;
    }
    return given;
}

/* The number of events, and the sums of their calls and of their keys' cells. */
static answer history(dl_loader *loader)
{
    answer given = {0, 0, 0, 0};
    dl_key_texts texts;
    dl_event event;

    for (; (event = dl_loader_event(loader, given.first)).code == DL_DONE; given.first++) {
        given.second += event.call;
        for (size_t i = 0; i < event.keys; i++) {
            given.third += dl_loader_event_key(loader, given.first, i, &texts).cell;
        }
    }
    return given;
}

static answer make(dl_loader **loader, const call *call)
{
    static const uint64_t words[2] = {7, 8};
    const uint8_t *user = (const uint8_t *)"user", *id = (const uint8_t *)call->ids;
    uint32_t caller = call->number;
    dl_key_texts texts;
    dl_ticket ticket;
    dl_loaded loaded;
    dl_dispatched sent;
    dl_shown shown;

    switch (call->name) {
    case OPEN:
        return (answer){dl_loader_open(loader, &opening), 0, 0, 0};
    case OPEN_BY_TABLE:
        return open_by_table(loader);
    case LOAD:
        ticket = dl_loader_load(*loader, caller, user, 4, id, 1);
        return (answer){ticket.code, ticket.cell, ticket.batch, (uint32_t)ticket.ticket};
    case LOAD_MANY:
        return load_many(*loader, caller, call->ids);
    case PRIME:
        loaded = dl_loader_prime(*loader, caller, user, 4, id, 1, 9);
        return (answer){loaded.code, loaded.cell, loaded.batch, 0};
    case CLEAR:
        return (answer){dl_loader_clear(*loader, caller, user, 4, id, 1), 0, 0, 0};
    case CLEAR_ALL:
        return (answer){dl_loader_clear_all(*loader, caller), 0, 0, 0};
    case DISPATCH:
        sent = dl_loader_dispatch(*loader, caller);
        return (answer){sent.code, sent.first, (uint32_t)sent.count, 0};
    case MEMBER:
        loaded = dl_loader_member(*loader, call->number, 0, &texts);
        return (answer){loaded.code, loaded.cell, loaded.batch, texts.id[0]};
    case SETTLE:
        return (answer){dl_loader_settle(*loader, 0, call->number, words, 2), 0, 0, 0};
    case FAIL:
        return (answer){dl_loader_fail(*loader, 1, call->number, 6), 0, 0, 0};
    case LOOK:
        shown = dl_loader_look(*loader, call->number);
        return (answer){0, shown.state, (uint32_t)shown.word, 0};
    case SAW:
        return (answer){dl_loader_saw(*loader, 0, call->number), 0, 0, 0};
    case CLOSE:
        return (answer){dl_loader_close(*loader), 0, 0, 0};
    case EVENT:
        return history(*loader);
    case OPENED:
        return opened(*loader);
    case FREE:
        dl_loader_free(*loader);
        break;
    }
    return (answer){0, 0, 0, 0};
}

static const call CALLS[] = {
    {OPEN, "", 0, {DL_DONE, 0, 0, 0}, true},
    {OPENED, "", 0, {0, 2, 0, 0}, false},
    {LOAD, "a", 0, {DL_FRESH, 0, 0, 0}, true},
    {LOAD, "b", 0, {DL_FRESH, 1, 0, 1}, true},
    {LOAD, "a", 1, {DL_HIT, 0, 0, 0}, true},
    {PRIME, "c", 0, {DL_FRESH, 2, 0, 0}, true},
    {PRIME, "c", 1, {DL_HIT, 0, 0, 0}, true},
    /* d, e, a hit, f and g: cells 3, 4, 1, 5, 6 and batches 1, 1, none, 2, 2. Four are fresh. */
    {LOAD_MANY, "debfg", 0, {DL_DONE, 19, 6, 4}, true},
    {CLEAR, "d", 0, {DL_DONE, 0, 0, 0}, true},
    {SETTLE, "", 0, {DL_NOT_SENT, 0, 0, 0}, true},
    {DISPATCH, "", 1, {DL_DONE, 0, 3, 0}, true},
    {DISPATCH, "", 0, {DL_DONE, 0, 0, 0}, true},
    {MEMBER, "", 1, {DL_HIT, 3, 0, 'd'}, false},
    {LOOK, "", 0, {0, DL_EMPTY, 0, 0}, false},
    {SAW, "", 0, {DL_NONE, 0, 0, 0}, true},
    {SETTLE, "", 0, {DL_DONE, 0, 0, 0}, true},
    {LOOK, "", 1, {0, DL_SETTLED, 8, 0}, false},
    {SAW, "", 0, {DL_DONE, 0, 0, 0}, true},
    {LOAD, "d", 0, {DL_FRESH, 7, 3, 7}, true},
    {FAIL, "", 1, {DL_DONE, 0, 0, 0}, true},
    {FAIL, "", 1, {DL_ENDED_BEFORE, 0, 0, 0}, true},
    {LOOK, "", 4, {0, DL_FAILED, 6, 0}, false},
    /* e was forgotten with its batch, and a, b and d are held: cells 8, 0, 1, 7, batch 3. */
    {LOAD_MANY, "eabd", 1, {DL_DONE, 16, 3, 1}, true},
    {CLEAR_ALL, "", 0, {DL_DONE, 0, 0, 0}, true},
    {CLOSE, "", 0, {DL_UNSETTLED, 0, 0, 0}, true},
    {DISPATCH, "", 0, {DL_DONE, 3, 1, 0}, true},
    {SETTLE, "", 2, {DL_DONE, 0, 0, 0}, true},
    {SETTLE, "", 3, {DL_DONE, 0, 0, 0}, true},
    {CLOSE, "", 0, {DL_DONE, 0, 0, 0}, true},
    /* 4 loads, 2 of many, 2 primes, 2 clears, 3 dispatches, 3 settles and a fail. The numbers of their calls sum to 2 + 4 + 3 + 4 + 15 +
     * 18 + 7, and the cells to 0 + 1 + 0 + 19 + 2 + 0 + 7 + 16. */
    {EVENT, "", 0, {0, 17, 53, 45}, false},
    {FREE, "", 0, {0, 0, 0, 0}, false},
    /* A batch of this loader has one key of the table `user`, or two of the table `item`. */
    {OPEN_BY_TABLE, "", 0, {DL_DONE, 0, 0, 0}, true},
    {OPENED, "", 0, {1, 2, 12, 6}, false},
    {LOAD, "a", 0, {DL_FRESH, 0, 0, 0}, true},
    /* b, A, a hit, B, c and C: cells 1, 2, 0, 3, 4, 5 and batches 1, 2, none, 2, 3, 4. */
    {LOAD_MANY, "bAaBcC", 0, {DL_DONE, 15, 12, 5}, true},
    {DISPATCH, "", 0, {DL_DONE, 0, 5, 0}, true},
    {FREE, "", 0, {0, 0, 0, 0}, false},
};

int main(void)
{
    enum { COUNT = sizeof CALLS / sizeof CALLS[0] };

    return sum_up(COUNT, refuse_each(CALLS, COUNT, PRIME));
}
