/* A C program that makes each call of dl_loader.h and checks its answers, which are those of the data loader's documentation. It
 * prints each check that fails, and how many passed. */
#define _POSIX_C_SOURCE 200809L
#include "checks.h"
#include "dl_desk.h" /* A program may use both headers. */
#include "dl_history.h"
#include "dl_loader.h"

#include <pthread.h>
#include <stdio.h>
#include <stdlib.h>
#include <string.h>

_Static_assert(sizeof(dl_serial) == 16, "a handle");
AT(dl_serial, is_open, 0);
AT(dl_serial, held, 8);
_Static_assert(sizeof(dl_serial_opening) == 32, "what a loader is opened with");
AT(dl_serial_opening, max_batch, 0);
AT(dl_serial_opening, max_cells, 4);
AT(dl_serial_opening, max_calls, 8);
AT(dl_serial_opening, callers, 12);
AT(dl_serial_opening, seed_low, 16);
AT(dl_serial_opening, seed_high, 24);
_Static_assert(sizeof(dl_ticket) == 24, "an answer with a ticket");
AT(dl_ticket, code, 0);
AT(dl_ticket, cell, 4);
AT(dl_ticket, batch, 8);
AT(dl_ticket, ticket, 16);
_Static_assert(sizeof(dl_event) == 32, "an event");
AT(dl_event, code, 0);
AT(dl_event, caller, 4);
AT(dl_event, call, 8);
AT(dl_event, batch, 12);
AT(dl_event, keys, 16);
AT(dl_event, batches, 24);
_Static_assert(sizeof(dl_entry) == 16, "an entry");
AT(dl_entry, code, 0);
AT(dl_entry, kind, 4);
AT(dl_entry, at, 8);
AT(dl_entry, cell, 12);
_Static_assert(DL_MOST_CALLERS == 32, "limits");

static bool gives(dl_ticket answer, uint32_t code, uint32_t cell, uint32_t batch, size_t ticket)
{
    return answer.code == code && answer.cell == cell && answer.batch == batch && answer.ticket == ticket;
}

static bool refuses(dl_ticket answer, uint32_t code)
{
    return gives(answer, code, 0, 0, 0);
}

static bool shows(dl_shown shown, uint32_t state, uint64_t word)
{
    return shown.state == state && shown.word == word;
}

static bool is_event(dl_event event, uint32_t caller, uint32_t call, size_t keys, uint32_t batch, size_t batches)
{
    return event.code == DL_DONE && event.caller == caller && event.call == call && event.keys == keys && event.batch == batch &&
           event.batches == batches;
}

static bool notes(dl_entry entry, uint32_t kind, uint32_t at, uint32_t cell)
{
    return entry.code == DL_DONE && entry.kind == kind && entry.at == at && entry.cell == cell;
}

static bool has_texts(const dl_key_texts *texts, const char *table, const char *id)
{
    return texts->table_len == strlen(table) && memcmp(texts->table, table, strlen(table)) == 0 && texts->id_len == strlen(id) &&
           memcmp(texts->id, id, strlen(id)) == 0;
}

/* What the loaders of these tests are opened with. A program with keys of strangers takes its seed from getrandom. */
static dl_serial_opening opening_of(uint32_t max_batch, uint32_t max_cells, uint32_t max_calls, uint32_t callers)
{
    return (dl_serial_opening){max_batch, max_cells, max_calls, callers, 1, 2};
}

static dl_loader *open_loader(uint32_t max_batch, uint32_t max_cells, uint32_t max_calls, uint32_t callers)
{
    dl_serial_opening opening = opening_of(max_batch, max_cells, max_calls, callers);
    dl_loader *loader = NULL;

    CHECK(dl_loader_open(&loader, &opening) == DL_DONE);
    return loader;
}

static uint32_t code_of_open(uint32_t max_batch, uint32_t max_cells, uint32_t max_calls, uint32_t callers)
{
    dl_serial_opening opening = opening_of(max_batch, max_cells, max_calls, callers);
    dl_loader *loader = NULL;
    uint32_t code = dl_loader_open(&loader, &opening);

    CHECK(loader == NULL);
    return code;
}

static void a_loader_opens_within_its_limits(void)
{
    enum { MOST = DL_LARGEST_LIMIT };

    CHECK(code_of_open(0, 1, 1, 1) == DL_BAD_LIMIT);
    CHECK(code_of_open(MOST + 1, 1, 1, 1) == DL_BAD_LIMIT);
    CHECK(code_of_open(1, 0, 1, 1) == DL_BAD_LIMIT);
    CHECK(code_of_open(1, MOST + 1, 1, 1) == DL_BAD_LIMIT);
    CHECK(code_of_open(1, 1, 0, 1) == DL_BAD_LIMIT);
    CHECK(code_of_open(1, 1, MOST + 1, 1) == DL_BAD_LIMIT);
    CHECK(code_of_open(1, 1, 1, 0) == DL_BAD_CALLERS);
    CHECK(code_of_open(1, 1, 1, DL_MOST_CALLERS + 1) == DL_BAD_CALLERS);
    /* The limits are looked at before the callers. */
    CHECK(code_of_open(0, 1, 1, 0) == DL_BAD_LIMIT);
    dl_loader_free(open_loader(MOST, MOST, MOST, DL_MOST_CALLERS));
    dl_loader_free(NULL);
}

static uint32_t open_by_table(dl_loader **loader, const char *names, const dl_table_limit *tables, size_t tables_len)
{
    dl_serial_opening opening = opening_of(2, 8, 16, 1);

    return dl_loader_open_by_table(loader, &opening, (const uint8_t *)names, strlen(names), tables, tables_len);
}

static void tables_with_a_fault_are_refused(void)
{
    static const char long_name[] = "xxxxxxxxxxxxxxxxxxxxxxxxxxxxxxxxxxxxxxxxxxxxxxxxxxxxxxxxxxxxxxxxx";
    static const struct {
        const char *names;
        dl_table_limit tables[2];
        size_t count;
        uint32_t code;
    } rows[] = {
        {"st", {{1, 1}}, 1, DL_BAD_LENGTHS},           {"s", {{1, 1}, {1, 1}}, 2, DL_BAD_LENGTHS},
        {"\xff", {{1, 1}}, 1, DL_BAD_TEXT},            {"", {{0, 1}}, 1, DL_EMPTY_TABLE},
        {long_name, {{65, 1}}, 1, DL_TABLE_TOO_LONG},  {"t", {{1, 0}}, 1, DL_BAD_TABLE_LIMIT},
        {"tt", {{1, 1}, {1, 2}}, 2, DL_DUPLICATE_TABLE},
    };
    dl_serial_opening opening = opening_of(0, 8, 16, 0);
    dl_loader *loader = NULL;

    for (size_t row = 0; row < sizeof rows / sizeof rows[0]; row++) {
        CHECK(open_by_table(&loader, rows[row].names, rows[row].tables, rows[row].count) == rows[row].code);
    }
    CHECK(dl_loader_open_by_table(&loader, &opening, (const uint8_t *)"\xff", 1, rows[2].tables, 1) == DL_BAD_LIMIT);
    opening.max_batch = 1;
    CHECK(dl_loader_open_by_table(&loader, &opening, (const uint8_t *)"s", 1, rows[2].tables, 1) == DL_BAD_CALLERS);
    CHECK(loader == NULL);
}

static void a_batch_by_table_is_of_one_table(void)
{
    static const dl_table_limit tables[1] = {{1, 1}};
    static const uint64_t words[2] = {10, 11};
    dl_loader *loader = NULL;

    CHECK(open_by_table(&loader, "s", tables, 1) == DL_DONE);
    CHECK(gives(dl_loader_load(loader, 0, KEY("t", "a")), DL_FRESH, 0, 0, 0));
    CHECK(gives(dl_loader_load(loader, 0, KEY("s", "x")), DL_FRESH, 1, 1, 1));
    CHECK(gives(dl_loader_load(loader, 0, KEY("t", "b")), DL_FRESH, 2, 0, 2));
    CHECK(gives(dl_loader_load(loader, 0, KEY("s", "y")), DL_FRESH, 3, 2, 3));
    CHECK(sent(dl_loader_dispatch(loader, 0), 0, 3));
    CHECK(dl_loader_settle(loader, 0, 0, words, 2) == DL_DONE);
    CHECK(shows(dl_loader_look(loader, 0), DL_SETTLED, 10) && shows(dl_loader_look(loader, 2), DL_SETTLED, 11));
    CHECK(shows(dl_loader_look(loader, 1), DL_EMPTY, 0));
    dl_loader_free(loader);
}

static void loads_are_batched_and_ended_by_words(void)
{
    static const uint64_t words[3] = {UINT64_MAX, 0, 7};
    dl_loader *loader = open_loader(2, 8, 64, 2);
    dl_key_texts texts;

    CHECK(sent(dl_loader_dispatch(loader, 0), 0, 0));
    CHECK(gives(dl_loader_load(loader, 0, USER("a")), DL_FRESH, 0, 0, 0));
    CHECK(gives(dl_loader_load(loader, 1, USER("b")), DL_FRESH, 1, 0, 0));
    CHECK(gives(dl_loader_load(loader, 1, USER("a")), DL_HIT, 0, 0, 1));
    CHECK(gives(dl_loader_load(loader, 0, KEY("usera", "b")), DL_FRESH, 2, 1, 1));
    CHECK(dl_loader_settle(loader, 0, 0, words, 2) == DL_NOT_SENT);
    CHECK(dl_loader_fail(loader, 0, 1, 9) == DL_NOT_SENT);
    CHECK(sent(dl_loader_dispatch(loader, 1), 0, 2));
    CHECK(sent(dl_loader_dispatch(loader, 0), 0, 0));
    memset(&texts, 42, sizeof texts);
    CHECK(is(dl_loader_member(loader, 0, 2, &texts), DL_NO_MEMBER, 0, 0));
    CHECK(is(dl_loader_member(loader, 2, 0, &texts), DL_NO_BATCH, 0, 0));
    CHECK(texts.table[0] == 42 && texts.id[255] == 42);
    CHECK(is(dl_loader_member(loader, 0, 1, &texts), DL_HIT, 1, 0) && has_texts(&texts, "user", "b"));
    CHECK(is(dl_loader_member(loader, 1, 0, &texts), DL_HIT, 2, 0) && has_texts(&texts, "usera", "b"));
    CHECK(dl_loader_settle(loader, 0, 0, words, 0) == DL_BAD_LENGTHS);
    CHECK(dl_loader_settle(loader, 0, 0, words, 1) == DL_BAD_LENGTHS);
    CHECK(dl_loader_settle(loader, 0, 0, words, 3) == DL_BAD_LENGTHS);
    CHECK(dl_loader_settle(loader, 0, 0, words, SIZE_MAX) == DL_BAD_LENGTHS);
    CHECK(dl_loader_settle(loader, 0, 2, words, 3) == DL_NO_BATCH);
    CHECK(dl_loader_fail(loader, 0, 2, 9) == DL_NO_BATCH);
    CHECK(shows(dl_loader_look(loader, 0), DL_EMPTY, 0) && shows(dl_loader_look(loader, 1), DL_EMPTY, 0));
    CHECK(dl_loader_settle(loader, 0, 0, words, 2) == DL_DONE);
    CHECK(shows(dl_loader_look(loader, 0), DL_SETTLED, UINT64_MAX) && shows(dl_loader_look(loader, 1), DL_SETTLED, 0));
    CHECK(dl_loader_fail(loader, 1, 1, 9) == DL_DONE);
    CHECK(shows(dl_loader_look(loader, 2), DL_FAILED, 9));
    CHECK(dl_loader_settle(loader, 0, 0, words, 2) == DL_ENDED_BEFORE);
    CHECK(dl_loader_fail(loader, 0, 0, 9) == DL_ENDED_BEFORE);
    CHECK(dl_loader_settle(loader, 0, 1, words, 1) == DL_ENDED_BEFORE);
    CHECK(shows(dl_loader_look(loader, 0), DL_SETTLED, UINT64_MAX) && shows(dl_loader_look(loader, 2), DL_FAILED, 9));
    CHECK(gives(dl_loader_load(loader, 0, USER("b")), DL_HIT, 1, 0, 2));
    CHECK(gives(dl_loader_load(loader, 0, KEY("usera", "b")), DL_FRESH, 3, 2, 3));
    dl_loader_free(loader);
}

static void keys_are_primed_and_cleared(void)
{
    dl_loader *loader = open_loader(2, 4, 64, 1);

    CHECK(is(dl_loader_prime(loader, 0, USER("a"), 5), DL_FRESH, 0, 0));
    CHECK(shows(dl_loader_look(loader, 0), DL_SETTLED, 5) && shows(dl_loader_wait(loader, 0), DL_SETTLED, 5));
    CHECK(is(dl_loader_prime(loader, 0, USER("a"), 6), DL_HIT, 0, 0));
    CHECK(gives(dl_loader_load(loader, 0, USER("a")), DL_HIT, 0, 0, 0));
    CHECK(shows(dl_loader_look(loader, 0), DL_SETTLED, 5));
    CHECK(dl_loader_clear(loader, 0, USER("b")) == DL_DONE);
    CHECK(dl_loader_clear(loader, 0, USER("a")) == DL_DONE);
    CHECK(gives(dl_loader_load(loader, 0, USER("a")), DL_FRESH, 1, 0, 1));
    CHECK(shows(dl_loader_look(loader, 0), DL_SETTLED, 5));
    CHECK(dl_loader_clear_all(loader, 0) == DL_DONE);
    CHECK(gives(dl_loader_load(loader, 0, USER("a")), DL_FRESH, 2, 1, 2));
    CHECK(is(dl_loader_prime(loader, 0, USER("b"), 7), DL_FRESH, 3, 0));
    CHECK(is(dl_loader_prime(loader, 0, USER("c"), 8), DL_CELLS_FULL, 0, 0));
    CHECK(refuses(dl_loader_load(loader, 0, USER("c")), DL_CELLS_FULL));
    CHECK(gives(dl_loader_load(loader, 0, USER("b")), DL_HIT, 3, 0, 3));
    dl_loader_free(loader);
}

static void several_keys_are_loaded_as_one(void)
{
    const uint8_t *texts = (const uint8_t *)"userauserbuseraorderx1";
    dl_key_lengths lengths[4] = {{4, 1}, {4, 1}, {4, 1}, {5, 2}};
    dl_loader *loader = open_loader(2, 3, 64, 2);
    dl_ticket answers[4];

    memset(answers, 42, sizeof answers);
    CHECK(gives(dl_loader_load(loader, 1, USER("b")), DL_FRESH, 0, 0, 0));
    CHECK(dl_loader_load_many(loader, 1, texts, 22, lengths, 4, answers, 3) == DL_BAD_LENGTHS);
    CHECK(dl_loader_load_many(loader, 1, texts, 21, lengths, 4, answers, 4) == DL_BAD_LENGTHS);
    CHECK(dl_loader_load_many(loader, 1, texts, 22, lengths, 3, answers, 3) == DL_BAD_LENGTHS);
    CHECK(dl_loader_load_many(loader, 2, texts, 22, lengths, 4, answers, 4) == DL_NO_CALLER);
    CHECK(answers[0].code == 0x2a2a2a2a);
    CHECK(dl_loader_load_many(loader, 1, texts, 22, lengths, 4, answers, 4) == DL_DONE);
    CHECK(gives(answers[0], DL_FRESH, 1, 0, 1) && gives(answers[1], DL_HIT, 0, 0, 2));
    CHECK(gives(answers[2], DL_HIT, 1, 0, 3) && gives(answers[3], DL_FRESH, 2, 1, 4));
    memset(answers, 42, sizeof answers);
    /* All or none: there is no cell left for the last one. */
    CHECK(dl_loader_load_many(loader, 1, (const uint8_t *)"userauserc", 10, lengths, 2, answers, 2) == DL_CELLS_FULL);
    lengths[1].id = 0;
    CHECK(dl_loader_load_many(loader, 1, (const uint8_t *)"userauser", 9, lengths, 2, answers, 2) == DL_BAD_KEY);
    CHECK(answers[0].code == 0x2a2a2a2a);
    CHECK(dl_loader_load_many(loader, 1, texts, 0, lengths, 0, answers, 0) == DL_DONE);
    CHECK(gives(dl_loader_load(loader, 1, USER("a")), DL_HIT, 1, 0, 5));
    dl_loader_free(loader);
}

static void texts_that_are_no_key_are_refused(void)
{
    static const uint8_t long_text[DL_ID_BYTES + 1] = {0};
    dl_loader *loader = open_loader(1, 1, 1, 1);

    CHECK(refuses(dl_loader_load(loader, 0, KEY("", "a")), DL_BAD_KEY));
    CHECK(refuses(dl_loader_load(loader, 0, KEY("user", "")), DL_BAD_KEY));
    CHECK(refuses(dl_loader_load(loader, 0, KEY("user", "\xff")), DL_BAD_KEY));
    CHECK(refuses(dl_loader_load(loader, 0, KEY("\xc3", "\xa9")), DL_BAD_KEY));
    CHECK(refuses(dl_loader_load(loader, 0, long_text, DL_TABLE_BYTES + 1, long_text, 1), DL_BAD_KEY));
    CHECK(refuses(dl_loader_load(loader, 0, long_text, 1, long_text, DL_ID_BYTES + 1), DL_BAD_KEY));
    CHECK(is(dl_loader_prime(loader, 0, KEY("", "a"), 1), DL_BAD_KEY, 0, 0));
    CHECK(dl_loader_clear(loader, 0, KEY("", "a")) == DL_BAD_KEY);
    /* A key is looked at before the caller. */
    CHECK(refuses(dl_loader_load(loader, 1, KEY("", "a")), DL_BAD_KEY));
    CHECK(gives(dl_loader_load(loader, 0, long_text, DL_TABLE_BYTES, long_text, DL_ID_BYTES), DL_FRESH, 0, 0, 0));
    dl_loader_free(loader);
}

/* Whether each call that would be an event of this caller is refused by this code. */
static bool each_event_is_refused(dl_loader *loader, uint32_t caller, uint32_t code)
{
    const dl_key_lengths lengths[1] = {{4, 1}};
    const uint64_t words[1] = {1};
    dl_ticket answers[1];

    return refuses(dl_loader_load(loader, caller, USER("a")), code) &&
           dl_loader_load_many(loader, caller, (const uint8_t *)"usera", 5, lengths, 1, answers, 1) == code &&
           is(dl_loader_prime(loader, caller, USER("p"), 1), code, 0, 0) && dl_loader_clear(loader, caller, USER("a")) == code &&
           dl_loader_clear_all(loader, caller) == code && dl_loader_dispatch(loader, caller).code == code &&
           dl_loader_settle(loader, caller, 0, words, 1) == code && dl_loader_fail(loader, caller, 0, 1) == code;
}

static void a_caller_and_a_place_in_the_history_are_needed(void)
{
    dl_loader *loader = open_loader(2, 8, 2, 1);

    CHECK(gives(dl_loader_load(loader, 0, USER("a")), DL_FRESH, 0, 0, 0));
    CHECK(each_event_is_refused(loader, 1, DL_NO_CALLER));
    CHECK(each_event_is_refused(loader, UINT32_MAX, DL_NO_CALLER));
    CHECK(sent(dl_loader_dispatch(loader, 0), 0, 1));
    CHECK(each_event_is_refused(loader, 0, DL_LOG_FULL));
    CHECK(dl_loader_saw(loader, 1, 0) == DL_NO_CALLER);
    CHECK(dl_loader_saw(loader, 0, 1) == DL_NO_TICKET);
    CHECK(dl_loader_saw(loader, 0, 0) == DL_NONE);
    CHECK(dl_loader_close(loader) == DL_UNSETTLED);
    dl_loader_free(loader);
}

static void a_stopped_loader_takes_no_events(void)
{
    static const uint64_t words[1] = {3};
    dl_loader *loader = open_loader(1, 8, 16, 1);

    CHECK(gives(dl_loader_load(loader, 0, USER("a")), DL_FRESH, 0, 0, 0));
    CHECK(sent(dl_loader_dispatch(loader, 0), 0, 1));
    CHECK(dl_loader_settle(loader, 0, 0, words, 1) == DL_DONE);
    CHECK(gives(dl_loader_load(loader, 0, USER("b")), DL_FRESH, 1, 1, 1));
    CHECK(dl_loader_stop(loader) == DL_DONE && dl_loader_stop(loader) == DL_DONE);
    CHECK(each_event_is_refused(loader, 0, DL_STOPPED));
    CHECK(shows(dl_loader_wait(loader, 0), DL_SETTLED, 3) && shows(dl_loader_wait(loader, 1), DL_ABANDONED, 0));
    CHECK(shows(dl_loader_look(loader, 1), DL_EMPTY, 0));
    CHECK(dl_loader_saw(loader, 0, 0) == DL_DONE);
    CHECK(dl_loader_close(loader) == DL_UNSETTLED);
    dl_loader_free(loader);
    /* With no batch open it closes as ever. */
    loader = open_loader(1, 8, 16, 1);
    CHECK(gives(dl_loader_load(loader, 0, USER("a")), DL_FRESH, 0, 0, 0) && sent(dl_loader_dispatch(loader, 0), 0, 1));
    CHECK(dl_loader_settle(loader, 0, 0, words, 1) == DL_DONE && dl_loader_stop(loader) == DL_DONE);
    CHECK(dl_loader_close(loader) == DL_DONE && dl_loader_event(loader, 2).code == DL_DONE);
    dl_loader_free(loader);
}

static void a_wait_may_have_a_deadline(void)
{
    dl_loader *loader = open_loader(1, 4, 16, 1);
    struct timespec deadline;

    CHECK(gives(dl_loader_load(loader, 0, USER("a")), DL_FRESH, 0, 0, 0));
    CHECK(clock_gettime(CLOCK_MONOTONIC, &deadline) == 0);
    CHECK(shows(dl_loader_wait_until(loader, 0, &deadline), DL_EMPTY, 0));
    deadline.tv_nsec = (deadline.tv_nsec + 20000000) % 1000000000;
    CHECK(shows(dl_loader_wait_until(loader, 0, &deadline), DL_EMPTY, 0));
    CHECK(shows(dl_loader_wait_until(loader, 4, &deadline), DL_ABANDONED, 0));
    CHECK(shows(dl_loader_wait(loader, UINT32_MAX), DL_ABANDONED, 0));
    CHECK(shows(dl_loader_look(loader, UINT32_MAX), DL_EMPTY, 0));
    CHECK(sent(dl_loader_dispatch(loader, 0), 0, 1));
    CHECK(dl_loader_fail(loader, 0, 0, 8) == DL_DONE);
    CHECK(shows(dl_loader_wait_until(loader, 0, &deadline), DL_FAILED, 8));
    dl_loader_free(loader);
}

/* A thread that waits for a cell, and what it was shown. */
typedef struct {
    dl_loader *loader;
    uint32_t cell;
    dl_shown shown;
} waiter;

static void *wait_for_cell(void *argument)
{
    waiter *self = argument;
    self->shown = dl_loader_wait(self->loader, self->cell);
    return NULL;
}

static void threads_that_wait_are_woken(void)
{
    enum { WAITERS = 3 };
    static const uint64_t words[1] = {11};
    dl_loader *loader = open_loader(1, 200, 1000, 1);
    waiter waiters[WAITERS] = {{loader, 0, {0, 0}}, {loader, 64, {0, 0}}, {loader, 65, {0, 0}}};
    pthread_t threads[WAITERS];
    char id[3] = {0};

    for (int i = 0; i < 100; i++) {
        id[0] = (char)('a' + i / 10);
        id[1] = (char)('a' + i % 10);
        dl_loader_load(loader, 0, (const uint8_t *)"user", 4, (const uint8_t *)id, 2);
    }
    CHECK(sent(dl_loader_dispatch(loader, 0), 0, 100));
    for (int i = 0; i < WAITERS; i++) {
        CHECK(pthread_create(&threads[i], NULL, wait_for_cell, &waiters[i]) == 0);
    }
    /* Cells 0 and 64 share a condition. The last waiter is let go by the stop. */
    CHECK(dl_loader_settle(loader, 0, 64, words, 1) == DL_DONE);
    CHECK(pthread_join(threads[1], NULL) == 0 && shows(waiters[1].shown, DL_SETTLED, 11));
    CHECK(dl_loader_fail(loader, 0, 0, 12) == DL_DONE);
    CHECK(pthread_join(threads[0], NULL) == 0 && shows(waiters[0].shown, DL_FAILED, 12));
    CHECK(dl_loader_stop(loader) == DL_DONE);
    CHECK(pthread_join(threads[2], NULL) == 0 && shows(waiters[2].shown, DL_ABANDONED, 0));
    dl_loader_free(loader);
}

/* A loader whose history has each call once: load a, load b and a, prime c, clear a, clear all, dispatch, settle 0, fail 1. */
static dl_loader *with_each_call(void)
{
    static const uint64_t words[1] = {1};
    const dl_key_lengths lengths[2] = {{4, 1}, {4, 1}};
    dl_loader *loader = open_loader(1, 8, 16, 2);
    dl_ticket answers[2];

    CHECK(gives(dl_loader_load(loader, 0, USER("a")), DL_FRESH, 0, 0, 0));
    CHECK(dl_loader_load_many(loader, 1, (const uint8_t *)"userbusera", 10, lengths, 2, answers, 2) == DL_DONE);
    CHECK(is(dl_loader_prime(loader, 0, USER("c"), 1), DL_FRESH, 2, 0));
    CHECK(is(dl_loader_prime(loader, 0, USER("c"), 1), DL_HIT, 0, 0));
    CHECK(dl_loader_clear(loader, 1, USER("a")) == DL_DONE);
    CHECK(dl_loader_clear_all(loader, 0) == DL_DONE);
    CHECK(sent(dl_loader_dispatch(loader, 1), 0, 2));
    CHECK(dl_loader_settle(loader, 0, 0, words, 1) == DL_DONE);
    CHECK(dl_loader_saw(loader, 1, 1) == DL_DONE);
    CHECK(dl_loader_saw(loader, 1, 1) == DL_DONE);
    CHECK(dl_loader_fail(loader, 1, 1, 2) == DL_DONE);
    return loader;
}

static void the_close_gives_the_history(void)
{
    dl_loader *loader = with_each_call();
    dl_key_texts texts;

    CHECK(dl_loader_event(loader, 0).code == DL_OPEN && dl_loader_entry(loader, 0, 0).code == DL_OPEN);
    CHECK(is(dl_loader_event_key(loader, 0, 0, &texts), DL_OPEN, 0, 0));
    CHECK(dl_loader_close(loader) == DL_DONE);
    CHECK(dl_loader_close(loader) == DL_CLOSED);
    CHECK(is_event(dl_loader_event(loader, 0), 0, DL_CALL_LOAD, 1, 0, 0));
    CHECK(is(dl_loader_event_key(loader, 0, 0, &texts), DL_FRESH, 0, 0) && has_texts(&texts, "user", "a"));
    CHECK(is(dl_loader_event_key(loader, 0, 1, &texts), DL_NO_MEMBER, 0, 0));
    CHECK(is_event(dl_loader_event(loader, 1), 1, DL_CALL_LOAD_MANY, 2, 0, 0));
    CHECK(is(dl_loader_event_key(loader, 1, 0, &texts), DL_FRESH, 1, 1) && has_texts(&texts, "user", "b"));
    CHECK(is(dl_loader_event_key(loader, 1, 1, &texts), DL_HIT, 0, 0) && has_texts(&texts, "user", "a"));
    CHECK(is_event(dl_loader_event(loader, 2), 0, DL_CALL_PRIME, 1, 0, 0));
    CHECK(is(dl_loader_event_key(loader, 2, 0, &texts), DL_FRESH, 2, 0) && has_texts(&texts, "user", "c"));
    CHECK(is(dl_loader_event_key(loader, 3, 0, &texts), DL_HIT, 0, 0));
    CHECK(is_event(dl_loader_event(loader, 4), 1, DL_CALL_CLEAR, 1, 0, 0));
    CHECK(is(dl_loader_event_key(loader, 4, 0, &texts), DL_DONE, 0, 0) && has_texts(&texts, "user", "a"));
    CHECK(is_event(dl_loader_event(loader, 5), 0, DL_CALL_CLEAR_ALL, 0, 0, 0));
    CHECK(is_event(dl_loader_event(loader, 6), 1, DL_CALL_DISPATCH, 0, 0, 2));
    CHECK(is_event(dl_loader_event(loader, 7), 0, DL_CALL_SETTLE, 0, 0, 1));
    CHECK(is_event(dl_loader_event(loader, 8), 1, DL_CALL_FAIL, 0, 1, 1));
    CHECK(dl_loader_event(loader, 9).code == DL_NO_EVENT);
    CHECK(is(dl_loader_event_key(loader, 9, 0, &texts), DL_NO_EVENT, 0, 0));
    CHECK(notes(dl_loader_entry(loader, 0, 0), DL_ENTRY_CALL, 0, 0) && notes(dl_loader_entry(loader, 0, 4), DL_ENTRY_CALL, 7, 0));
    CHECK(dl_loader_entry(loader, 0, 5).code == DL_NO_EVENT);
    CHECK(notes(dl_loader_entry(loader, 1, 0), DL_ENTRY_CALL, 1, 0) && notes(dl_loader_entry(loader, 1, 2), DL_ENTRY_CALL, 6, 0));
    /* Caller 1 saw the outcome of its second ticket, of cell 0, which event 7 ended. */
    CHECK(notes(dl_loader_entry(loader, 1, 3), DL_ENTRY_SAW, 7, 0) && notes(dl_loader_entry(loader, 1, 4), DL_ENTRY_CALL, 8, 0));
    CHECK(dl_loader_entry(loader, 1, 5).code == DL_NO_EVENT && dl_loader_entry(loader, 2, 0).code == DL_NO_EVENT);
    dl_loader_free(loader);
}

/* Whether a loader's history is written as this text, and answered by this code. */
static bool is_written(dl_loader *loader, uint32_t code, const char *wanted)
{
    char *text = NULL;
    size_t len = 0;
    FILE *to = open_memstream(&text, &len);
    bool is = to != NULL && dl_write_history(to, loader) == code;

    is = to != NULL && fclose(to) == 0 && is && strcmp(text, wanted) == 0;
    free(text);
    return is;
}

static void a_history_is_written_as_two_lines_of_json(void)
{
    static const char wanted[] =
        "{\"script\":1,\"maxBatchSize\":1,\"maxCells\":8,\"maxCalls\":16,\"calls\":[{\"load\":[\"user\",\"a\"]},"
        "{\"loadMany\":[[\"user\",\"b\"],[\"user\",\"a\"]]},{\"prime\":[\"user\",\"c\"]},{\"prime\":[\"user\",\"c\"]},{\"clear\":[\"user\",\"a\"]},"
        "{\"clearAll\":true},{\"dispatch\":true},{\"settle\":0},{\"fail\":1}]}\n"
        "[[0,1,0,0],[1,1,1,1,0,0,0],[0,1,2,0],[0,0,0,0],[1],[0],[1,0,1],[0],[1]]\n";
    dl_loader *loader = with_each_call();

    CHECK(is_written(loader, DL_OPEN, ""));
    CHECK(dl_loader_close(loader) == DL_DONE);
    CHECK(is_written(loader, DL_DONE, wanted));
    dl_loader_free(loader);
}

static void a_history_may_have_no_calls(void)
{
    dl_loader *loader = open_loader(1, 2, 3, 1);

    CHECK(dl_loader_stop(loader) == DL_DONE && is_written(loader, DL_OPEN, ""));
    CHECK(dl_loader_close(loader) == DL_DONE);
    CHECK(is_written(loader, DL_DONE, "{\"script\":1,\"maxBatchSize\":1,\"maxCells\":2,\"maxCalls\":3,\"calls\":[]}\n[]\n"));
    dl_loader_free(loader);
}

static void a_history_by_table_is_written_with_the_limits_of_tables(void)
{
    static const char wanted[] = "{\"script\":2,\"maxBatchSize\":2,\"maxCells\":8,\"maxCalls\":16,\"tableLimits\":[[\"s\",1],[\"tt\",3]],"
                                 "\"calls\":[{\"load\":[\"t\",\"a\"]},{\"load\":[\"s\",\"x\"]},{\"dispatch\":true},{\"fail\":1},{\"fail\":0}]}\n"
                                 "[[0,1,0,0],[0,1,1,1],[0,0,1],[0],[0]]\n";
    static const char none[] = "{\"script\":2,\"maxBatchSize\":2,\"maxCells\":8,\"maxCalls\":16,\"tableLimits\":[],\"calls\":[]}\n[]\n";
    dl_table_limit tables[2] = {{1, 1}, {2, 3}};
    char names[] = "stt";
    dl_loader *loader = NULL;

    CHECK(open_by_table(&loader, names, tables, 2) == DL_DONE);
    /* The loader keeps them, and no pointer to them. */
    memset(tables, 42, sizeof tables);
    memset(names, 42, sizeof names);
    dl_loader_load(loader, 0, KEY("t", "a"));
    dl_loader_load(loader, 0, KEY("s", "x"));
    dl_loader_dispatch(loader, 0);
    CHECK(dl_loader_fail(loader, 0, 1, 0) == DL_DONE && dl_loader_fail(loader, 0, 0, 0) == DL_DONE);
    CHECK(is_written(loader, DL_OPEN, ""));
    CHECK(dl_loader_close(loader) == DL_DONE);
    CHECK(is_written(loader, DL_DONE, wanted));
    dl_loader_free(loader);
    /* With no table that has a limit of its own each batch is of one table still. */
    CHECK(open_by_table(&loader, "", tables, 0) == DL_DONE && dl_loader_close(loader) == DL_DONE);
    CHECK(is_written(loader, DL_DONE, none));
    dl_loader_free(loader);
}

static bool is_opening(dl_serial_opening opening, uint32_t max_batch, uint32_t max_cells, uint32_t max_calls, uint32_t callers)
{
    return opening.max_batch == max_batch && opening.max_cells == max_cells && opening.max_calls == max_calls &&
           opening.callers == callers && opening.seed_low == 0 && opening.seed_high == 0;
}

static void a_loader_keeps_what_it_was_opened_with(void)
{
    static const dl_table_limit tables[2] = {{1, 1}, {2, 3}};
    dl_loader *loader = open_loader(1, 2, 3, 4);
    const dl_opened *opened = dl_loader_opened(loader);

    CHECK(is_opening(opened->opening, 1, 2, 3, 4) && !opened->is_by_table && opened->names_len == 0 && opened->tables_len == 0);
    dl_loader_free(loader);
    CHECK(open_by_table(&loader, "stt", tables, 2) == DL_DONE);
    opened = dl_loader_opened(loader);
    CHECK(is_opening(opened->opening, 2, 8, 16, 1) && opened->is_by_table);
    CHECK(opened->names_len == 3 && memcmp(opened->names, "stt", 3) == 0);
    CHECK(opened->tables_len == 2 && memcmp(opened->tables, tables, sizeof tables) == 0);
    CHECK(dl_loader_close(loader) == DL_DONE && dl_loader_opened(loader) == opened);
    dl_loader_free(loader);
}

static void texts_of_json_are_quoted(void)
{
    static const uint8_t given[] = {'"', '\\', '\n', 0x1f, 0xc3, 0xa9};
    char *text = NULL;
    size_t len = 0;
    FILE *to = open_memstream(&text, &len);

    CHECK(to != NULL);
    if (to != NULL) {
        dl_write_text(to, given, sizeof given);
        CHECK(fclose(to) == 0 && strcmp(text, "\"\\\"\\\\\\u000a\\u001f\xc3\xa9\"") == 0);
    }
    free(text);
}

static void a_closed_loader_takes_no_calls_and_keeps_its_words(void)
{
    dl_loader *loader = with_each_call();
    dl_key_texts texts;

    CHECK(dl_loader_close(loader) == DL_DONE);
    CHECK(each_event_is_refused(loader, 0, DL_CLOSED));
    CHECK(is(dl_loader_member(loader, 0, 0, &texts), DL_CLOSED, 0, 0));
    CHECK(dl_loader_saw(loader, 0, 0) == DL_CLOSED && dl_loader_stop(loader) == DL_CLOSED);
    CHECK(shows(dl_loader_look(loader, 0), DL_SETTLED, 1) && shows(dl_loader_wait(loader, 1), DL_FAILED, 2));
    CHECK(shows(dl_loader_look(loader, 2), DL_SETTLED, 1) && shows(dl_loader_look(loader, 3), DL_EMPTY, 0));
    CHECK(shows(dl_loader_wait(loader, 3), DL_ABANDONED, 0));
    dl_loader_free(loader);
}

int main(void)
{
    a_loader_opens_within_its_limits();
    tables_with_a_fault_are_refused();
    a_batch_by_table_is_of_one_table();
    loads_are_batched_and_ended_by_words();
    keys_are_primed_and_cleared();
    several_keys_are_loaded_as_one();
    texts_that_are_no_key_are_refused();
    a_caller_and_a_place_in_the_history_are_needed();
    a_stopped_loader_takes_no_events();
    a_wait_may_have_a_deadline();
    threads_that_wait_are_woken();
    the_close_gives_the_history();
    a_loader_keeps_what_it_was_opened_with();
    a_history_is_written_as_two_lines_of_json();
    a_history_may_have_no_calls();
    a_history_by_table_is_written_with_the_limits_of_tables();
    texts_of_json_are_quoted();
    a_closed_loader_takes_no_calls_and_keeps_its_words();
    printf("%u passed, %u failed\n", passed, failed);
    return failed == 0 ? 0 : 1;
}
