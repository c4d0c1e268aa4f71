/* The lock around the calls of dl_serial.h, and the words of the cells.
 *
 * DL_HELGRIND has helgrind know what the states of the cells order, since it knows no atomic operations. DL_NO_LOCK leaves out the
 * lock, for a test that helgrind finds that. */
#define _POSIX_C_SOURCE 200809L
#include "dl_loader.h"

#include <pthread.h>
#include <stdatomic.h>
#include <stdlib.h>
#include <string.h>

#ifdef DL_HELGRIND
#include <valgrind/helgrind.h>
#else
#define VALGRIND_HG_DISABLE_CHECKING(start, length) ((void)0)
#define ANNOTATE_HAPPENS_BEFORE(place) ((void)0)
#define ANNOTATE_HAPPENS_AFTER(place) ((void)0)
#endif

/* Threads that wait for cell n wait at condition n modulo this, so that an end wakes few others. */
enum { CONDITIONS = 64 };

/* A cell: its word is written once, under the lock and before its state, and is read after that. */
typedef struct {
    _Atomic uint32_t state;
    uint64_t word;
} cell;

struct dl_loader {
    pthread_mutex_t lock;
    pthread_cond_t ended[CONDITIONS];
    dl_serial serial; /* under the lock */
    bool is_over;     /* under the lock: stopped or closed, so that no empty cell gets a word */
    uint32_t cell_count;
    cell *cells;
    dl_opened opened;        /* written by the open alone */
    dl_table_limit tables[]; /* its limits, and behind them its names */
};

static void enter(dl_loader *loader)
{
#ifndef DL_NO_LOCK
    pthread_mutex_lock(&loader->lock);
#else
    (void)loader;
#endif
}

static void leave(dl_loader *loader)
{
#ifndef DL_NO_LOCK
    pthread_mutex_unlock(&loader->lock);
#else
    (void)loader;
#endif
}

static void leave_held(dl_loader **held)
{
    leave(*held);
}

/* Holds the lock to the end of the block. */
#define HOLD(loader)                                                \
    __attribute__((cleanup(leave_held))) dl_loader *held = (loader); \
    enter(held)

/* ---- open and free */

/* Makes so many conditions, of the clock that deadlines are of. How many were made. */
static unsigned make_conditions(pthread_cond_t *conditions)
{
    pthread_condattr_t attributes;
    unsigned made = 0;

    if (pthread_condattr_init(&attributes) != 0) {
        return 0;
    }
    if (pthread_condattr_setclock(&attributes, CLOCK_MONOTONIC) == 0) {
        while (made < CONDITIONS && pthread_cond_init(&conditions[made], &attributes) == 0) {
            made++;
        }
    }
    pthread_condattr_destroy(&attributes);
    return made;
}

static void destroy_conditions(pthread_cond_t *conditions, unsigned made)
{
    while (made > 0) {
        pthread_cond_destroy(&conditions[--made]);
    }
}

/* Makes the cells of a loader, the lock and the conditions: all of them or none. */
static bool make_parts(dl_loader *loader, uint32_t cell_count)
{
    unsigned made;

    loader->cells = calloc(cell_count, sizeof *loader->cells);
    if (loader->cells == NULL) {
        return false;
    }
    made = make_conditions(loader->ended);
    if (made < CONDITIONS || pthread_mutex_init(&loader->lock, NULL) != 0) {
        destroy_conditions(loader->ended, made);
        free(loader->cells);
        return false;
    }
    loader->cell_count = cell_count;
    for (uint32_t i = 0; i < cell_count; i++) {
        VALGRIND_HG_DISABLE_CHECKING(&loader->cells[i].state, sizeof loader->cells[i].state);
    }
    return true;
}

/* Keeps what a loader was opened with, but for the seeds, in a loader that has room for the names and limits. */
static void keep_opened(dl_loader *loader, const dl_opened *opened)
{
    uint8_t *names = (uint8_t *)&loader->tables[opened->tables_len];

    loader->opened = *opened;
    loader->opened.opening.seed_low = loader->opened.opening.seed_high = 0;
    loader->opened.tables = loader->tables;
    loader->opened.names = names;
    if (opened->is_by_table) {
        memcpy(loader->tables, opened->tables, opened->tables_len * sizeof *opened->tables);
        memcpy(names, opened->names, opened->names_len);
    }
}

/* A loader with this handle, which was opened so, or DL_OUT_OF_MEMORY with the handle freed. */
static uint32_t make_loader(dl_loader **place, dl_serial serial, const dl_opened *opened)
{
    dl_loader *loader = calloc(1, sizeof *loader + opened->tables_len * sizeof *opened->tables + opened->names_len);

    if (loader == NULL || !make_parts(loader, opened->opening.max_cells)) {
        dl_serial_free(&serial);
        free(loader);
        return DL_OUT_OF_MEMORY;
    }
    loader->serial = serial;
    keep_opened(loader, opened);
    *place = loader;
    return DL_DONE;
}

uint32_t dl_loader_open(dl_loader **loader, const dl_serial_opening *opening)
{
    dl_serial serial = {0};
    dl_opened opened = {.opening = *opening};
    uint32_t code = dl_serial_open(&serial, opening);

    return code == DL_DONE ? make_loader(loader, serial, &opened) : code;
}

uint32_t dl_loader_open_by_table(dl_loader **loader, const dl_serial_opening *opening, const uint8_t *names, size_t names_len,
                                 const dl_table_limit *tables, size_t tables_len)
{
    dl_serial serial = {0};
    dl_opened opened = {*opening, true, names, tables, names_len, tables_len};
    uint32_t code = dl_serial_open_by_table(&serial, opening, names, names_len, tables, tables_len);

    return code == DL_DONE ? make_loader(loader, serial, &opened) : code;
}

const dl_opened *dl_loader_opened(const dl_loader *loader)
{
    return &loader->opened;
}

void dl_loader_free(dl_loader *loader)
{
    if (loader == NULL) {
        return;
    }
    dl_serial_free(&loader->serial);
    destroy_conditions(loader->ended, CONDITIONS);
    pthread_mutex_destroy(&loader->lock);
    free(loader->cells);
    free(loader);
}

/* ---- calls of callers */

dl_ticket dl_loader_load(dl_loader *loader, uint32_t caller, DL_KEY)
{
    HOLD(loader);
    return dl_serial_load(&loader->serial, caller, table, table_len, id, id_len);
}

uint32_t dl_loader_load_many(dl_loader *loader, uint32_t caller, const uint8_t *texts, size_t texts_len,
                             const dl_key_lengths *lengths, size_t lengths_len, dl_ticket *answers, size_t answers_len)
{
    HOLD(loader);
    return dl_serial_load_many(&loader->serial, caller, texts, texts_len, lengths, lengths_len, answers, answers_len);
}

uint32_t dl_loader_clear(dl_loader *loader, uint32_t caller, DL_KEY)
{
    HOLD(loader);
    return dl_serial_clear(&loader->serial, caller, table, table_len, id, id_len);
}

uint32_t dl_loader_clear_all(dl_loader *loader, uint32_t caller)
{
    HOLD(loader);
    return dl_serial_clear_all(&loader->serial, caller);
}

dl_dispatched dl_loader_dispatch(dl_loader *loader, uint32_t caller)
{
    HOLD(loader);
    return dl_serial_dispatch(&loader->serial, caller);
}

/* ---- ends, which show cells */

/* Gives a cell its word, under the lock. */
static void show(dl_loader *loader, uint32_t number, dl_shown shown)
{
    cell *shows = &loader->cells[number];

    shows->word = shown.word;
    ANNOTATE_HAPPENS_BEFORE(shows);
    atomic_store_explicit(&shows->state, shown.state, memory_order_release);
}

/* Gives each member of a batch its word, or the one word if there is but one for all, and wakes who waits for them. Under the lock. */
static void show_batch(dl_loader *loader, uint32_t batch, uint32_t state, const uint64_t *words, bool is_one)
{
    dl_key_texts texts;
    uint64_t touched = 0;
    dl_loaded member;

    for (uint32_t index = 0; (member = dl_serial_member(&loader->serial, batch, index, &texts)).code == DL_HIT; index++) {
        show(loader, member.cell, (dl_shown){state, words[is_one ? 0 : index]});
        touched |= UINT64_C(1) << member.cell % CONDITIONS;
    }
    for (unsigned condition = 0; condition < CONDITIONS; condition++) {
        if (touched >> condition & 1) {
            pthread_cond_broadcast(&loader->ended[condition]);
        }
    }
}

/* DL_DONE if a batch has so many members. Under the lock. */
static uint32_t count_code(dl_loader *loader, uint32_t batch, size_t count)
{
    dl_key_texts texts;
    dl_loaded last = {.code = DL_NO_MEMBER}, past;

    if (count > UINT32_MAX) {
        return DL_BAD_LENGTHS;
    }
    past = dl_serial_member(&loader->serial, batch, (uint32_t)count, &texts);
    if (count > 0) {
        last = dl_serial_member(&loader->serial, batch, (uint32_t)count - 1, &texts);
    }
    if (past.code == DL_CLOSED || past.code == DL_NO_BATCH) {
        return past.code;
    }
    return last.code == DL_HIT && past.code == DL_NO_MEMBER ? DL_DONE : DL_BAD_LENGTHS;
}

uint32_t dl_loader_settle(dl_loader *loader, uint32_t caller, uint32_t batch, const uint64_t *words, size_t words_len)
{
    HOLD(loader);
    uint32_t code = count_code(loader, batch, words_len);
    if (code == DL_DONE) {
        code = dl_serial_settle(&loader->serial, caller, batch);
    }
    if (code == DL_DONE) {
        show_batch(loader, batch, DL_SETTLED, words, false);
    }
    return code;
}

uint32_t dl_loader_fail(dl_loader *loader, uint32_t caller, uint32_t batch, uint64_t word)
{
    HOLD(loader);
    uint32_t code = dl_serial_fail(&loader->serial, caller, batch);
    if (code == DL_DONE) {
        show_batch(loader, batch, DL_FAILED, &word, true);
    }
    return code;
}

/* No thread waits for a cell that a prime begins: a load that finds it is made later. */
dl_loaded dl_loader_prime(dl_loader *loader, uint32_t caller, DL_KEY, uint64_t word)
{
    HOLD(loader);
    dl_loaded answer = dl_serial_prime(&loader->serial, caller, table, table_len, id, id_len);
    if (answer.code == DL_FRESH) {
        show(loader, answer.cell, (dl_shown){DL_SETTLED, word});
    }
    return answer;
}

/* ---- what is no event */

dl_loaded dl_loader_member(dl_loader *loader, uint32_t batch, uint32_t index, dl_key_texts *texts)
{
    HOLD(loader);
    return dl_serial_member(&loader->serial, batch, index, texts);
}

dl_shown dl_loader_look(const dl_loader *loader, uint32_t number)
{
    dl_shown shown = {DL_EMPTY, 0};

    if (number < loader->cell_count) {
        const cell *shows = &loader->cells[number];
        shown.state = atomic_load_explicit(&shows->state, memory_order_acquire);
        if (shown.state != DL_EMPTY) {
            ANNOTATE_HAPPENS_AFTER(shows);
            shown.word = shows->word;
        }
    }
    return shown;
}

/* Waits for a cell that was empty, with a deadline or without. */
static dl_shown wait_for(dl_loader *loader, uint32_t number, const struct timespec *deadline)
{
    pthread_cond_t *ended = &loader->ended[number % CONDITIONS];
    dl_shown shown;
    int fault = 0;

    pthread_mutex_lock(&loader->lock);
    while ((shown = dl_loader_look(loader, number)).state == DL_EMPTY && !loader->is_over && fault == 0) {
        fault = deadline == NULL ? pthread_cond_wait(ended, &loader->lock) : pthread_cond_timedwait(ended, &loader->lock, deadline);
    }
    if (shown.state == DL_EMPTY && loader->is_over) {
        shown.state = DL_ABANDONED;
    }
    pthread_mutex_unlock(&loader->lock);
    return shown;
}

dl_shown dl_loader_wait(dl_loader *loader, uint32_t cell)
{
    return dl_loader_wait_until(loader, cell, NULL);
}

dl_shown dl_loader_wait_until(dl_loader *loader, uint32_t cell, const struct timespec *deadline)
{
    dl_shown shown = dl_loader_look(loader, cell);

    if (cell >= loader->cell_count) {
        shown.state = DL_ABANDONED;
    }
    return shown.state == DL_EMPTY ? wait_for(loader, cell, deadline) : shown;
}

uint32_t dl_loader_saw(dl_loader *loader, uint32_t caller, size_t ticket)
{
    HOLD(loader);
    return dl_serial_saw(&loader->serial, caller, ticket);
}

/* Ends all waits if a call was made after which no empty cell gets a word. Under the lock. */
static void end_waits(dl_loader *loader, uint32_t code)
{
    if (code == DL_DONE) {
        loader->is_over = true;
        for (unsigned condition = 0; condition < CONDITIONS; condition++) {
            pthread_cond_broadcast(&loader->ended[condition]);
        }
    }
}

uint32_t dl_loader_stop(dl_loader *loader)
{
    HOLD(loader);
    uint32_t code = dl_serial_stop(&loader->serial);
    end_waits(loader, code);
    return code;
}

uint32_t dl_loader_close(dl_loader *loader)
{
    HOLD(loader);
    uint32_t code = dl_serial_close(&loader->serial);
    end_waits(loader, code);
    return code;
}

/* ---- the history */

dl_event dl_loader_event(dl_loader *loader, uint32_t at)
{
    HOLD(loader);
    return dl_serial_event(&loader->serial, at);
}

dl_loaded dl_loader_event_key(dl_loader *loader, uint32_t at, size_t index, dl_key_texts *texts)
{
    HOLD(loader);
    return dl_serial_event_key(&loader->serial, at, index, texts);
}

dl_entry dl_loader_entry(dl_loader *loader, uint32_t caller, size_t index)
{
    HOLD(loader);
    return dl_serial_entry(&loader->serial, caller, index);
}
