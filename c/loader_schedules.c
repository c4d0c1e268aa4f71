/* A C program in which threads share a loader and make calls that are drawn. The history that each loader gives at its close is then
 * held against the definitions of a loader of one thread, which look back through the history and keep no state, and against what
 * each thread was answered and read.
 *
 *     loader_schedules [RUNS [SEED [tell]]]
 *
 * It prints what is wrong, with the seed of its run, and how many runs passed. With `tell` it prints each history too, as a line of JSON,
 * for tests/hosts to hold against a loader of its own. */
#define _POSIX_C_SOURCE 200809L
#include "dl_history.h"
#include "dl_loader.h"

#include <pthread.h>
#include <sched.h>
#include <stdio.h>
#include <stdlib.h>
#include <string.h>

enum { THREADS = 4, CALLS = 40, KEYS = 6, MOST_OF_CALL = 3, MAX_BATCH = 3, CELLS = THREADS * CALLS * MOST_OF_CALL };
/* A call may send before each outcome that it reads, and each batch has one end. */
enum { MOST_EVENTS = THREADS * (CALLS * (1 + MOST_OF_CALL) + 1) + CELLS, NONE = -1 };

/* ---- what threads do */

/* A call as its caller knows it: its keys, and what was answered to each; of a dispatch its batches; of an end its batch. */
typedef struct {
    uint32_t call, batch;
    size_t batches, keys;
    unsigned key[MOST_OF_CALL];
    dl_loaded answer[MOST_OF_CALL];
} made;

/* An outcome that a caller read. */
typedef struct {
    uint32_t cell;
    dl_shown shown;
} read_outcome;

typedef struct {
    dl_loader *loader;
    uint32_t number, load_count;
    uint64_t drawn;
    const char *fault;
    size_t made_count, read_count;
    made made[MOST_EVENTS];
    read_outcome reads[CELLS];
} caller;

static uint64_t draw(caller *self, uint64_t below)
{
    uint64_t mixed = self->drawn += 0x9e3779b97f4a7c15;
    mixed = (mixed ^ mixed >> 30) * 0xbf58476d1ce4e5b9;
    mixed = (mixed ^ mixed >> 27) * 0x94d049bb133111eb;
    return (mixed ^ mixed >> 31) % below;
}

/* The n-th key: the table and the id are a letter each. */
static const uint8_t *table_of(unsigned key)
{
    return (const uint8_t *)(key % 2 == 0 ? "s" : "t");
}

static const uint8_t *id_of(unsigned key)
{
    return (const uint8_t *)"abcdef" + key;
}

#define TEXTS(key) table_of(key), 1, id_of(key), 1

/* What an end gives a cell, and what a prime does: so each word shows where it is from. */
static uint64_t word_of(uint32_t cell, uint32_t batch, uint32_t state)
{
    return (uint64_t)state << 60 | (uint64_t)(batch + 1) << 30 | cell;
}

#define PRIMED UINT32_C(0x1fffffff)

static void must(caller *self, bool holds, const char *what)
{
    if (!holds && self->fault == NULL) {
        self->fault = what;
        dl_loader_stop(self->loader);
    }
}

static made *next_made(caller *self, uint32_t call)
{
    made *added = &self->made[self->made_count++];
    memset(added, 0, sizeof *added);
    added->call = call;
    return added;
}

/* Settles or fails a batch that this caller sent. */
static void end_batch(caller *self, uint32_t batch)
{
    bool fails = draw(self, 4) == 0;
    made *added = next_made(self, fails ? DL_CALL_FAIL : DL_CALL_SETTLE);
    uint64_t words[MAX_BATCH + 1];
    size_t count = 0;
    dl_key_texts texts;
    dl_loaded member;

    added->batch = batch;
    added->batches = 1;
    while (count <= MAX_BATCH && (member = dl_loader_member(self->loader, batch, (uint32_t)count, &texts)).code == DL_HIT) {
        words[count++] = word_of(member.cell, batch, DL_SETTLED);
    }
    must(self, 0 < count && count <= MAX_BATCH, "a batch has 1 to 3 members");
    if (fails) {
        must(self, dl_loader_fail(self->loader, self->number, batch, word_of(0, batch, DL_FAILED)) == DL_DONE, "fail");
    } else {
        must(self, dl_loader_settle(self->loader, self->number, batch, words, count) == DL_DONE, "settle");
    }
    if (draw(self, 8) == 0) {
        must(self, dl_loader_fail(self->loader, self->number, batch, 0) == DL_ENDED_BEFORE, "a second end");
    }
}

/* Sends what is collected, and ends it. */
static void send(caller *self)
{
    dl_dispatched sent = dl_loader_dispatch(self->loader, self->number);
    made *added = next_made(self, DL_CALL_DISPATCH);

    must(self, sent.code == DL_DONE, "dispatch");
    added->batch = sent.first;
    added->batches = sent.count;
    for (uint32_t batch = sent.first; batch < sent.first + sent.count; batch++) {
        if (draw(self, 2) == 0) {
            sched_yield();
        }
        end_batch(self, batch);
    }
}

/* Reads the outcome of one of the caller's tickets, which is of this cell. A caller sends before it waits: so whoever has a batch to
 * end doesn't wait. */
static void read_cell(caller *self, size_t ticket, uint32_t cell)
{
    dl_shown shown = dl_loader_look(self->loader, cell);

    if (shown.state == DL_EMPTY) {
        send(self);
        shown = dl_loader_wait(self->loader, cell);
    }
    must(self, shown.state == DL_SETTLED || shown.state == DL_FAILED, "a wait");
    must(self, dl_loader_saw(self->loader, self->number, ticket) == DL_DONE, "saw");
    self->reads[self->read_count++] = (read_outcome){cell, shown};
}

static void load(caller *self)
{
    made *added = next_made(self, DL_CALL_LOAD);

    added->keys = 1;
    added->key[0] = (unsigned)draw(self, KEYS);
    dl_ticket given = dl_loader_load(self->loader, self->number, TEXTS(added->key[0]));
    added->answer[0] = (dl_loaded){given.code, given.cell, given.batch};
    must(self, given.code <= DL_FRESH && given.ticket == self->load_count++, "load");
    if (draw(self, 2) == 0) {
        read_cell(self, given.ticket, given.cell);
    }
}

static void load_many(caller *self)
{
    static const dl_key_lengths lengths[MOST_OF_CALL] = {{1, 1}, {1, 1}, {1, 1}};
    made *added = next_made(self, DL_CALL_LOAD_MANY);
    uint8_t texts[2 * MOST_OF_CALL] = {0};
    dl_ticket given[MOST_OF_CALL];

    added->keys = (size_t)draw(self, MOST_OF_CALL + 1);
    for (size_t i = 0; i < added->keys; i++) {
        added->key[i] = (unsigned)draw(self, KEYS);
        texts[2 * i] = *table_of(added->key[i]);
        texts[2 * i + 1] = *id_of(added->key[i]);
    }
    uint32_t code = dl_loader_load_many(self->loader, self->number, texts, 2 * added->keys, lengths, added->keys, given, added->keys);
    must(self, code == DL_DONE, "load many");
    for (size_t i = 0; i < added->keys && code == DL_DONE; i++) {
        added->answer[i] = (dl_loaded){given[i].code, given[i].cell, given[i].batch};
        must(self, given[i].ticket == self->load_count++, "a ticket of several");
    }
    for (size_t i = 0; i < added->keys && code == DL_DONE; i++) {
        read_cell(self, given[i].ticket, given[i].cell);
    }
}

static void prime(caller *self)
{
    made *added = next_made(self, DL_CALL_PRIME);

    added->keys = 1;
    added->key[0] = (unsigned)draw(self, KEYS);
    added->answer[0] = dl_loader_prime(self->loader, self->number, TEXTS(added->key[0]), word_of(0, PRIMED, DL_SETTLED));
    must(self, added->answer[0].code <= DL_FRESH, "prime");
}

static void clear(caller *self)
{
    made *added = next_made(self, DL_CALL_CLEAR);

    added->keys = 1;
    added->key[0] = (unsigned)draw(self, KEYS);
    must(self, dl_loader_clear(self->loader, self->number, TEXTS(added->key[0])) == DL_DONE, "clear");
}

static void clear_all(caller *self)
{
    next_made(self, DL_CALL_CLEAR_ALL);
    must(self, dl_loader_clear_all(self->loader, self->number) == DL_DONE, "clear all");
}

static void *make_calls(void *argument)
{
    /* Loads are drawn more often than what forgets. */
    static void (*const calls[])(caller *) = {load, load, load, load, load_many, load_many, prime, clear, clear, clear_all, send};
    caller *self = argument;

    for (int i = 0; i < CALLS && self->fault == NULL; i++) {
        calls[draw(self, sizeof calls / sizeof calls[0])](self);
        if (draw(self, 3) == 0) {
            sched_yield();
        }
    }
    send(self);
    return NULL;
}

/* ---- the history, as the loader gives it */

typedef struct {
    dl_event event;
    unsigned key[MOST_OF_CALL];
    dl_loaded answer[MOST_OF_CALL];
} event;

/* An event's call on one key; of an event without keys, that event, with NONE for its key. A definition sees the first `end` atoms. */
typedef struct {
    int event, key;
    uint32_t call;
    dl_loaded answer;
} atom;

typedef struct {
    int event_count, atom_count;
    event events[MOST_EVENTS];
    atom atoms[MOST_EVENTS + CELLS];
} history;

/* The number of the key with these texts, or KEYS if there is none. */
static unsigned key_with(const dl_key_texts *texts)
{
    unsigned key = 0;
    while (key < KEYS && (texts->table_len != 1 || texts->table[0] != *table_of(key) || texts->id_len != 1 || texts->id[0] != *id_of(key))) {
        key++;
    }
    return key;
}

static void add_atom(history *self, int place, int key, uint32_t call, dl_loaded answer)
{
    self->atoms[self->atom_count++] = (atom){place, key, call == DL_CALL_LOAD_MANY ? DL_CALL_LOAD : call, answer};
}

static const char *read_history(history *self, dl_loader *loader)
{
    dl_key_texts texts;
    dl_event told;

    self->event_count = self->atom_count = 0;
    while ((told = dl_loader_event(loader, (uint32_t)self->event_count)).code == DL_DONE) {
        int place = self->event_count++;
        event *added = &self->events[place];
        added->event = told;
        if (told.keys > MOST_OF_CALL) {
            return "an event has more keys than any call";
        }
        for (size_t i = 0; i < told.keys; i++) {
            added->answer[i] = dl_loader_event_key(loader, (uint32_t)place, i, &texts);
            added->key[i] = key_with(&texts);
            add_atom(self, place, (int)added->key[i], told.call, added->answer[i]);
        }
        if (told.keys == 0 && told.call != DL_CALL_LOAD_MANY) {
            add_atom(self, place, NONE, told.call, (dl_loaded){0, 0, told.batch});
        }
    }
    return told.code == DL_NO_EVENT ? NULL : "the end of the history";
}

/* ---- the definitions, each at the first `end` atoms */

static bool is_fresh(const atom *at)
{
    return at->call == DL_CALL_LOAD && at->answer.code == DL_FRESH;
}

static bool begins_cell(const atom *at)
{
    return is_fresh(at) || (at->call == DL_CALL_PRIME && at->answer.code == DL_FRESH);
}

static uint32_t cells(const history *self, int end)
{
    uint32_t count = 0;
    for (int i = 0; i < end; i++) {
        count += begins_cell(&self->atoms[i]);
    }
    return count;
}

static uint32_t members(const history *self, int end, uint32_t batch)
{
    uint32_t count = 0;
    for (int i = 0; i < end; i++) {
        count += is_fresh(&self->atoms[i]) && self->atoms[i].answer.batch == batch;
    }
    return count;
}

static uint32_t begun(const history *self, int end)
{
    uint32_t batch = 0;
    while (members(self, end, batch) > 0) {
        batch++;
    }
    return batch;
}

/* The cell of the last atom that begins one for the key, unless a clear, a clear of all or a fail of its batch comes after it. */
static int held(const history *self, int end, int key)
{
    int last = end - 1;

    while (last >= 0 && !(begins_cell(&self->atoms[last]) && self->atoms[last].key == key)) {
        last--;
    }
    for (int i = last + 1; last >= 0 && i < end; i++) {
        const atom *at = &self->atoms[i];
        bool fails = at->call == DL_CALL_FAIL && is_fresh(&self->atoms[last]) && at->answer.batch == self->atoms[last].answer.batch;
        if (fails || at->call == DL_CALL_CLEAR_ALL || (at->call == DL_CALL_CLEAR && at->key == key)) {
            return NONE;
        }
    }
    return last < 0 ? NONE : (int)self->atoms[last].answer.cell;
}

static uint32_t sent(const history *self, int end)
{
    int last = end - 1;
    while (last >= 0 && self->atoms[last].call != DL_CALL_DISPATCH) {
        last--;
    }
    return last < 0 ? 0 : begun(self, last);
}

static uint32_t room(const history *self, int end, int key)
{
    uint32_t count = begun(self, end);
    bool is_open = count > 0 && count - 1 >= sent(self, end) && members(self, end, count - 1) < MAX_BATCH;

    for (int i = 0; i < end && is_open; i++) {
        is_open = !(is_fresh(&self->atoms[i]) && self->atoms[i].answer.batch == count - 1 && self->atoms[i].key == key);
    }
    return is_open ? count - 1 : count;
}

/* The place of the event that ended a cell, or NONE; and the state that this gave it. */
static int ended(const history *self, uint32_t cell, uint32_t *state)
{
    int begins = 0;

    while (begins < self->atom_count && !(begins_cell(&self->atoms[begins]) && self->atoms[begins].answer.cell == cell)) {
        begins++;
    }
    if (begins == self->atom_count) {
        return NONE;
    }
    *state = DL_SETTLED;
    if (!is_fresh(&self->atoms[begins])) {
        return self->atoms[begins].event;
    }
    for (int i = begins; i < self->atom_count; i++) {
        const atom *at = &self->atoms[i];
        if ((at->call == DL_CALL_SETTLE || at->call == DL_CALL_FAIL) && at->answer.batch == self->atoms[begins].answer.batch) {
            *state = at->call == DL_CALL_SETTLE ? DL_SETTLED : DL_FAILED;
            return at->event;
        }
    }
    return NONE;
}

/* ---- the audit */

static bool has_ended(const history *self, int end, uint32_t batch)
{
    bool found = false;
    for (int i = 0; i < end && !found; i++) {
        found = (self->atoms[i].call == DL_CALL_SETTLE || self->atoms[i].call == DL_CALL_FAIL) && self->atoms[i].answer.batch == batch;
    }
    return found;
}

/* Whether the atom at a place has the reply of a loader of one thread. */
static bool is_lawful(const history *self, int place)
{
    const atom *at = &self->atoms[place];
    const dl_event *of = &self->events[at->event].event;
    int cell = at->key == NONE ? NONE : held(self, place, at->key);
    dl_loaded want = {DL_HIT, 0, 0};

    switch (at->call) {
    case DL_CALL_LOAD:
        want.cell = (uint32_t)cell;
        if (cell == NONE) {
            want = (dl_loaded){DL_FRESH, cells(self, place), room(self, place, at->key)};
        }
        break;
    case DL_CALL_PRIME:
        if (cell == NONE) {
            want = (dl_loaded){DL_FRESH, cells(self, place), 0};
        }
        break;
    case DL_CALL_DISPATCH: {
        uint32_t first = sent(self, place), count = begun(self, place) - first;
        return of->batches == count && of->batch == (count == 0 ? 0 : first);
    }
    case DL_CALL_SETTLE:
    case DL_CALL_FAIL:
        return of->batches == 1 && of->batch < sent(self, place) && !has_ended(self, place, of->batch);
    default:
        break;
    }
    return at->answer.code == want.code && at->answer.cell == want.cell && at->answer.batch == want.batch;
}

static const char *audit_history(const history *self)
{
    for (int i = 0; i < self->event_count; i++) {
        if (self->events[i].event.caller >= THREADS) {
            return "an event is of no caller";
        }
    }
    for (int i = 0; i < self->atom_count; i++) {
        if (!is_lawful(self, i)) {
            return "a reply is not that of a loader of one thread";
        }
    }
    for (uint32_t batch = 0; batch < begun(self, self->atom_count); batch++) {
        if (!has_ended(self, self->atom_count, batch)) {
            return "a batch has no end";
        }
    }
    return NULL;
}

/* Whether an event is what its caller made and was answered. */
static bool is_made(const event *of, const made *made)
{
    bool same = of->event.call == made->call && of->event.keys == made->keys && of->event.batches == made->batches &&
                of->event.batch == made->batch;

    for (size_t i = 0; same && i < made->keys; i++) {
        same = of->key[i] == made->key[i] && of->answer[i].code == made->answer[i].code &&
               of->answer[i].cell == made->answer[i].cell && of->answer[i].batch == made->answer[i].batch;
    }
    return same;
}

/* Whether an outcome is the one that the history gives its cell, ended at this place. */
static bool is_given(const history *self, const read_outcome *read, uint32_t at)
{
    uint32_t state = DL_EMPTY;
    int place = ended(self, read->cell, &state);
    const event *by = place == NONE ? NULL : &self->events[place];
    uint64_t word;

    if (by == NULL || (uint32_t)place != at || read->shown.state != state) {
        return false;
    }
    if (by->event.call == DL_CALL_PRIME) {
        word = word_of(0, PRIMED, state);
    } else {
        word = word_of(state == DL_FAILED ? 0 : read->cell, by->event.batch, state);
    }
    return read->shown.word == word;
}

/* Holds a caller's entries against the history, what it made, and what it read. */
static const char *audit_caller(const history *self, const caller *of)
{
    size_t calls = 0, reads = 0;
    uint32_t front = 0, next = 0;
    dl_entry entry;

    for (size_t i = 0; (entry = dl_loader_entry(of->loader, of->number, i)).code == DL_DONE; i++) {
        if (entry.kind == DL_ENTRY_SAW) {
            if (reads == of->read_count || of->reads[reads].cell != entry.cell || !is_given(self, &of->reads[reads], entry.at)) {
                return "an outcome is not the one that the history gives";
            }
            front = entry.at + 1 > front ? entry.at + 1 : front;
            reads++;
            continue;
        }
        while (next < (uint32_t)self->event_count && self->events[next].event.caller != of->number) {
            next++;
        }
        if (entry.at != next || entry.at < front || calls == of->made_count || !is_made(&self->events[next], &of->made[calls])) {
            return "a call of a caller is not its next event";
        }
        next++;
        calls++;
    }
    return calls == of->made_count && reads == of->read_count ? NULL : "a caller made more than the history has";
}

/* ---- a history that is none */

/* Changes an event: its first answer's cell, or how many batches it has. */
static void spoil(history *self, uint64_t drawn)
{
    atom *at = &self->atoms[drawn % (uint64_t)self->atom_count];
    event *of = &self->events[at->event];

    while (at > self->atoms && at[-1].event == at->event) {
        at--;
    }
    if (at->key == NONE) {
        of->event.batches++;
    } else {
        at->answer.cell++;
        of->answer[0].cell++;
    }
}

/* ---- the history, told */

/* Prints of each event its caller, its call, the first of its batches, how many they are, and of each key its number, whether a cell
 * begins, the cell and the batch. */
static void tell_events(const history *self)
{
    for (int i = 0; i < self->event_count; i++) {
        const event *of = &self->events[i];
        printf("%s[%u,%u,%u,%zu,[", i > 0 ? "," : "", of->event.caller, of->event.call, of->event.batch, of->event.batches);
        for (size_t k = 0; k < of->event.keys; k++) {
            const dl_loaded *answer = &of->answer[k];
            bool is_fresh = answer->code == DL_FRESH;
            printf("%s[%u,%s,%u,%u]", k > 0 ? "," : "", of->key[k], is_fresh ? "true" : "false", answer->cell, answer->batch);
        }
        printf("]]");
    }
}

/* Prints of each entry of a caller whether it is a call, the place of the event, the cell, and the word that the caller read. */
static void tell_entries(const caller *of)
{
    size_t reads = 0;
    dl_entry entry;

    for (size_t i = 0; (entry = dl_loader_entry(of->loader, of->number, i)).code == DL_DONE; i++) {
        bool is_call = entry.kind == DL_ENTRY_CALL;
        uint64_t word = is_call ? 0 : of->reads[reads++].shown.word;
        printf("%s[%s,%u,%u,%llu]", i > 0 ? "," : "", is_call ? "true" : "false", entry.at, entry.cell, (unsigned long long)word);
    }
}

static void tell(const history *self, const caller *callers, bool is_spoiled)
{
    printf("{\"spoiled\":%s,\"events\":[", is_spoiled ? "true" : "false");
    tell_events(self);
    printf("],\"entries\":[");
    for (uint32_t i = 0; i < THREADS; i++) {
        printf("%s[", i > 0 ? "," : "");
        tell_entries(&callers[i]);
        printf("]");
    }
    printf("]}\n");
}

/* ---- a run */

static history told;
static caller callers[THREADS];

/* What is wrong with a history, or with what the callers have of it. */
static const char *audit(const history *self)
{
    const char *fault = audit_history(self);

    for (uint32_t i = 0; i < THREADS && fault == NULL; i++) {
        fault = audit_caller(self, &callers[i]);
    }
    return fault;
}

/* Holds the history that a closed loader gives against the definitions, and then a change of it, which has to be wrong. */
static const char *audit_both(dl_loader *loader, uint64_t seed, bool tells)
{
    const char *fault = read_history(&told, loader);

    fault = fault == NULL ? audit(&told) : fault;
    if (fault != NULL) {
        return fault;
    }
    if (tells) {
        tell(&told, callers, false);
        fault = dl_write_history(stdout, loader) == DL_DONE ? NULL : "the history, written";
    }
    spoil(&told, seed);
    if (tells) {
        tell(&told, callers, true);
    }
    return audit(&told) == NULL ? "a change goes unseen" : fault;
}

/* Runs the threads, and gives what is wrong. */
static const char *run(uint64_t seed, bool tells)
{
    dl_serial_opening opening = {MAX_BATCH, CELLS, MOST_EVENTS, THREADS, seed, ~seed};
    dl_loader *loader = NULL;
    pthread_t threads[THREADS];
    const char *fault = NULL;

    if (dl_loader_open(&loader, &opening) != DL_DONE) {
        return "open";
    }
    for (uint32_t i = 0; i < THREADS; i++) {
        callers[i].loader = loader;
        callers[i].number = i;
        callers[i].drawn = seed * THREADS + i;
        callers[i].load_count = 0;
        callers[i].made_count = callers[i].read_count = 0;
        callers[i].fault = NULL;
        if (pthread_create(&threads[i], NULL, make_calls, &callers[i]) != 0) {
            abort();
        }
    }
    for (uint32_t i = 0; i < THREADS; i++) {
        pthread_join(threads[i], NULL);
        fault = fault == NULL ? callers[i].fault : fault;
    }
    fault = fault == NULL && dl_loader_close(loader) != DL_DONE ? "close" : fault;
    fault = fault == NULL ? audit_both(loader, seed, tells) : fault;
    dl_loader_free(loader);
    return fault;
}

int main(int argc, char **argv)
{
    unsigned long runs = argc > 1 ? strtoul(argv[1], NULL, 10) : 100, failed = 0;
    uint64_t seed = argc > 2 ? strtoull(argv[2], NULL, 10) : 1;

    for (unsigned long i = 0; i < runs; i++) {
        const char *fault = run(seed + i, argc > 3);
        if (fault != NULL) {
            failed++;
            printf("seed %llu: %s\n", (unsigned long long)(seed + i), fault);
        }
    }
    printf("%lu passed, %lu failed\n", runs - failed, failed);
    return failed == 0 ? 0 : 1;
}
