/* The calls of dl_serial.h in plain C: a map of keys, and lists. It is what the proved library is measured against, and by which the
 * tests of the hosts run before that library is built. */
#include "dl_serial.h"

#include <stdlib.h>
#include <string.h>

#define NONE UINT32_MAX

/* A list that grows: how many items of one size it has, and has room for. */
typedef struct {
    void *items;
    size_t size, count, room;
} list;

/* A table whose keys share batches, or all tables: the most keys of its batch, and its last one. */
typedef struct {
    size_t name_len;
    uint8_t name[DL_TABLE_BYTES];
    uint32_t limit, last;
} group;

/* A key: the cell that is held for it, and the last batch that has it. */
typedef struct {
    size_t group;
    uint32_t held, batch;
    dl_key_texts texts;
} key;

/* A cell: its key, its batch, the next member of that, and the place of the event that ended it. */
typedef struct {
    key *key;
    uint32_t batch, next, ended;
} cell;

/* A batch: its members, and the one that was asked for last. */
typedef struct {
    uint32_t first, last, count, asked_index, asked_cell;
    bool has_ended;
} batch;

/* A key of an event, with what was answered to it. */
typedef struct {
    key *key;
    dl_loaded answer;
} told;

typedef struct {
    dl_event event;
    size_t first_key;
} event;

typedef struct {
    uint32_t cell;
    bool was_seen;
} ticket;

typedef struct {
    list tickets, entries;
} caller;

typedef struct {
    dl_serial_opening opening;
    bool is_by_table, is_stopped, is_closed;
    uint32_t sent;
    key **map;
    size_t keys, places;
    list groups, cells, batches, tolds, events;
    caller callers[DL_MOST_CALLERS];
} loader;

#define AT(type, list, index) ((type *)(list).items + (index))

static bool reserve(list *list, size_t more)
{
    size_t room = list->room == 0 ? 8 : list->room;
    void *items;

    while (room < list->count + more)
        room *= 2;
    if (room == list->room)
        return true;
    if ((items = realloc(list->items, room * list->size)) == NULL)
        return false;
    list->items = items;
    list->room = room;
    return true;
}

/* The next item of a list that has room for it. */
static void *push(list *list)
{
    return (uint8_t *)list->items + list->size * list->count++;
}

/* ---- texts */

/* How many bytes the first character has, or 0 if it isn't UTF-8. */
static size_t character(const uint8_t *at, size_t len)
{
    static const struct {
        uint8_t least, most, low, high;
        size_t len;
    } rows[] = {{0xc2, 0xdf, 0x80, 0xbf, 2}, {0xe0, 0xe0, 0xa0, 0xbf, 3}, {0xe1, 0xec, 0x80, 0xbf, 3}, {0xed, 0xed, 0x80, 0x9f, 3},
                {0xee, 0xef, 0x80, 0xbf, 3}, {0xf0, 0xf0, 0x90, 0xbf, 4}, {0xf1, 0xf3, 0x80, 0xbf, 4}, {0xf4, 0xf4, 0x80, 0x8f, 4}};

    if (at[0] < 0x80)
        return 1;
    for (size_t row = 0; row < sizeof rows / sizeof *rows; row++)
        if (rows[row].least <= at[0] && at[0] <= rows[row].most) {
            bool is_valid = rows[row].len <= len && rows[row].low <= at[1] && at[1] <= rows[row].high;
            for (size_t i = 2; is_valid && i < rows[row].len; i++)
                is_valid = (at[i] & 0xc0) == 0x80;
            return is_valid ? rows[row].len : 0;
        }
    return 0;
}

static bool is_text(const uint8_t *text, size_t len)
{
    size_t step = 1;
    for (size_t i = 0; i < len && step > 0; i += step)
        step = character(text + i, len - i);
    return step > 0;
}

/* ---- keys */

/* The place of a key in the map: where it is, or where it would be. */
static size_t place_of(const loader *self, DL_KEY)
{
    uint64_t hash = self->opening.seed_low;
    for (size_t i = 0; i < table_len + id_len; i++)
        hash = (hash ^ (i < table_len ? table[i] : id[i - table_len])) * 1099511628211u;
    size_t place = (hash ^ hash >> 32 ^ self->opening.seed_high) & (self->places - 1);
    for (const key *at; (at = self->map[place]) != NULL; place = (place + 1) & (self->places - 1))
        if (at->texts.table_len == table_len && at->texts.id_len == id_len && !memcmp(at->texts.table, table, table_len) &&
            !memcmp(at->texts.id, id, id_len))
            break;
    return place;
}

#define TEXTS(key) (key)->texts.table, (key)->texts.table_len, (key)->texts.id, (key)->texts.id_len

static bool widen(loader *self)
{
    key **old = self->map;
    size_t places = self->places;

    if (2 * self->keys < places)
        return true;
    if ((self->map = calloc(2 * places, sizeof *old)) == NULL) {
        self->map = old;
        return false;
    }
    self->places = 2 * places;
    for (size_t i = 0; i < places; i++)
        if (old[i] != NULL)
            self->map[place_of(self, TEXTS(old[i]))] = old[i];
    free(old);
    return true;
}

static size_t group_named(const loader *self, const uint8_t *name, size_t len)
{
    size_t at = 0;
    while (at < self->groups.count && (AT(group, self->groups, at)->name_len != len || memcmp(AT(group, self->groups, at)->name, name, len)))
        at++;
    return at;
}

/* Adds a group, for which there is room. */
static void add_group(loader *self, const uint8_t *name, size_t len, uint32_t limit)
{
    group *added = push(&self->groups);
    *added = (group){.name_len = len, .limit = limit, .last = NONE};
    memcpy(added->name, name, len);
}

/* The key of these texts, or NULL if there is no memory for it. */
static key *key_of(loader *self, DL_KEY)
{
    size_t place = place_of(self, table, table_len, id, id_len);
    key *made = self->map[place];

    if (made != NULL)
        return made;
    if (!widen(self) || !reserve(&self->groups, 1) || (made = malloc(sizeof *made)) == NULL)
        return NULL;
    *made = (key){.held = NONE, .batch = NONE, .texts = {.table_len = table_len, .id_len = id_len}};
    memcpy(made->texts.table, table, table_len);
    memcpy(made->texts.id, id, id_len);
    made->group = self->is_by_table ? group_named(self, table, table_len) : 0;
    if (made->group == self->groups.count)
        add_group(self, table, table_len, self->opening.max_batch);
    self->keys++;
    return self->map[place_of(self, TEXTS(made))] = made;
}

static bool is_key(DL_KEY)
{
    return 1 <= table_len && table_len <= DL_TABLE_BYTES && 1 <= id_len && id_len <= DL_ID_BYTES && is_text(table, table_len) &&
           is_text(id, id_len);
}

/* ---- open and free */

static void destroy(loader *self)
{
    for (size_t i = 0; i < self->places; i++)
        free(self->map[i]);
    list *lists[] = {&self->groups, &self->cells, &self->batches, &self->tolds, &self->events};
    for (size_t i = 0; i < sizeof lists / sizeof *lists; i++)
        free(lists[i]->items);
    for (size_t i = 0; i < DL_MOST_CALLERS; i++) {
        free(self->callers[i].tickets.items);
        free(self->callers[i].entries.items);
    }
    free(self->map);
    free(self);
}

static bool is_limit(uint32_t number)
{
    return 1 <= number && number <= DL_LARGEST_LIMIT;
}

static uint32_t create(const dl_serial_opening *opening, loader **made)
{
    loader *self = calloc(1, sizeof *self);

    if (self == NULL)
        return DL_OUT_OF_MEMORY;
    self->opening = *opening;
    self->groups.size = sizeof(group);
    self->cells.size = sizeof(cell);
    self->batches.size = sizeof(batch);
    self->tolds.size = sizeof(told);
    self->events.size = sizeof(event);
    for (size_t i = 0; i < DL_MOST_CALLERS; i++) {
        self->callers[i].tickets.size = sizeof(ticket);
        self->callers[i].entries.size = sizeof(dl_entry);
    }
    if ((self->map = calloc(64, sizeof *self->map)) != NULL)
        self->places = 64;
    if (self->map == NULL || !reserve(&self->groups, 1)) {
        destroy(self);
        return DL_OUT_OF_MEMORY;
    }
    *made = self;
    return DL_DONE;
}

static uint32_t opening_code(const dl_serial *serial, const dl_serial_opening *opening)
{
    if (serial->is_open)
        return DL_OPEN;
    bool fits = is_limit(opening->max_batch) && is_limit(opening->max_cells) && is_limit(opening->max_calls);
    return fits ? DL_DONE : DL_BAD_LIMIT;
}

static uint32_t opened(dl_serial *serial, loader *self, uint32_t code)
{
    if (code == DL_DONE && (self->opening.callers < 1 || self->opening.callers > DL_MOST_CALLERS))
        code = DL_BAD_CALLERS;
    if (code == DL_DONE)
        *serial = (dl_serial){true, self};
    else
        destroy(self);
    return code;
}

uint32_t dl_serial_open(dl_serial *serial, const dl_serial_opening *opening)
{
    loader *self;
    uint32_t code = opening_code(serial, opening);

    if (code != DL_DONE || (code = create(opening, &self)) != DL_DONE)
        return code;
    add_group(self, (const uint8_t *)"", 0, opening->max_batch);
    return opened(serial, self, DL_DONE);
}

/* Adds a group for each table, but for what is wrong with any. */
static uint32_t add_tables(loader *self, const uint8_t *names, const dl_table_limit *tables, size_t count)
{
    bool is_empty = false, is_long = false, is_bad = false, is_twice = false;

    if (!reserve(&self->groups, count))
        return DL_OUT_OF_MEMORY;
    for (size_t i = 0; i < count; names += tables[i++].name_len) {
        is_empty |= tables[i].name_len == 0;
        is_long |= tables[i].name_len > DL_TABLE_BYTES;
        is_bad |= !is_limit(tables[i].limit);
        if (is_empty || is_long)
            continue;
        is_twice |= group_named(self, names, tables[i].name_len) < self->groups.count;
        add_group(self, names, tables[i].name_len, tables[i].limit);
    }
    return is_empty ? DL_EMPTY_TABLE : is_long ? DL_TABLE_TOO_LONG : is_bad ? DL_BAD_TABLE_LIMIT : is_twice ? DL_DUPLICATE_TABLE : DL_DONE;
}

uint32_t dl_serial_open_by_table(dl_serial *serial, const dl_serial_opening *opening, const uint8_t *names, size_t names_len,
                                 const dl_table_limit *tables, size_t tables_len)
{
    loader *self;
    uint32_t code = opening_code(serial, opening);
    size_t left = names_len;

    if (code != DL_DONE)
        return code;
    for (size_t i = 0; i < tables_len; left -= tables[i++].name_len) {
        if (tables[i].name_len > left)
            return DL_BAD_LENGTHS;
        if (!is_text(names + names_len - left, tables[i].name_len))
            return DL_BAD_TEXT;
    }
    if (left > 0)
        return DL_BAD_LENGTHS;
    if ((code = create(opening, &self)) != DL_DONE)
        return code;
    self->is_by_table = true;
    return opened(serial, self, add_tables(self, names, tables, tables_len));
}

uint32_t dl_serial_free(dl_serial *serial)
{
    if (!serial->is_open)
        return DL_CLOSED;
    destroy(serial->held);
    *serial = (dl_serial){false, NULL};
    return DL_DONE;
}

/* ---- events */

/* The loader of a handle that isn't closed, or NULL. */
static loader *loader_of(const dl_serial *serial)
{
    loader *self = serial->is_open ? serial->held : NULL;
    return self == NULL || self->is_closed ? NULL : self;
}

/* Whether a caller may make one more event of so many keys, for which there is room from then on. */
static uint32_t may_call(loader *self, uint32_t number, size_t keys)
{
    if (number >= self->opening.callers)
        return DL_NO_CALLER;
    if (self->is_stopped)
        return DL_STOPPED;
    if (self->events.count >= self->opening.max_calls)
        return DL_LOG_FULL;
    caller *by = &self->callers[number];
    /* Each ticket has room for the entry by which its outcome is seen. */
    bool has_room = reserve(&self->events, 1) && reserve(&self->tolds, keys) && reserve(&self->cells, keys) &&
                    reserve(&self->batches, keys) && reserve(&by->tickets, keys) && reserve(&by->entries, 1 + by->tickets.count + keys);
    return has_room ? DL_DONE : DL_OUT_OF_MEMORY;
}

/* Adds an event, for which there is room. */
static void add_event(loader *self, uint32_t number, uint32_t call, dl_dispatched batches, size_t keys)
{
    dl_entry *entry = push(&self->callers[number].entries);
    *entry = (dl_entry){.kind = DL_ENTRY_CALL, .at = (uint32_t)self->events.count};
    event *added = push(&self->events);
    added->event = (dl_event){DL_DONE, number, call, batches.first, keys, batches.count};
    added->first_key = self->tolds.count;
}

static void tell(loader *self, key *key, dl_loaded answer)
{
    *(told *)push(&self->tolds) = (told){key, answer};
}

static uint32_t begin_cell(loader *self, key *key, uint32_t batch, uint32_t ended)
{
    *(cell *)push(&self->cells) = (cell){key, batch, NONE, ended};
    return key->held = (uint32_t)self->cells.count - 1;
}

/* The batch that a fresh load of a key joins. */
static uint32_t room_for(loader *self, const key *key)
{
    group *own = AT(group, self->groups, key->group);
    bool is_open = own->last != NONE && own->last >= self->sent && AT(batch, self->batches, own->last)->count < own->limit;

    if (!is_open || key->batch == own->last) {
        *(batch *)push(&self->batches) = (batch){.first = NONE, .last = NONE};
        own->last = (uint32_t)self->batches.count - 1;
    }
    return own->last;
}

static dl_ticket load(loader *self, uint32_t number, key *key)
{
    list *tickets = &self->callers[number].tickets;
    dl_loaded answer = {DL_HIT, key->held, 0};

    if (key->held == NONE) {
        key->batch = room_for(self, key);
        batch *joined = AT(batch, self->batches, key->batch);
        answer = (dl_loaded){DL_FRESH, begin_cell(self, key, key->batch, NONE), key->batch};
        *(joined->count++ == 0 ? &joined->first : &AT(cell, self->cells, joined->last)->next) = answer.cell;
        joined->last = answer.cell;
    }
    *(ticket *)push(tickets) = (ticket){answer.cell, false};
    tell(self, key, answer);
    return (dl_ticket){answer.code, answer.cell, answer.batch, tickets->count - 1};
}

dl_ticket dl_serial_load(dl_serial *serial, uint32_t number, DL_KEY)
{
    loader *self = loader_of(serial);
    key *found;
    uint32_t code = self == NULL ? DL_CLOSED : !is_key(table, table_len, id, id_len) ? DL_BAD_KEY : may_call(self, number, 1);

    if (code == DL_DONE && (found = key_of(self, table, table_len, id, id_len)) == NULL)
        code = DL_OUT_OF_MEMORY;
    else if (code == DL_DONE && found->held == NONE && self->cells.count >= self->opening.max_cells)
        code = DL_CELLS_FULL;
    if (code != DL_DONE)
        return (dl_ticket){.code = code};
    add_event(self, number, DL_CALL_LOAD, (dl_dispatched){0}, 1);
    return load(self, number, found);
}

/* Whether each of several keys can be read. */
static uint32_t keys_code(const uint8_t *texts, size_t texts_len, const dl_key_lengths *lengths, size_t count)
{
    for (size_t i = 0; i < count; i++) {
        size_t table_len = lengths[i].table, id_len = lengths[i].id;
        if (table_len + id_len > texts_len)
            return DL_BAD_LENGTHS;
        if (!is_key(texts, table_len, texts + table_len, id_len))
            return DL_BAD_KEY;
        texts += table_len + id_len;
        texts_len -= table_len + id_len;
    }
    return texts_len == 0 ? DL_DONE : DL_BAD_LENGTHS;
}

/* Finds several keys. Whether there are cells for them, and memory. */
static uint32_t find_keys(loader *self, const uint8_t *texts, const dl_key_lengths *lengths, size_t count, key **found)
{
    size_t fresh = 0;

    for (size_t i = 0; i < count; texts += lengths[i].table + lengths[i].id, i++) {
        if ((found[i] = key_of(self, texts, lengths[i].table, texts + lengths[i].table, lengths[i].id)) == NULL)
            return DL_OUT_OF_MEMORY;
        bool is_new = found[i]->held == NONE;
        for (size_t before = 0; is_new && before < i; before++)
            is_new = found[before] != found[i];
        fresh += is_new;
    }
    return self->cells.count + fresh > self->opening.max_cells ? DL_CELLS_FULL : DL_DONE;
}

uint32_t dl_serial_load_many(dl_serial *serial, uint32_t number, const uint8_t *texts, size_t texts_len, const dl_key_lengths *lengths,
                             size_t lengths_len, dl_ticket *answers, size_t answers_len)
{
    loader *self = loader_of(serial);
    key **found = NULL;
    uint32_t code = self == NULL ? DL_CLOSED : lengths_len != answers_len ? DL_BAD_LENGTHS : DL_DONE;

    if (code == DL_DONE)
        code = keys_code(texts, texts_len, lengths, lengths_len);
    if (code == DL_DONE)
        code = may_call(self, number, lengths_len);
    if (code == DL_DONE && (found = malloc((lengths_len + 1) * sizeof *found)) == NULL)
        code = DL_OUT_OF_MEMORY;
    if (code == DL_DONE)
        code = find_keys(self, texts, lengths, lengths_len, found);
    if (code == DL_DONE) {
        add_event(self, number, DL_CALL_LOAD_MANY, (dl_dispatched){0}, lengths_len);
        for (size_t i = 0; i < lengths_len; i++)
            answers[i] = load(self, number, found[i]);
    }
    free(found);
    return code;
}

dl_loaded dl_serial_prime(dl_serial *serial, uint32_t number, DL_KEY)
{
    loader *self = loader_of(serial);
    key *found;
    uint32_t code = self == NULL ? DL_CLOSED : !is_key(table, table_len, id, id_len) ? DL_BAD_KEY : may_call(self, number, 1);
    dl_loaded answer = {DL_HIT, 0, 0};

    if (code == DL_DONE && (found = key_of(self, table, table_len, id, id_len)) == NULL)
        code = DL_OUT_OF_MEMORY;
    else if (code == DL_DONE && found->held == NONE && self->cells.count >= self->opening.max_cells)
        code = DL_CELLS_FULL;
    if (code != DL_DONE)
        return (dl_loaded){.code = code};
    add_event(self, number, DL_CALL_PRIME, (dl_dispatched){0}, 1);
    if (found->held == NONE)
        answer = (dl_loaded){DL_FRESH, begin_cell(self, found, NONE, (uint32_t)self->events.count - 1), 0};
    tell(self, found, answer);
    return answer;
}

uint32_t dl_serial_clear(dl_serial *serial, uint32_t number, DL_KEY)
{
    loader *self = loader_of(serial);
    key *found;
    uint32_t code = self == NULL ? DL_CLOSED : !is_key(table, table_len, id, id_len) ? DL_BAD_KEY : may_call(self, number, 1);

    if (code == DL_DONE && (found = key_of(self, table, table_len, id, id_len)) == NULL)
        code = DL_OUT_OF_MEMORY;
    if (code != DL_DONE)
        return code;
    add_event(self, number, DL_CALL_CLEAR, (dl_dispatched){0}, 1);
    found->held = NONE;
    tell(self, found, (dl_loaded){.code = DL_DONE});
    return DL_DONE;
}

uint32_t dl_serial_clear_all(dl_serial *serial, uint32_t number)
{
    loader *self = loader_of(serial);
    uint32_t code = self == NULL ? DL_CLOSED : may_call(self, number, 0);

    if (code != DL_DONE)
        return code;
    add_event(self, number, DL_CALL_CLEAR_ALL, (dl_dispatched){0}, 0);
    for (size_t i = 0; i < self->places; i++)
        if (self->map[i] != NULL)
            self->map[i]->held = NONE;
    return DL_DONE;
}

dl_dispatched dl_serial_dispatch(dl_serial *serial, uint32_t number)
{
    loader *self = loader_of(serial);
    uint32_t code = self == NULL ? DL_CLOSED : may_call(self, number, 0);

    if (code != DL_DONE)
        return (dl_dispatched){.code = code};
    size_t count = self->batches.count - self->sent;
    dl_dispatched answer = {DL_DONE, count == 0 ? 0 : self->sent, count};
    self->sent = (uint32_t)self->batches.count;
    add_event(self, number, DL_CALL_DISPATCH, answer, 0);
    return answer;
}

/* Ends a batch, by one call or the other. */
static uint32_t end(dl_serial *serial, uint32_t number, uint32_t which, uint32_t call)
{
    loader *self = loader_of(serial);
    uint32_t code = self == NULL ? DL_CLOSED : may_call(self, number, 0);

    if (code != DL_DONE)
        return code;
    if (which >= self->batches.count)
        return DL_NO_BATCH;
    if (which >= self->sent)
        return DL_NOT_SENT;
    batch *ended = AT(batch, self->batches, which);
    if (ended->has_ended)
        return DL_ENDED_BEFORE;
    ended->has_ended = true;
    add_event(self, number, call, (dl_dispatched){DL_DONE, which, 1}, 0);
    for (uint32_t at = ended->first; at != NONE; at = AT(cell, self->cells, at)->next) {
        cell *member = AT(cell, self->cells, at);
        member->ended = (uint32_t)self->events.count - 1;
        if (call == DL_CALL_FAIL && member->key->held == at)
            member->key->held = NONE;
    }
    return DL_DONE;
}

uint32_t dl_serial_settle(dl_serial *serial, uint32_t number, uint32_t which)
{
    return end(serial, number, which, DL_CALL_SETTLE);
}

uint32_t dl_serial_fail(dl_serial *serial, uint32_t number, uint32_t which)
{
    return end(serial, number, which, DL_CALL_FAIL);
}

/* ---- what is no event */

dl_loaded dl_serial_member(dl_serial *serial, uint32_t which, uint32_t index, dl_key_texts *texts)
{
    loader *self = loader_of(serial);
    uint32_t code = self == NULL ? DL_CLOSED : which >= self->batches.count ? DL_NO_BATCH : DL_DONE;
    batch *of = code == DL_DONE ? AT(batch, self->batches, which) : NULL;

    if (code != DL_DONE || index >= of->count)
        return (dl_loaded){.code = code != DL_DONE ? code : DL_NO_MEMBER};
    if (index == 0 || index < of->asked_index)
        of->asked_index = 0, of->asked_cell = of->first;
    for (; of->asked_index < index; of->asked_index++)
        of->asked_cell = AT(cell, self->cells, of->asked_cell)->next;
    *texts = AT(cell, self->cells, of->asked_cell)->key->texts;
    return (dl_loaded){DL_HIT, of->asked_cell, 0};
}

uint32_t dl_serial_saw(dl_serial *serial, uint32_t number, size_t which)
{
    loader *self = loader_of(serial);

    if (self == NULL)
        return DL_CLOSED;
    if (number >= self->opening.callers)
        return DL_NO_CALLER;
    caller *by = &self->callers[number];
    if (which >= by->tickets.count)
        return DL_NO_TICKET;
    ticket *seen = AT(ticket, by->tickets, which);
    uint32_t ended = AT(cell, self->cells, seen->cell)->ended;
    if (ended == NONE)
        return DL_NONE;
    if (!seen->was_seen)
        *(dl_entry *)push(&by->entries) = (dl_entry){DL_DONE, DL_ENTRY_SAW, ended, seen->cell};
    seen->was_seen = true;
    return DL_DONE;
}

uint32_t dl_serial_stop(dl_serial *serial)
{
    loader *self = loader_of(serial);

    if (self == NULL)
        return DL_CLOSED;
    self->is_stopped = true;
    return DL_DONE;
}

uint32_t dl_serial_close(dl_serial *serial)
{
    loader *self = loader_of(serial);

    if (self == NULL)
        return DL_CLOSED;
    for (size_t i = 0; i < self->batches.count; i++)
        if (!AT(batch, self->batches, i)->has_ended)
            return DL_UNSETTLED;
    self->is_closed = true;
    return DL_DONE;
}

/* ---- the history */

static uint32_t history_code(const dl_serial *serial)
{
    return !serial->is_open ? DL_CLOSED : loader_of(serial) != NULL ? DL_OPEN : DL_DONE;
}

dl_event dl_serial_event(dl_serial *serial, uint32_t at)
{
    const loader *self = serial->held;
    uint32_t code = history_code(serial);

    if (code == DL_DONE && at < self->events.count)
        return AT(event, self->events, at)->event;
    return (dl_event){.code = code == DL_DONE ? DL_NO_EVENT : code};
}

dl_loaded dl_serial_event_key(dl_serial *serial, uint32_t at, size_t index, dl_key_texts *texts)
{
    const loader *self = serial->held;
    dl_event found = dl_serial_event(serial, at);

    if (found.code != DL_DONE || index >= found.keys)
        return (dl_loaded){.code = found.code != DL_DONE ? found.code : DL_NO_MEMBER};
    const told *told_of = AT(told, self->tolds, AT(event, self->events, at)->first_key + index);
    *texts = told_of->key->texts;
    return told_of->answer;
}

dl_entry dl_serial_entry(dl_serial *serial, uint32_t number, size_t index)
{
    const loader *self = serial->held;
    uint32_t code = history_code(serial);

    if (code == DL_DONE && (number >= self->opening.callers || index >= self->callers[number].entries.count))
        code = DL_NO_EVENT;
    return code == DL_DONE ? *AT(dl_entry, self->callers[number].entries, index) : (dl_entry){.code = code};
}
