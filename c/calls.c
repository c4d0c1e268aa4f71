/* A C program that makes each call of dl_desk.h and checks its answers, which are those of the data loader's documentation. It
 * prints each check that fails, and how many passed. */
#include "checks.h"
#include "dl_desk.h"

#include <malloc.h>
#include <stdio.h>
#include <string.h>

_Static_assert(sizeof(dl_desk) == 16, "a handle");
AT(dl_desk, is_open, 0);
AT(dl_desk, held, 8);
_Static_assert(sizeof(dl_loaded) == 12, "an answer with a cell");
AT(dl_loaded, code, 0);
AT(dl_loaded, cell, 4);
AT(dl_loaded, batch, 8);
_Static_assert(sizeof(dl_dispatched) == 16, "an answer to a dispatch");
AT(dl_dispatched, code, 0);
AT(dl_dispatched, first, 4);
AT(dl_dispatched, count, 8);
_Static_assert(sizeof(dl_key_lengths) == 8, "the lengths of a key");
AT(dl_key_lengths, table, 0);
AT(dl_key_lengths, id, 4);
_Static_assert(sizeof(dl_key_texts) == 336, "the texts of a key");
AT(dl_key_texts, table_len, 0);
AT(dl_key_texts, id_len, 8);
AT(dl_key_texts, table, 16);
AT(dl_key_texts, id, 80);
_Static_assert(sizeof(dl_opening) == 24, "what a desk by table is opened with");
AT(dl_opening, max_batch, 0);
AT(dl_opening, max_cells, 4);
AT(dl_opening, seed_low, 8);
AT(dl_opening, seed_high, 16);
_Static_assert(sizeof(dl_table_limit) == 8, "a table and its limit");
AT(dl_table_limit, name_len, 0);
AT(dl_table_limit, limit, 4);
_Static_assert(DL_TABLE_BYTES == 64 && DL_ID_BYTES == 256 && DL_LARGEST_LIMIT == 65536, "limits");

#define SEED_LOW UINT64_C(0x0123456789abcdef)
#define SEED_HIGH UINT64_C(0xfedcba9876543210)

/* A new desk. A program with keys of strangers takes its seed from getrandom. */
static void open_desk(dl_desk *desk, uint32_t max_batch, uint32_t max_cells)
{
    CHECK(dl_desk_open(desk, max_batch, max_cells, SEED_LOW, SEED_HIGH) == DL_DONE);
}

static void a_closed_handle_answers(void)
{
    dl_desk desk = {0};
    dl_key_texts texts;
    dl_key_lengths lengths[1] = {{4, 1}};
    dl_loaded answers[1] = {{42, 42, 42}};

    memset(&texts, 42, sizeof texts);
    CHECK(is(dl_desk_load(&desk, USER("a")), DL_CLOSED, 0, 0));
    CHECK(dl_desk_load_many(&desk, (const uint8_t *)"usera", 5, lengths, 1, answers, 1) == DL_CLOSED);
    CHECK(is(answers[0], 42, 42, 42));
    CHECK(is(dl_desk_prime(&desk, USER("a")), DL_CLOSED, 0, 0));
    CHECK(is(dl_desk_held(&desk, USER("a")), DL_CLOSED, 0, 0));
    CHECK(dl_desk_clear(&desk, USER("a")) == DL_CLOSED);
    CHECK(dl_desk_clear_all(&desk) == DL_CLOSED);
    CHECK(dl_desk_dispatch(&desk).code == DL_CLOSED);
    CHECK(is(dl_desk_member(&desk, 0, 0), DL_CLOSED, 0, 0));
    CHECK(dl_desk_key(&desk, 0, 0, &texts) == DL_CLOSED);
    CHECK(texts.table[0] == 42 && texts.id[255] == 42);
    CHECK(dl_desk_settle(&desk, 0) == DL_CLOSED);
    CHECK(dl_desk_fail(&desk, 0) == DL_CLOSED);
    CHECK(dl_desk_close(&desk) == DL_CLOSED);
    CHECK(!desk.is_open);
}

static void each_code_has_its_name(void)
{
#define NAMED(code) CHECK(strcmp(dl_code_name(code), #code) == 0)
    NAMED(DL_OUT_OF_MEMORY);
    NAMED(DL_CELLS_FULL);
    NAMED(DL_NO_BATCH);
    NAMED(DL_NOT_SENT);
    NAMED(DL_ENDED_BEFORE);
    NAMED(DL_BAD_KEY);
    NAMED(DL_BAD_LIMIT);
    NAMED(DL_CLOSED);
    NAMED(DL_OPEN);
    NAMED(DL_NO_MEMBER);
    NAMED(DL_BAD_LENGTHS);
    NAMED(DL_BAD_TEXT);
    NAMED(DL_EMPTY_TABLE);
    NAMED(DL_TABLE_TOO_LONG);
    NAMED(DL_BAD_TABLE_LIMIT);
    NAMED(DL_DUPLICATE_TABLE);
    NAMED(DL_BAD_CALLERS);
    NAMED(DL_NO_CALLER);
    NAMED(DL_STOPPED);
    NAMED(DL_LOG_FULL);
    NAMED(DL_UNSETTLED);
    NAMED(DL_NO_EVENT);
    NAMED(DL_NO_TICKET);
    NAMED(DL_BUG);
#undef NAMED
    CHECK(strcmp(dl_code_name(DL_DONE), "DL_DONE or DL_HIT") == 0);
    CHECK(strcmp(dl_code_name(DL_NONE), "DL_FRESH or DL_NONE") == 0);
    CHECK(strcmp(dl_code_name(DL_BUG + 1), dl_code_name(UINT32_MAX)) == 0);
}

static void a_desk_opens_and_closes_once(void)
{
    dl_desk desk = {0};

    CHECK(dl_desk_open(&desk, 0, 1, 0, 0) == DL_BAD_LIMIT);
    CHECK(dl_desk_open(&desk, 1, 0, 0, 0) == DL_BAD_LIMIT);
    CHECK(dl_desk_open(&desk, DL_LARGEST_LIMIT + 1, 1, 0, 0) == DL_BAD_LIMIT);
    CHECK(dl_desk_open(&desk, 1, DL_LARGEST_LIMIT + 1, 0, 0) == DL_BAD_LIMIT);
    CHECK(!desk.is_open);
    open_desk(&desk, DL_LARGEST_LIMIT, DL_LARGEST_LIMIT);
    CHECK(desk.is_open);
    CHECK(is(dl_desk_load(&desk, USER("a")), DL_FRESH, 0, 0));
    CHECK(dl_desk_open(&desk, 1, 1, 0, 0) == DL_OPEN);
    CHECK(is(dl_desk_load(&desk, USER("a")), DL_HIT, 0, 0));
    CHECK(dl_desk_close(&desk) == DL_DONE);
    CHECK(!desk.is_open);
    CHECK(dl_desk_close(&desk) == DL_CLOSED);
    open_desk(&desk, 1, 1);
    CHECK(is(dl_desk_load(&desk, USER("b")), DL_FRESH, 0, 0));
    CHECK(dl_desk_close(&desk) == DL_DONE);
}

/* Whether the memory that an open desk begins with has this number in it. */
static bool has(const dl_desk *desk, uint64_t number)
{
    const uint8_t *memory = desk->held;

    for (size_t at = 0; at + sizeof number <= malloc_usable_size(desk->held); at += sizeof number) {
        if (memcmp(memory + at, &number, sizeof number) == 0) {
            return true;
        }
    }
    return false;
}

/* No answer says by what a desk hashes, so this looks into its memory. */
static void a_desk_keeps_both_halves_of_its_seed(void)
{
    dl_desk desk = {0};

    open_desk(&desk, 2, 4);
    CHECK(has(&desk, SEED_LOW));
    CHECK(has(&desk, SEED_HIGH));
    CHECK(!has(&desk, SEED_LOW + 1));
    CHECK(dl_desk_close(&desk) == DL_DONE);
}

/* Opens a desk by table, of batches of two keys and of eight cells at most, with so many of the tables. */
static uint32_t open_by_table(dl_desk *desk, const char *names, const dl_table_limit *tables, size_t tables_len)
{
    static const dl_opening opening = {.max_batch = 2, .max_cells = 8, .seed_low = SEED_LOW, .seed_high = SEED_HIGH};

    return dl_desk_open_by_table(desk, &opening, (const uint8_t *)names, strlen(names), tables, tables_len);
}

static void a_desk_by_table_opens_once(void)
{
    static const dl_table_limit tables[2] = {{1, 1}, {1, 2}};
    const uint8_t *names = (const uint8_t *)"st";
    dl_opening opening = {.max_batch = 0, .max_cells = 1, .seed_low = 0, .seed_high = 0};
    dl_desk desk = {0};

    /* The limits of the desk are looked at before the tables. */
    CHECK(dl_desk_open_by_table(&desk, &opening, names, 1, tables, 2) == DL_BAD_LIMIT);
    opening.max_batch = DL_LARGEST_LIMIT + 1;
    CHECK(dl_desk_open_by_table(&desk, &opening, names, 2, tables, 2) == DL_BAD_LIMIT);
    opening.max_batch = 1;
    opening.max_cells = 0;
    CHECK(dl_desk_open_by_table(&desk, &opening, names, 2, tables, 2) == DL_BAD_LIMIT);
    opening.max_cells = DL_LARGEST_LIMIT + 1;
    CHECK(dl_desk_open_by_table(&desk, &opening, names, 2, tables, 2) == DL_BAD_LIMIT);
    CHECK(!desk.is_open);
    CHECK(open_by_table(&desk, "st", tables, 2) == DL_DONE);
    CHECK(desk.is_open);
    CHECK(is(dl_desk_load(&desk, KEY("s", "x")), DL_FRESH, 0, 0));
    CHECK(open_by_table(&desk, "s", tables, 2) == DL_OPEN);
    CHECK(dl_desk_open(&desk, 1, 1, 0, 0) == DL_OPEN);
    CHECK(is(dl_desk_load(&desk, KEY("s", "x")), DL_HIT, 0, 0));
    CHECK(dl_desk_close(&desk) == DL_DONE);
}

static void tables_with_a_fault_are_refused(void)
{
    static const char long_name[] =
        "xxxxxxxxxxxxxxxxxxxxxxxxxxxxxxxxxxxxxxxxxxxxxxxxxxxxxxxxxxxxxxxxx";
    static const struct {
        const char *names;
        dl_table_limit tables[2];
        size_t count;
        uint32_t code;
    } rows[] = {
        {"st", {{1, 1}}, 1, DL_BAD_LENGTHS},
        {"s", {{1, 1}, {1, 1}}, 2, DL_BAD_LENGTHS},
        {"s", {{UINT32_MAX, 1}}, 1, DL_BAD_LENGTHS},
        {"s", {{0, 0}}, 0, DL_BAD_LENGTHS},
        {"\xff", {{1, 1}}, 1, DL_BAD_TEXT},
        /* A name is cut within a character. */
        {"\xc3\xa9", {{1, 1}, {1, 1}}, 2, DL_BAD_TEXT},
        /* The code is that of the first name that can't be read. */
        {"\xff", {{1, 1}, {1, 1}}, 2, DL_BAD_TEXT},
        {"s\xff", {{1, 1}, {2, 1}}, 2, DL_BAD_LENGTHS},
        {"", {{0, 1}}, 1, DL_EMPTY_TABLE},
        {long_name, {{65, 1}}, 1, DL_TABLE_TOO_LONG},
        {"t", {{1, 0}}, 1, DL_BAD_TABLE_LIMIT},
        {"t", {{1, DL_LARGEST_LIMIT + 1}}, 1, DL_BAD_TABLE_LIMIT},
        {"tt", {{1, 1}, {1, 2}}, 2, DL_DUPLICATE_TABLE},
        /* What counts first counts of any table. */
        {long_name, {{65, 0}, {0, 0}}, 2, DL_EMPTY_TABLE},
        {long_name, {{65, 0}}, 1, DL_TABLE_TOO_LONG},
        {"tt", {{1, 1}, {1, 0}}, 2, DL_BAD_TABLE_LIMIT},
    };
    dl_desk desk = {0};

    for (size_t row = 0; row < sizeof rows / sizeof rows[0]; row++) {
        CHECK(open_by_table(&desk, rows[row].names, rows[row].tables, rows[row].count) == rows[row].code);
        CHECK(!desk.is_open);
    }
}

static void a_batch_by_table_is_of_one_table(void)
{
    /* The last table's name is as long, and its limit as large, as may be. */
    static const dl_table_limit tables[2] = {{1, 1}, {DL_TABLE_BYTES, DL_LARGEST_LIMIT}};
    static const char names[] = "sxxxxxxxxxxxxxxxxxxxxxxxxxxxxxxxxxxxxxxxxxxxxxxxxxxxxxxxxxxxxxxxx";
    dl_desk desk = {0};
    dl_key_texts texts;

    CHECK(open_by_table(&desk, names, tables, 2) == DL_DONE);
    CHECK(is(dl_desk_load(&desk, KEY("t", "a")), DL_FRESH, 0, 0));
    CHECK(is(dl_desk_load(&desk, KEY("s", "x")), DL_FRESH, 1, 1));
    CHECK(is(dl_desk_load(&desk, KEY("t", "b")), DL_FRESH, 2, 0));
    CHECK(is(dl_desk_load(&desk, KEY("s", "y")), DL_FRESH, 3, 2));
    CHECK(is(dl_desk_load(&desk, KEY("t", "c")), DL_FRESH, 4, 3));
    CHECK(is(dl_desk_load(&desk, KEY("t", "a")), DL_HIT, 0, 0));
    CHECK(sent(dl_desk_dispatch(&desk), 0, 4));
    CHECK(is(dl_desk_member(&desk, 0, 1), DL_HIT, 2, 0));
    CHECK(is(dl_desk_member(&desk, 1, 1), DL_NO_MEMBER, 0, 0));
    CHECK(dl_desk_key(&desk, 2, 0, &texts) == DL_DONE);
    CHECK(texts.table_len == 1 && texts.table[0] == 's' && texts.id_len == 1 && texts.id[0] == 'y');
    CHECK(dl_desk_settle(&desk, 0) == DL_DONE);
    CHECK(dl_desk_fail(&desk, 1) == DL_DONE);
    /* The key of the batch that failed is loaded anew, into a batch of its table. */
    CHECK(is(dl_desk_load(&desk, KEY("t", "d")), DL_FRESH, 5, 4));
    CHECK(is(dl_desk_load(&desk, KEY("s", "x")), DL_FRESH, 6, 5));
    CHECK(is(dl_desk_load(&desk, KEY("t", "a")), DL_HIT, 0, 0));
    CHECK(dl_desk_close(&desk) == DL_DONE);
}

static void a_desk_by_table_needs_no_tables(void)
{
    static const dl_table_limit none[1] = {{0, 0}};
    dl_desk desk = {0};

    CHECK(open_by_table(&desk, "", none, 0) == DL_DONE);
    CHECK(is(dl_desk_load(&desk, KEY("s", "x")), DL_FRESH, 0, 0));
    CHECK(is(dl_desk_load(&desk, KEY("t", "x")), DL_FRESH, 1, 1));
    CHECK(is(dl_desk_load(&desk, KEY("s", "y")), DL_FRESH, 2, 0));
    CHECK(is(dl_desk_load(&desk, KEY("s", "z")), DL_FRESH, 3, 2));
    CHECK(has(&desk, SEED_LOW) && has(&desk, SEED_HIGH));
    CHECK(dl_desk_close(&desk) == DL_DONE);
}

static void texts_that_are_no_key_are_refused(void)
{
    static const uint8_t long_text[257] = {0};
    dl_desk desk = {0};

    open_desk(&desk, 1, 1);
    CHECK(is(dl_desk_load(&desk, KEY("", "a")), DL_BAD_KEY, 0, 0));
    CHECK(is(dl_desk_load(&desk, KEY("user", "")), DL_BAD_KEY, 0, 0));
    CHECK(is(dl_desk_load(&desk, KEY("user", "\xff")), DL_BAD_KEY, 0, 0));
    CHECK(is(dl_desk_load(&desk, KEY("\xc3", "a")), DL_BAD_KEY, 0, 0));
    CHECK(is(dl_desk_load(&desk, KEY("\xc3", "\xa9")), DL_BAD_KEY, 0, 0));
    CHECK(is(dl_desk_load(&desk, long_text, 65, long_text, 1), DL_BAD_KEY, 0, 0));
    CHECK(is(dl_desk_load(&desk, long_text, 1, long_text, 257), DL_BAD_KEY, 0, 0));
    CHECK(is(dl_desk_prime(&desk, KEY("", "a")), DL_BAD_KEY, 0, 0));
    CHECK(is(dl_desk_held(&desk, KEY("", "a")), DL_BAD_KEY, 0, 0));
    CHECK(dl_desk_clear(&desk, KEY("", "a")) == DL_BAD_KEY);
    CHECK(is(dl_desk_load(&desk, long_text, 64, long_text, 256), DL_FRESH, 0, 0));
    CHECK(dl_desk_close(&desk) == DL_DONE);
}

static void loads_are_batched_once_a_turn(void)
{
    dl_desk desk = {0};
    dl_key_texts texts;

    open_desk(&desk, 2, 8);
    CHECK(sent(dl_desk_dispatch(&desk), 0, 0));
    CHECK(is(dl_desk_load(&desk, USER("a")), DL_FRESH, 0, 0));
    CHECK(is(dl_desk_load(&desk, USER("b")), DL_FRESH, 1, 0));
    CHECK(is(dl_desk_load(&desk, USER("a")), DL_HIT, 0, 0));
    CHECK(is(dl_desk_load(&desk, KEY("usera", "b")), DL_FRESH, 2, 1));
    CHECK(dl_desk_settle(&desk, 0) == DL_NOT_SENT);
    CHECK(dl_desk_fail(&desk, 1) == DL_NOT_SENT);
    CHECK(sent(dl_desk_dispatch(&desk), 0, 2));
    CHECK(sent(dl_desk_dispatch(&desk), 0, 0));
    CHECK(is(dl_desk_member(&desk, 0, 0), DL_HIT, 0, 0));
    CHECK(is(dl_desk_member(&desk, 0, 1), DL_HIT, 1, 0));
    CHECK(is(dl_desk_member(&desk, 0, 2), DL_NO_MEMBER, 0, 0));
    CHECK(is(dl_desk_member(&desk, 1, 0), DL_HIT, 2, 0));
    CHECK(is(dl_desk_member(&desk, 2, 0), DL_NO_BATCH, 0, 0));
    memset(&texts, 42, sizeof texts);
    CHECK(dl_desk_key(&desk, 1, 0, &texts) == DL_DONE);
    CHECK(texts.table_len == 5 && memcmp(texts.table, "usera", 5) == 0);
    CHECK(texts.id_len == 1 && texts.id[0] == 'b');
    CHECK(dl_desk_key(&desk, 1, 1, &texts) == DL_NO_MEMBER);
    CHECK(dl_desk_key(&desk, 2, 0, &texts) == DL_NO_BATCH);
    CHECK(texts.table_len == 5 && texts.id_len == 1);
    /* A batch that was sent takes no more keys. */
    CHECK(is(dl_desk_load(&desk, USER("c")), DL_FRESH, 3, 2));
    CHECK(sent(dl_desk_dispatch(&desk), 2, 1));
    CHECK(dl_desk_settle(&desk, 0) == DL_DONE);
    CHECK(dl_desk_settle(&desk, 0) == DL_ENDED_BEFORE);
    CHECK(dl_desk_fail(&desk, 0) == DL_ENDED_BEFORE);
    CHECK(dl_desk_settle(&desk, 3) == DL_NO_BATCH);
    CHECK(dl_desk_fail(&desk, 3) == DL_NO_BATCH);
    CHECK(dl_desk_close(&desk) == DL_DONE);
}

static void a_settled_key_is_held_and_a_failed_one_is_not(void)
{
    dl_desk desk = {0};

    open_desk(&desk, 2, 8);
    dl_desk_load(&desk, USER("a"));
    dl_desk_load(&desk, USER("b"));
    dl_desk_load(&desk, USER("c"));
    dl_desk_load(&desk, USER("d"));
    CHECK(sent(dl_desk_dispatch(&desk), 0, 2));
    /* d is loaded anew before its batch fails: its new cell stays held. */
    CHECK(dl_desk_clear(&desk, USER("d")) == DL_DONE);
    CHECK(is(dl_desk_load(&desk, USER("d")), DL_FRESH, 4, 2));
    CHECK(dl_desk_settle(&desk, 0) == DL_DONE);
    CHECK(dl_desk_fail(&desk, 1) == DL_DONE);
    CHECK(is(dl_desk_held(&desk, USER("a")), DL_HIT, 0, 0));
    CHECK(is(dl_desk_held(&desk, USER("b")), DL_HIT, 1, 0));
    CHECK(is(dl_desk_held(&desk, USER("c")), DL_NONE, 0, 0));
    CHECK(is(dl_desk_held(&desk, USER("d")), DL_HIT, 4, 0));
    CHECK(is(dl_desk_load(&desk, USER("c")), DL_FRESH, 5, 2));
    CHECK(dl_desk_close(&desk) == DL_DONE);
}

static void keys_are_primed_and_cleared(void)
{
    dl_desk desk = {0};

    open_desk(&desk, 2, 4);
    CHECK(is(dl_desk_prime(&desk, USER("a")), DL_FRESH, 0, 0));
    CHECK(is(dl_desk_prime(&desk, USER("a")), DL_HIT, 0, 0));
    CHECK(is(dl_desk_load(&desk, USER("a")), DL_HIT, 0, 0));
    CHECK(dl_desk_clear(&desk, USER("b")) == DL_DONE);
    CHECK(dl_desk_clear(&desk, USER("a")) == DL_DONE);
    CHECK(is(dl_desk_held(&desk, USER("a")), DL_NONE, 0, 0));
    CHECK(is(dl_desk_load(&desk, USER("a")), DL_FRESH, 1, 0));
    CHECK(is(dl_desk_load(&desk, USER("b")), DL_FRESH, 2, 0));
    CHECK(dl_desk_clear_all(&desk) == DL_DONE);
    CHECK(is(dl_desk_held(&desk, USER("b")), DL_NONE, 0, 0));
    /* A fresh load goes into the batch that is begun, but for one that has the key. */
    CHECK(is(dl_desk_prime(&desk, USER("c")), DL_FRESH, 3, 0));
    CHECK(is(dl_desk_prime(&desk, USER("d")), DL_CELLS_FULL, 0, 0));
    CHECK(is(dl_desk_load(&desk, USER("d")), DL_CELLS_FULL, 0, 0));
    CHECK(is(dl_desk_load(&desk, USER("c")), DL_HIT, 3, 0));
    CHECK(dl_desk_close(&desk) == DL_DONE);
}

static void several_keys_are_loaded_as_one(void)
{
    const uint8_t *texts = (const uint8_t *)"userauserbuseraorderx1";
    dl_key_lengths lengths[4] = {{4, 1}, {4, 1}, {4, 1}, {5, 2}};
    dl_loaded answers[4];
    dl_desk desk = {0};

    memset(answers, 42, sizeof answers);
    open_desk(&desk, 2, 3);
    CHECK(dl_desk_load_many(&desk, texts, 22, lengths, 4, answers, 3) == DL_BAD_LENGTHS);
    CHECK(dl_desk_load_many(&desk, texts, 21, lengths, 4, answers, 4) == DL_BAD_LENGTHS);
    CHECK(dl_desk_load_many(&desk, texts, 22, lengths, 3, answers, 3) == DL_BAD_LENGTHS);
    CHECK(answers[0].code == 0x2a2a2a2a);
    CHECK(dl_desk_load_many(&desk, texts, 22, lengths, 4, answers, 4) == DL_DONE);
    CHECK(is(answers[0], DL_FRESH, 0, 0));
    CHECK(is(answers[1], DL_FRESH, 1, 0));
    CHECK(is(answers[2], DL_HIT, 0, 0));
    CHECK(is(answers[3], DL_FRESH, 2, 1));
    memset(answers, 42, sizeof answers);
    /* All or none: there is no cell left for the last one. */
    CHECK(dl_desk_load_many(&desk, (const uint8_t *)"userauserc", 10, lengths, 2, answers, 2) == DL_CELLS_FULL);
    lengths[1].id = 0;
    CHECK(dl_desk_load_many(&desk, (const uint8_t *)"userauser", 9, lengths, 2, answers, 2) == DL_BAD_KEY);
    lengths[1].id = UINT32_MAX;
    CHECK(dl_desk_load_many(&desk, texts, 22, lengths, 2, answers, 2) == DL_BAD_LENGTHS);
    /* The code is that of the first key that can't be read. */
    lengths[0].id = 0;
    CHECK(dl_desk_load_many(&desk, texts, 22, lengths, 2, answers, 2) == DL_BAD_KEY);
    CHECK(answers[0].code == 0x2a2a2a2a);
    CHECK(dl_desk_load_many(&desk, texts, 0, lengths, 0, answers, 0) == DL_DONE);
    CHECK(dl_desk_close(&desk) == DL_DONE);
}

static void a_large_desk_keeps_its_keys(void)
{
    enum { KEYS = 20000, BATCH = 100 };
    dl_desk desk = {0};
    char id[16];
    bool all = true;

    open_desk(&desk, BATCH, KEYS);
    for (uint32_t turn = 0; turn < 2; turn++) {
        for (uint32_t key = 0; key < KEYS; key++) {
            size_t len = (size_t)snprintf(id, sizeof id, "%u", (unsigned)key);
            dl_loaded want = {turn == 0 ? DL_FRESH : DL_HIT, key, turn == 0 ? key / BATCH : 0};
            dl_loaded answer = dl_desk_load(&desk, (const uint8_t *)"user", 4, (const uint8_t *)id, len);
            all = all && is(answer, want.code, want.cell, want.batch);
        }
    }
    CHECK(all);
    CHECK(sent(dl_desk_dispatch(&desk), 0, KEYS / BATCH));
    for (uint32_t batch = 0; batch < KEYS / BATCH; batch++) {
        all = all && dl_desk_settle(&desk, batch) == DL_DONE;
    }
    CHECK(all);
    CHECK(dl_desk_close(&desk) == DL_DONE);
}

int main(void)
{
    a_closed_handle_answers();
    each_code_has_its_name();
    a_desk_opens_and_closes_once();
    a_desk_keeps_both_halves_of_its_seed();
    a_desk_by_table_opens_once();
    tables_with_a_fault_are_refused();
    a_batch_by_table_is_of_one_table();
    a_desk_by_table_needs_no_tables();
    texts_that_are_no_key_are_refused();
    loads_are_batched_once_a_turn();
    a_settled_key_is_held_and_a_failed_one_is_not();
    keys_are_primed_and_cleared();
    several_keys_are_loaded_as_one();
    a_large_desk_keeps_its_keys();
    printf("%u passed, %u failed\n", passed, failed);
    return failed == 0 ? 0 : 1;
}
