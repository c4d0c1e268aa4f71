/* What dl_desk.h and dl_serial.h have in common: codes, answers and keys. Include one of those, or both. */
#ifndef DL_TYPES_H
#define DL_TYPES_H

#include <stdbool.h>
#include <stddef.h>
#include <stdint.h>

/* What a call answers. DL_DONE and DL_HIT are one number, and so are DL_FRESH and DL_NONE: the call says which is meant. A code above
 * these is a refusal. A desk answers none from DL_BAD_CALLERS on. */
enum {
    DL_DONE = 0,             /* the call is made */
    DL_HIT = 0,              /* a cell is found; of a prime: the key is held already */
    DL_FRESH = 1,            /* a cell is begun */
    DL_NONE = 1,             /* no cell is held, or the cell has not ended */
    DL_OUT_OF_MEMORY = 2,    /* malloc or realloc refused */
    DL_CELLS_FULL = 3,       /* the call would begin more cells than the limit */
    DL_NO_BATCH = 4,         /* no batch has this number yet */
    DL_NOT_SENT = 5,         /* the batch still collects keys */
    DL_ENDED_BEFORE = 6,     /* the batch was settled or failed before */
    DL_BAD_KEY = 7,          /* a text of the key is no UTF-8, is empty, or is too long */
    DL_BAD_LIMIT = 8,        /* a limit is not 1 to 65,536 */
    DL_CLOSED = 9,           /* the handle has no desk, or no loader */
    DL_OPEN = 10,            /* the handle has a desk or a loader already; of a history: its loader isn't closed */
    DL_NO_MEMBER = 11,       /* the batch has no member of this index */
    DL_BAD_LENGTHS = 12,     /* lengths don't add up to the texts, or are not as many as the answers */
    DL_BAD_TEXT = 13,        /* the name of a table is no UTF-8 */
    DL_EMPTY_TABLE = 14,     /* the name of a table is empty */
    DL_TABLE_TOO_LONG = 15,  /* the name of a table is too long */
    DL_BAD_TABLE_LIMIT = 16, /* the limit of a table is not 1 to 65,536 */
    DL_DUPLICATE_TABLE = 17, /* a table is named twice */
    DL_BAD_CALLERS = 18,     /* a loader has 1 to 32 callers */
    DL_NO_CALLER = 19,       /* the loader has no caller of this number */
    DL_STOPPED = 20,         /* the loader is stopped */
    DL_LOG_FULL = 21,        /* the loader has made as many calls as its limit says */
    DL_UNSETTLED = 22,       /* a batch has not ended: dispatch, and settle or fail each */
    DL_NO_EVENT = 23,        /* the history has no such event, and a caller no such entry */
    DL_NO_TICKET = 24,       /* the caller has no ticket of this number */
    DL_BUG = 25              /* of the library: it never comes in a run */
};

/* The name of a code, as "DL_BAD_KEY", for a host that prints why a call was refused. It is never NULL, and you don't free it. */
static inline const char *dl_code_name(uint32_t code)
{
    static const char *const names[] = {
        "DL_DONE or DL_HIT", "DL_FRESH or DL_NONE", "DL_OUT_OF_MEMORY", "DL_CELLS_FULL", "DL_NO_BATCH", "DL_NOT_SENT",
        "DL_ENDED_BEFORE", "DL_BAD_KEY", "DL_BAD_LIMIT", "DL_CLOSED", "DL_OPEN", "DL_NO_MEMBER", "DL_BAD_LENGTHS",
        "DL_BAD_TEXT", "DL_EMPTY_TABLE", "DL_TABLE_TOO_LONG", "DL_BAD_TABLE_LIMIT", "DL_DUPLICATE_TABLE", "DL_BAD_CALLERS",
        "DL_NO_CALLER", "DL_STOPPED", "DL_LOG_FULL", "DL_UNSETTLED", "DL_NO_EVENT", "DL_NO_TICKET", "DL_BUG",
    };
    return code < sizeof names / sizeof *names ? names[code] : "no code of this header";
}

/* The most bytes of a key's table, and of its id. Each has at least one. */
enum { DL_TABLE_BYTES = 64, DL_ID_BYTES = 256 };

/* The greatest number that a limit may be. */
enum { DL_LARGEST_LIMIT = 65536 };

/* A code, and if a call says so a cell and a batch: else these are 0. Cells and batches are counted from 0 on. */
typedef struct dl_loaded {
    uint32_t code, cell, batch;
} dl_loaded;

/* A code, and the batches that were sent: first, first + 1, .. first + count - 1. Both are 0 if none was. */
typedef struct dl_dispatched {
    uint32_t code, first;
    size_t count;
} dl_dispatched;

/* How many bytes the table and the id of a key have. */
typedef struct dl_key_lengths {
    uint32_t table, id;
} dl_key_lengths;

/* The two texts of a key, of UTF-8 and with no zero at their ends. The bytes behind the lengths mean nothing. */
typedef struct dl_key_texts {
    size_t table_len, id_len;
    uint8_t table[DL_TABLE_BYTES], id[DL_ID_BYTES];
} dl_key_texts;

/* A table with a limit of its own: how many bytes its name has, and the most keys of a batch of it, 1 to 65,536. */
typedef struct dl_table_limit {
    uint32_t name_len, limit;
} dl_table_limit;

/* A key: the texts of a table and of an id in it, each by a pointer to its bytes and their number. They are read during the
 * call alone. */
#define DL_KEY const uint8_t *table, size_t table_len, const uint8_t *id, size_t id_len

#endif
