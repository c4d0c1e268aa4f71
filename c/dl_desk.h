/* The desk of Thrushscreen: the loader of one thread, as DataLoader has it, for a host with an event loop of its own.
 *
 * A host loads keys, and a desk says for each whether it is a hit, with the number of the cell that will show its outcome, or a
 * fresh load, with a new cell and the batch that will fetch it. Once a turn of its loop the host dispatches, fetches the batches
 * that were sent, and settles or fails each. Outcomes stay with the host, by the numbers of their cells.
 *
 * A desk keeps no pointer that it is handed, and writes only what a call says. No pointer is null, even if its length is
 * 0, and what a call writes overlaps nothing else that it is handed. It takes memory by malloc, realloc and free.
 *
 * Each call answers a code, also on a handle that is closed. A call that is refused (a code above DL_FRESH) leaves the desk as
 * it was. docs/guide/c.md says what is proved of this, and what is owed to it.
 */
#ifndef DL_DESK_H
#define DL_DESK_H

#include "dl_types.h"

#ifdef __cplusplus
extern "C" {
#endif

/* A handle. It begins as all zeros, which is a closed one: `dl_desk desk = {0};`. The host owns the handle's 16 bytes, and
 * neither writes nor copies them: there is one handle for each desk. It may be moved to another place while no call is made.
 * One call at a time is made on a handle. Between the calls of two threads lies a lock, or a thread's start or end. */
typedef struct dl_desk {
    bool is_open;
    void *held;
} dl_desk;

/* What a desk by table is opened with: the four numbers of dl_desk_open. */
typedef struct dl_opening {
    uint32_t max_batch, max_cells;
    uint64_t seed_low, seed_high;
} dl_opening;

/* Opens a desk in a closed handle. Its batches take max_batch keys at most, and it begins max_cells cells at most: each limit
 * is 1 to 65,536. A desk gives no cell back, so a host opens one for each request, as DataLoader advises.
 * The seed is two random numbers of the host's, from getrandom or the like, by which keys are hashed: whoever doesn't know
 * them can't make keys whose hashes meet. No answer depends on them.
 * DL_DONE; or, with the handle as it was, DL_OPEN, DL_BAD_LIMIT, DL_OUT_OF_MEMORY. */
uint32_t dl_desk_open(dl_desk *desk, uint32_t max_batch, uint32_t max_cells, uint64_t seed_low, uint64_t seed_high);

/* Opens a desk as dl_desk_open does, of which each batch is of one table. Each table that is handed in has a limit of its own; a
 * batch of any other takes max_batch keys at most. The names are those of these tables in their order, with nothing between them.
 * DL_DONE; or, with the handle as it was, DL_OPEN, DL_BAD_LIMIT, DL_OUT_OF_MEMORY; DL_BAD_LENGTHS or DL_BAD_TEXT, by the first
 * name that can't be read; or of DL_EMPTY_TABLE, DL_TABLE_TOO_LONG, DL_BAD_TABLE_LIMIT and DL_DUPLICATE_TABLE the first that is so
 * of any table. */
uint32_t dl_desk_open_by_table(dl_desk *desk, const dl_opening *opening, const uint8_t *names, size_t names_len,
                               const dl_table_limit *tables, size_t tables_len);

/* Closes the desk and frees its memory. The handle is closed then, and may be opened again.
 * DL_DONE, also while batches collect or are open; DL_CLOSED. */
uint32_t dl_desk_close(dl_desk *desk);

/* Loads a key (DataLoader: load).
 * DL_HIT with the cell that is held for it; DL_FRESH with a new cell and the batch that it is a member of. No batch has a key
 * twice: one that was cleared and is loaded again is a member of a later batch.
 * DL_CLOSED, DL_BAD_KEY, DL_CELLS_FULL, DL_OUT_OF_MEMORY. */
dl_loaded dl_desk_load(dl_desk *desk, DL_KEY);

/* Loads several keys in their order as one call, all or none (DataLoader: loadMany). The texts are those of all keys, each table
 * before its id, with nothing between them; the lengths are those of each key. There are as many answers as lengths, and each is
 * written as dl_desk_load would answer it, if the call is made; else none is.
 * DL_DONE. DL_CLOSED; DL_BAD_LENGTHS or DL_BAD_KEY, by the first key that can't be read; DL_CELLS_FULL, DL_OUT_OF_MEMORY. */
uint32_t dl_desk_load_many(dl_desk *desk, const uint8_t *texts, size_t texts_len, const dl_key_lengths *lengths,
                           size_t lengths_len, dl_loaded *answers, size_t answers_len);

/* Begins a cell that is in no batch, for a key whose outcome the host has, unless the key is held (DataLoader: prime).
 * DL_FRESH with the new cell; DL_HIT if the key is held: nothing changes then, and dl_desk_held says its cell, not this answer.
 * DL_CLOSED, DL_BAD_KEY, DL_CELLS_FULL, DL_OUT_OF_MEMORY. */
dl_loaded dl_desk_prime(dl_desk *desk, DL_KEY);

/* The cell that is held for a key. It changes nothing.
 * DL_HIT with the cell; DL_NONE if none is held.
 * DL_CLOSED, DL_BAD_KEY, DL_OUT_OF_MEMORY. */
dl_loaded dl_desk_held(dl_desk *desk, DL_KEY);

/* Forgets a key, so that its next load is fresh (DataLoader: clear). A key that isn't held is no fault.
 * DL_DONE. DL_CLOSED, DL_BAD_KEY, DL_OUT_OF_MEMORY. */
uint32_t dl_desk_clear(dl_desk *desk, DL_KEY);

/* Forgets all keys (DataLoader: clearAll).
 * DL_DONE. DL_CLOSED. */
uint32_t dl_desk_clear_all(dl_desk *desk);

/* Sends each batch that was begun and not sent: it takes no more keys. The host fetches it then.
 * DL_DONE with the batches, of which there may be none. DL_CLOSED, DL_OUT_OF_MEMORY. */
dl_dispatched dl_desk_dispatch(dl_desk *desk);

/* The cell of a batch's member, whether the batch collects, is open or has ended. Members are counted from 0 on, in the order
 * of their loads.
 * DL_HIT with the cell. DL_CLOSED, DL_NO_BATCH; DL_NO_MEMBER past the last one. */
dl_loaded dl_desk_member(dl_desk *desk, uint32_t batch, uint32_t index);

/* Writes the texts of the key of a batch's member.
 * DL_DONE. DL_CLOSED, DL_NO_BATCH, DL_NO_MEMBER, which write nothing. */
uint32_t dl_desk_key(dl_desk *desk, uint32_t batch, uint32_t index, dl_key_texts *texts);

/* Ends a batch that was sent, with an outcome for each member: a value, or an error of that member alone. The keys stay held.
 * DL_DONE. DL_CLOSED, DL_NO_BATCH, DL_NOT_SENT, DL_ENDED_BEFORE. */
uint32_t dl_desk_settle(dl_desk *desk, uint32_t batch);

/* Ends a batch that was sent with a fault of the whole batch. Its keys are forgotten if they are held still with the cells of
 * this batch, so that a later load fetches them again.
 * DL_DONE. DL_CLOSED, DL_NO_BATCH, DL_NOT_SENT, DL_ENDED_BEFORE. */
uint32_t dl_desk_fail(dl_desk *desk, uint32_t batch);

#ifdef __cplusplus
}
#endif

#endif
