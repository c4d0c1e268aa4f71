/* The loader of Thrushscreen that threads share, but for its lock: the calls of all its callers, one at a time on a handle.
 *
 * A host brings the lock. It opens a loader for 1 to 32 callers, such as its threads, and makes each call for one of them, by
 * the caller's number from 0 on. A load says whether it is a hit, with the number of the cell that will show its outcome, or a
 * fresh load, with a new cell and the batch that will fetch it. Whoever dispatches fetches the batches that were sent, and
 * settles or fails each. Outcomes stay with the host, by the numbers of their cells.
 *
 * Each call that a caller makes is an event of one history. dl_serial_close answers DL_DONE only if that history is one that a
 * loader of one thread could have had: each load in it hits or begins a cell as it would there, each batch has ended, once, and
 * each caller's calls, and the outcomes that it saw, are its part of it. From then on the handle keeps the history, to be read.
 *
 * A loader keeps no pointer that it is handed, and writes only what a call says. No pointer is null, even if its length
 * is 0, and what a call writes overlaps nothing else that it is handed. It takes memory by malloc, realloc and free.
 *
 * Each call answers a code, also on a handle that is closed: the first of its codes, in the order in which its comment has them, that
 * applies, but for DL_OUT_OF_MEMORY, which may come in place of any other. A call that is refused (a code above DL_FRESH)
 * leaves the loader and its history as they were. DL_BUG never comes in a run.
 */
#ifndef DL_SERIAL_H
#define DL_SERIAL_H

#include "dl_types.h"

#ifdef __cplusplus
extern "C" {
#endif

/* A handle. It begins as all zeros, which is a closed one: `dl_serial loader = {0};`. The host owns the handle's 16 bytes, and
 * neither writes nor copies them: there is one handle for each loader. It may be moved to another place while no call is made.
 * One call at a time is made on a handle, by one thread after another if a lock is between. */
typedef struct dl_serial {
    bool is_open;
    void *held;
} dl_serial;

/* The most callers of a loader. */
enum { DL_MOST_CALLERS = 32 };

/* What a loader is opened with. Its batches take max_batch keys at most, it begins max_cells cells at most, and its history has
 * max_calls events at most: each limit is 1 to 65,536. It has 1 to 32 callers.
 * The seed is two random numbers of the host's, from getrandom or the like, by which keys are hashed: whoever doesn't know
 * them can't make keys whose hashes meet. No answer depends on them. */
typedef struct dl_serial_opening {
    uint32_t max_batch, max_cells, max_calls, callers;
    uint64_t seed_low, seed_high;
} dl_serial_opening;

/* The answer to a load: as dl_loaded, with the number of the ticket that the caller gets for it. A caller's tickets are counted
 * from 0 on. If the load is refused, all but the code are 0. */
typedef struct dl_ticket {
    uint32_t code, cell, batch;
    size_t ticket;
} dl_ticket;

/* The calls of a history. */
enum {
    DL_CALL_LOAD = 0,
    DL_CALL_LOAD_MANY = 1,
    DL_CALL_PRIME = 2,
    DL_CALL_CLEAR = 3,
    DL_CALL_CLEAR_ALL = 4,
    DL_CALL_DISPATCH = 5,
    DL_CALL_SETTLE = 6,
    DL_CALL_FAIL = 7
};

/* An event of a history: who made which call, how many keys it has, and how many batches, from batch on, it sent (a dispatch) or
 * ended (a settle and a fail: 1). If it has no batches, batch is 0. If the code isn't DL_DONE, all else is 0. */
typedef struct dl_event {
    uint32_t code, caller, call, batch;
    size_t keys, batches;
} dl_event;

/* What an entry of a caller is: a call of it, or an outcome that it saw. */
enum { DL_ENTRY_CALL = 0, DL_ENTRY_SAW = 1 };

/* An entry of a caller: of a call, the place of its event in the history; of an outcome, the cell, and the place of the event that
 * ended it. The cell of a call is 0. If the code isn't DL_DONE, all else is 0. */
typedef struct dl_entry {
    uint32_t code, kind, at, cell;
} dl_entry;

/* ---- open */

/* Opens a loader in a closed handle. A loader gives no cell back and has a limited number of calls, so a host opens one for each
 * request.
 * DL_DONE; or, with the handle as it was, DL_OPEN, DL_BAD_LIMIT, DL_BAD_CALLERS, DL_OUT_OF_MEMORY. */
uint32_t dl_serial_open(dl_serial *serial, const dl_serial_opening *opening);

/* Opens a loader as dl_serial_open does, of which each batch is of one table. Each table that is handed in has a limit of its own;
 * a batch of any other takes max_batch keys at most. The names are those of these tables in their order, with nothing between
 * them.
 * DL_DONE; or, with the handle as it was, DL_OPEN, DL_BAD_LIMIT; DL_BAD_LENGTHS or DL_BAD_TEXT, by the first name that can't be
 * read; of DL_EMPTY_TABLE, DL_TABLE_TOO_LONG, DL_BAD_TABLE_LIMIT and DL_DUPLICATE_TABLE the first that is so of any table;
 * DL_BAD_CALLERS, DL_OUT_OF_MEMORY. */
uint32_t dl_serial_open_by_table(dl_serial *serial, const dl_serial_opening *opening, const uint8_t *names, size_t names_len,
                                 const dl_table_limit *tables, size_t tables_len);

/* ---- calls of callers: each that is made is the last event of the history from then on
 *
 * On a handle whose loader was closed before, each of these answers DL_CLOSED. */

/* Loads a key (DataLoader: load).
 * DL_HIT with the cell that is held for it, or DL_FRESH with a new cell and the batch that it is a member of; both with a ticket.
 * DL_CLOSED, DL_BAD_KEY, DL_NO_CALLER, DL_STOPPED, DL_LOG_FULL, DL_CELLS_FULL, DL_OUT_OF_MEMORY, DL_BUG. */
dl_ticket dl_serial_load(dl_serial *serial, uint32_t caller, DL_KEY);

/* Loads several keys in their order as one call, all or none (DataLoader: loadMany). The texts are those of all keys, each table
 * before its id, with nothing between them; the lengths are those of each key. There are as many answers as lengths, and each is
 * written as dl_serial_load would answer it, if the call is made; else none is.
 * DL_DONE. DL_CLOSED; DL_BAD_LENGTHS or DL_BAD_KEY, by the first key that can't be read; DL_NO_CALLER, DL_STOPPED, DL_LOG_FULL,
 * DL_CELLS_FULL, DL_OUT_OF_MEMORY, DL_BUG. */
uint32_t dl_serial_load_many(dl_serial *serial, uint32_t caller, const uint8_t *texts, size_t texts_len,
                             const dl_key_lengths *lengths, size_t lengths_len, dl_ticket *answers, size_t answers_len);

/* Begins a cell for a key in no batch, for an outcome that the host has, unless the key is held (DataLoader: prime). The cell has
 * ended.
 * DL_FRESH with the new cell; DL_HIT, with no cell, if the key is held: nothing changes then but the history.
 * DL_CLOSED, DL_BAD_KEY, DL_NO_CALLER, DL_STOPPED, DL_LOG_FULL, DL_CELLS_FULL, DL_OUT_OF_MEMORY, DL_BUG. */
dl_loaded dl_serial_prime(dl_serial *serial, uint32_t caller, DL_KEY);

/* Forgets a key, so that its next load is fresh (DataLoader: clear). A key that isn't held is no fault.
 * DL_DONE. DL_CLOSED, DL_BAD_KEY, DL_NO_CALLER, DL_STOPPED, DL_LOG_FULL, DL_OUT_OF_MEMORY, DL_BUG. */
uint32_t dl_serial_clear(dl_serial *serial, uint32_t caller, DL_KEY);

/* Forgets all keys (DataLoader: clearAll).
 * DL_DONE. DL_CLOSED, DL_NO_CALLER, DL_STOPPED, DL_LOG_FULL, DL_OUT_OF_MEMORY, DL_BUG. */
uint32_t dl_serial_clear_all(dl_serial *serial, uint32_t caller);

/* Sends each batch that was begun and not sent: it takes no more keys. Whoever dispatches fetches it then, and ends it.
 * DL_DONE with the batches, of which there may be none. DL_CLOSED, DL_NO_CALLER, DL_STOPPED, DL_LOG_FULL, DL_OUT_OF_MEMORY,
 * DL_BUG. */
dl_dispatched dl_serial_dispatch(dl_serial *serial, uint32_t caller);

/* Ends a batch that was sent, with an outcome for each member: a value, or an error of that member alone. The keys stay held.
 * DL_DONE. DL_CLOSED, DL_NO_CALLER, DL_STOPPED, DL_LOG_FULL, DL_NO_BATCH, DL_NOT_SENT, DL_ENDED_BEFORE, DL_OUT_OF_MEMORY,
 * DL_BUG. */
uint32_t dl_serial_settle(dl_serial *serial, uint32_t caller, uint32_t batch);

/* Ends a batch that was sent with a fault of the whole batch. Its keys are forgotten if they are held still with the cells of
 * this batch, so that a later load fetches them again.
 * DL_DONE. DL_CLOSED, DL_NO_CALLER, DL_STOPPED, DL_LOG_FULL, DL_NO_BATCH, DL_NOT_SENT, DL_ENDED_BEFORE, DL_OUT_OF_MEMORY,
 * DL_BUG. */
uint32_t dl_serial_fail(dl_serial *serial, uint32_t caller, uint32_t batch);

/* ---- other calls on a loader, which are no events */

/* The cell of a batch's member, whose key's texts it writes. Members are counted from 0 on, in the order of their loads.
 * DL_HIT with the cell. DL_CLOSED, DL_NO_BATCH; DL_NO_MEMBER past the last one; these write nothing. */
dl_loaded dl_serial_member(dl_serial *serial, uint32_t batch, uint32_t index, dl_key_texts *texts);

/* Notes that a caller saw the outcome of a ticket, if the ticket's cell has ended: that is an entry of the caller from then on, one
 * for each ticket, however often it is noted.
 * DL_DONE; DL_NONE if the cell has not ended.
 * DL_CLOSED, DL_NO_CALLER, DL_NO_TICKET, DL_OUT_OF_MEMORY. */
uint32_t dl_serial_saw(dl_serial *serial, uint32_t caller, size_t ticket);

/* Stops the loader: from then on it refuses each call that would be an event.
 * DL_DONE, also if it is stopped already. DL_CLOSED. */
uint32_t dl_serial_stop(dl_serial *serial);

/* Closes the loader. The handle keeps its history from then on.
 * DL_DONE. DL_CLOSED; or, with the loader as it was, DL_UNSETTLED, DL_OUT_OF_MEMORY, DL_BUG. */
uint32_t dl_serial_close(dl_serial *serial);

/* ---- the history of a loader that was closed
 *
 * On a handle with no history these answer DL_OPEN, if its loader isn't closed, or DL_CLOSED, if it has none. */

/* The event at a place of the history, counted from 0 on.
 * DL_DONE. DL_CLOSED, DL_OPEN, DL_NO_EVENT. */
dl_event dl_serial_event(dl_serial *serial, uint32_t at);

/* A key of an event, by its index, whose texts it writes; and what the event answered to it. Of a load: DL_HIT or DL_FRESH, as
 * dl_serial_load says. Of a prime: DL_FRESH with the cell, or DL_HIT with none, as dl_serial_prime says. Of a clear: DL_DONE.
 * DL_CLOSED, DL_OPEN, DL_NO_EVENT, DL_NO_MEMBER, which write nothing. */
dl_loaded dl_serial_event_key(dl_serial *serial, uint32_t at, size_t index, dl_key_texts *texts);

/* An entry of a caller, by its index: what the caller did and saw, in its order. A caller that there isn't has none.
 * DL_DONE. DL_CLOSED, DL_OPEN, DL_NO_EVENT. */
dl_entry dl_serial_entry(dl_serial *serial, uint32_t caller, size_t index);

/* ---- free */

/* Frees the loader or its history, whether it is closed or not. The handle is closed then, and may be opened again.
 * DL_DONE; DL_CLOSED. */
uint32_t dl_serial_free(dl_serial *serial);

#ifdef __cplusplus
}
#endif

#endif
