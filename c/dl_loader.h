/* The loader of Thrushscreen that threads share: the calls of dl_serial.h behind a lock, and a word of the host's for each outcome.
 *
 * A host opens a loader for a request, for 1 to 32 callers. Any thread may make any call at any time, for any caller; open, close
 * and free say what they ask of you. The history has the calls of a caller in the order in which they got the lock, so a
 * thread that wants to find its own calls again in their order has a caller of its own.
 *
 * A load gives a ticket with the number of a cell. Whoever dispatches owes the loader an end, by settle or fail, for each batch that
 * was sent: until then all wait who want its keys. The end gives each cell of the batch a word of 64 bits, which is the host's: a
 * pointer, an index, or a number. A cell's word is given once. What a thread wrote before it gave a word, each thread sees that
 * reads the word. What a word points to has to last as long as somebody may read it.
 *
 * What the calls say of codes, pointers and memory in dl_serial.h holds here too. No call waits but dl_loader_wait and
 * dl_loader_wait_until; the others may wait for the lock, which is never held for longer than one call of dl_serial.h, and the cells
 * of one batch, take. Make no call in a signal handler, nor in the forked child of a process with threads, and cancel no thread
 * (pthread_cancel) that is in a call. dl_serial is proved, and the lock, the words and the waits are tested.
 */
#ifndef DL_LOADER_H
#define DL_LOADER_H

#include "dl_serial.h"

#include <time.h>

/* A C99 that isn't asked for POSIX has no such type in time.h. */
struct timespec;

#ifdef __cplusplus
extern "C" {
#endif

typedef struct dl_loader dl_loader;

/* What a cell shows, and what a wait ends with. */
enum {
    DL_EMPTY = 0,    /* no word yet; of dl_loader_wait_until: the deadline has passed */
    DL_SETTLED = 1,  /* the word that a settle or a prime gave it */
    DL_FAILED = 2,   /* the word with which its batch failed */
    DL_ABANDONED = 3 /* of a wait alone: the cell is empty and stays so: the loader is stopped or closed, or max_cells is no greater */
};

/* What a cell shows, with its word if it is settled or failed, else 0. */
typedef struct dl_shown {
    uint32_t state;
    uint64_t word;
} dl_shown;

/* ---- open */

/* Makes a loader, as dl_serial_open opens one, and writes where it is. Free it by dl_loader_free.
 * DL_DONE; or, with nothing written, DL_BAD_LIMIT, DL_BAD_CALLERS, DL_OUT_OF_MEMORY. */
uint32_t dl_loader_open(dl_loader **loader, const dl_serial_opening *opening);

/* Makes a loader of which each batch is of one table, as dl_serial_open_by_table opens one, and writes where it is.
 * DL_DONE; or, with nothing written, a code of dl_serial_open_by_table. */
uint32_t dl_loader_open_by_table(dl_loader **loader, const dl_serial_opening *opening, const uint8_t *names, size_t names_len,
                                 const dl_table_limit *tables, size_t tables_len);

/* What a loader was opened with: the limits and callers, and of one by table the names and limits of tables, else none. The seeds are 0. */
typedef struct dl_opened {
    dl_serial_opening opening;
    bool is_by_table;
    const uint8_t *names;
    const dl_table_limit *tables;
    size_t names_len, tables_len;
} dl_opened;

/* What this loader was opened with, without the lock. The loader keeps it until it is freed. */
const dl_opened *dl_loader_opened(const dl_loader *loader);

/* ---- calls of callers: each that is made is the last event of the history from then on */

/* dl_serial_load: a cell with its ticket, and of DL_FRESH the batch. */
dl_ticket dl_loader_load(dl_loader *loader, uint32_t caller, DL_KEY);

/* dl_serial_load_many: several keys as one call, all or none. */
uint32_t dl_loader_load_many(dl_loader *loader, uint32_t caller, const uint8_t *texts, size_t texts_len,
                             const dl_key_lengths *lengths, size_t lengths_len, dl_ticket *answers, size_t answers_len);

/* dl_serial_prime, with the word of the new cell, which is settled at once. If the key is held (DL_HIT) the word stays the host's. */
dl_loaded dl_loader_prime(dl_loader *loader, uint32_t caller, DL_KEY, uint64_t word);

/* dl_serial_clear and dl_serial_clear_all: what is forgotten keeps its cell and its word. */
uint32_t dl_loader_clear(dl_loader *loader, uint32_t caller, DL_KEY);
uint32_t dl_loader_clear_all(dl_loader *loader, uint32_t caller);

/* dl_serial_dispatch: the batches that were sent, which the host now fetches and ends. No other call is answered them. */
dl_dispatched dl_loader_dispatch(dl_loader *loader, uint32_t caller);

/* Settles a batch (dl_serial_settle) and gives a word to the cell of each member, in the order of dl_loader_member. A word may
 * mean a value or an error of that member alone.
 * DL_DONE. DL_CLOSED, DL_NO_BATCH; DL_BAD_LENGTHS if there aren't as many words as members; or as dl_serial_settle. */
uint32_t dl_loader_settle(dl_loader *loader, uint32_t caller, uint32_t batch, const uint64_t *words, size_t words_len);

/* Fails a batch (dl_serial_fail) and gives the one word to the cells of all members.
 * The codes are those of dl_serial_fail. */
uint32_t dl_loader_fail(dl_loader *loader, uint32_t caller, uint32_t batch, uint64_t word);

/* ---- other calls on a loader, which are no events */

/* dl_serial_member: the cell of a batch's member, and its key. */
dl_loaded dl_loader_member(dl_loader *loader, uint32_t batch, uint32_t index, dl_key_texts *texts);

/* What a cell shows, without the lock: DL_EMPTY, DL_SETTLED or DL_FAILED. A cell that nobody was answered is empty. */
dl_shown dl_loader_look(const dl_loader *loader, uint32_t cell);

/* Waits until the cell is settled or failed, and answers that; DL_ABANDONED once the loader is stopped or closed and the cell is empty. */
dl_shown dl_loader_wait(dl_loader *loader, uint32_t cell);

/* The same, but DL_EMPTY once CLOCK_MONOTONIC is at the deadline, whose tv_nsec is 0 to 999,999,999. */
dl_shown dl_loader_wait_until(dl_loader *loader, uint32_t cell, const struct timespec *deadline);

/* dl_serial_saw: notes that the caller read the outcome of a ticket. The history then says who read what. */
uint32_t dl_loader_saw(dl_loader *loader, uint32_t caller, size_t ticket);

/* dl_serial_stop: from now on each call that would be an event is refused, and each wait for an empty cell ends. A thread that
 * can't end its batches stops the loader. */
uint32_t dl_loader_stop(dl_loader *loader);

/* dl_serial_close: from then on the loader has its history, and its words as before. If it is refused, the loader is as it was.
 * Read the outcomes that the history is to show, and note them by dl_loader_saw, before. */
uint32_t dl_loader_close(dl_loader *loader);

/* ---- the history of a loader that was closed: dl_serial_event, dl_serial_event_key and dl_serial_entry */

dl_event dl_loader_event(dl_loader *loader, uint32_t at);
dl_loaded dl_loader_event_key(dl_loader *loader, uint32_t at, size_t index, dl_key_texts *texts);
dl_entry dl_loader_entry(dl_loader *loader, uint32_t caller, size_t index);

/* ---- free */

/* Frees a loader, closed or not, or nothing if it is NULL. No other call on it is under way or follows, in any thread. What its
 * words point to stays the host's. */
void dl_loader_free(dl_loader *loader);

#ifdef __cplusplus
}
#endif

#endif
