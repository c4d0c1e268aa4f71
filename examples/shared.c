/* Two threads of one request load a user each, and share a batch, by the loader that threads share. */
#include "dl_loader.h"

#include <pthread.h>
#include <stdatomic.h>
#include <stdio.h>
#include <string.h>
#include <sys/random.h>

#define TEXT(text) (const uint8_t *)(text), strlen(text)

static dl_loader *loader;
static const char *const ids[] = {"ada", "bob"};
static atomic_int loading = 2; /* how many threads haven't loaded all that they can */

/* Sends what is collected, and fetches it: here the word of a user is the length of its id. What can't be fetched nobody waits for. */
static void fetch(uint32_t caller)
{
    dl_dispatched sent = dl_loader_dispatch(loader, caller);
    uint32_t code = sent.code;
    for (uint32_t batch = sent.first; code == DL_DONE && batch < sent.first + sent.count; batch++) {
        uint64_t words[2];
        uint32_t count = 0;
        for (dl_key_texts key; dl_loader_member(loader, batch, count, &key).code == DL_HIT; count++) {
            words[count] = key.id_len;
        }
        printf("batch %u: %u keys\n", (unsigned)batch, (unsigned)count);
        code = dl_loader_settle(loader, caller, batch, words, count);
    }
    if (code != DL_DONE) {
        dl_loader_stop(loader);
    }
}

static void *request(void *given)
{
    uint32_t caller = *(uint32_t *)given;
    dl_ticket user = dl_loader_load(loader, caller, TEXT("user"), TEXT(ids[caller]));
    if (atomic_fetch_sub(&loading, 1) == 1) {
        fetch(caller); /* the last thread fetches for all */
    }
    dl_shown shown = user.code <= DL_FRESH ? dl_loader_wait(loader, user.cell) : (dl_shown){DL_ABANDONED, 0};
    if (shown.state != DL_ABANDONED) {
        dl_loader_saw(loader, caller, user.ticket);
    }
    printf("%s %u\n", shown.state == DL_SETTLED ? "settled" : "no value", (unsigned)shown.word);
    return NULL;
}

int main(void)
{
    uint32_t callers[2] = {0, 1};
    uint64_t seed[2];
    pthread_t other;

    if (getrandom(seed, sizeof seed, 0) != sizeof seed) {
        return 1;
    }
    dl_serial_opening opening = {
        .max_batch = 2, .max_cells = 1000, .max_calls = 5000, .callers = 2, .seed_low = seed[0], .seed_high = seed[1]};
    if (dl_loader_open(&loader, &opening) != DL_DONE || pthread_create(&other, NULL, request, &callers[1]) != 0) {
        return 1;
    }
    request(&callers[0]);
    pthread_join(other, NULL);
    uint32_t code = dl_loader_close(loader);
    printf("%s\n", code == DL_DONE ? "closed" : dl_code_name(code));
    dl_loader_free(loader);
}
