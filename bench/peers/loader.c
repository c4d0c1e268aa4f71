/* Loads N keys of nine bytes, with batches of 64, by the loader that threads share: once each; with the word `hits` twice each; or with
 * the word `threads` once each by four threads. What a load costs is the difference of two runs. */
#include "dl_loader.h"

#include <pthread.h>
#include <stdlib.h>
#include <string.h>

enum { THREADS = 4 };

/* Who loads, how many keys, and how many of its loads were fresh. */
typedef struct {
    dl_loader *loader;
    uint32_t number, count, fresh;
} caller;

/* Loads each key, unless one is refused. */
static void *load_each(void *given)
{
    caller *self = given;
    uint8_t id[] = "00000";
    self->fresh = 0;
    for (uint32_t number = 0; number < self->count; number++) {
        uint32_t code = dl_loader_load(self->loader, self->number, (const uint8_t *)"user", 4, id, 5).code;
        if (code > DL_FRESH)
            exit(1);
        self->fresh += code == DL_FRESH;
        uint8_t *digit = id + 4;
        while (++*digit > '9')
            *digit-- = '0';
    }
    return NULL;
}

/* How many loads are fresh if four threads load each key. */
static uint32_t load_by_threads(dl_loader *loader, uint32_t count)
{
    caller callers[THREADS];
    pthread_t threads[THREADS];
    uint32_t fresh = 0;
    for (uint32_t number = 0; number < THREADS; number++) {
        callers[number] = (caller){loader, number, count, 0};
        if (pthread_create(&threads[number], NULL, load_each, &callers[number]) != 0)
            exit(1);
    }
    for (uint32_t number = 0; number < THREADS; number++) {
        pthread_join(threads[number], NULL);
        fresh += callers[number].fresh;
    }
    return fresh;
}

/* The same of one caller. */
static uint32_t load_alone(dl_loader *loader, uint32_t count)
{
    caller alone = {loader, 0, count, 0};
    load_each(&alone);
    return alone.fresh;
}

int main(int argc, char **argv)
{
    uint32_t count = argc > 1 ? (uint32_t)strtoul(argv[1], NULL, 10) : 0;
    const char *word = argc > 2 ? argv[2] : "";
    dl_serial_opening opening = {64, DL_LARGEST_LIMIT, DL_LARGEST_LIMIT, THREADS, 1, 2};
    dl_loader *loader = NULL;
    if (dl_loader_open(&loader, &opening) != DL_DONE)
        return 1;
    uint32_t fresh = !strcmp(word, "threads") ? load_by_threads(loader, count) : load_alone(loader, count);
    if (fresh != count || (!strcmp(word, "hits") && load_alone(loader, count) != 0))
        return 1;
    dl_loader_free(loader);
    return 0;
}
