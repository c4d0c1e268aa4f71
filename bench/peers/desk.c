/* Loads N keys of nine bytes, with batches of 64, on a desk of the C library: once each, or with the word `hits` twice each. What
 * a load costs is the difference of two runs. */
#include "dl_desk.h"

#include <stdlib.h>
#include <string.h>

/* Whether a load of each key answers this code. */
static bool load_each(dl_desk *desk, uint32_t count, uint32_t code)
{
    uint8_t id[] = "00000";
    for (uint32_t number = 0; number < count; number++) {
        if (dl_desk_load(desk, (const uint8_t *)"user", 4, id, 5).code != code)
            return false;
        uint8_t *digit = id + 4;
        while (++*digit > '9')
            *digit-- = '0';
    }
    return true;
}

int main(int argc, char **argv)
{
    uint32_t count = argc > 1 ? (uint32_t)strtoul(argv[1], NULL, 10) : 0;
    dl_desk desk = {0};
    if (dl_desk_open(&desk, 64, DL_LARGEST_LIMIT, 1, 2) != DL_DONE || !load_each(&desk, count, DL_FRESH))
        return 1;
    if (argc > 2 && !strcmp(argv[2], "hits") && !load_each(&desk, count, DL_HIT))
        return 1;
    return (int)dl_desk_close(&desk);
}
