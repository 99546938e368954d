#define _GNU_SOURCE
#include "lend.h"

#include <stdlib.h>
#include <string.h>
#include <sys/mman.h>

#define PAGE 4096
/* Room for the longest buffer, of 65,536 bytes. */
#define ROOM ((size_t)17 * PAGE)

static uint8_t *ends[SLOTS];

/* Room between two pages without access; its end. */
static uint8_t *guarded_end(void)
{
    uint8_t *whole = mmap(NULL, ROOM + 2 * PAGE, PROT_NONE,
                          MAP_PRIVATE | MAP_ANONYMOUS, -1, 0);
    if (whole == MAP_FAILED ||
        mprotect(whole + PAGE, ROOM, PROT_READ | PROT_WRITE) != 0)
        abort();
    return whole + PAGE + ROOM;
}

struct lent lend(enum side side, enum slot slot, const uint8_t *content,
                 size_t length)
{
    struct lent lent = {NULL, length};
    if (side == INSTRUMENTED) {
        lent.bytes = malloc(length);
    } else {
        if (ends[slot] == NULL)
            ends[slot] = guarded_end();
        lent.bytes = ends[slot] - length;
    }
    if (lent.bytes == NULL || length > ROOM)
        abort();
    memcpy(lent.bytes, content, length);
    return lent;
}

void give_back(enum side side, struct lent lent)
{
    if (side == INSTRUMENTED)
        free(lent.bytes);
}
