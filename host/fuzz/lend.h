/* Buffers to lend with exactly the bytes that are said. */
#ifndef LEND_H
#define LEND_H

#include <stddef.h>
#include <stdint.h>

/* The build with AddressSanitizer, and the archive as it is shipped. */
enum side { INSTRUMENTED, SHIPPED, SIDES };

/* What a buffer is for; a side lends one of each at a time. */
enum slot { FILE_SLOT, STATE_SLOT, STORE_SLOT, BYTES_SLOT, OTHER_STATE, SLOTS };

struct lent {
    uint8_t *bytes;
    size_t length;
};

/* A copy of the content. The instrumented side gets it from malloc, whose
 * surroundings AddressSanitizer guards. The shipped side, whose reads and
 * writes nothing looks at, gets it right before a page without access. */
struct lent lend(enum side side, enum slot slot, const uint8_t *content,
                 size_t length);

void give_back(enum side side, struct lent lent);

#endif
