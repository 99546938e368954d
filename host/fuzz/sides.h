/* The functions of monitor.h twice: from the build with AddressSanitizer and
 * coverage, and from the archive as it is shipped, renamed. review.c has the
 * review calls. */
#ifndef SIDES_H
#define SIDES_H

#include "lend.h"
#include "monitor.h"

#define BOTH(NAME) extern __typeof__(monitor_##NAME) shipped_##NAME;
BOTH(load)
BOTH(open)
BOTH(close)
BOTH(take)
BOTH(drop)
BOTH(read_number)
BOTH(write)
BOTH(flows)
BOTH(circle)
BOTH(can)

#define PAIR(NAME) static __typeof__(monitor_##NAME) *const NAME##_of[SIDES] = \
    {monitor_##NAME, shipped_##NAME}
PAIR(load);
PAIR(open);
PAIR(close);
PAIR(take);
PAIR(drop);
PAIR(read_number);
PAIR(write);
PAIR(flows);
PAIR(circle);
PAIR(can);

#endif
