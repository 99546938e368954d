/* The review calls on both builds of the monitor. */
#ifndef REVIEW_H
#define REVIEW_H

#include "lend.h"
#include "model.h"

struct answer of_figure(struct monitor_figure figure);

/* A review call on one side, with this state. */
struct answer review(enum side side, enum kind kind, struct lent state,
                     const struct numbers *n);

#endif
