#include "review.h"

#include "sides.h"

BOTH(counts_of)
BOTH(session_at)
BOTH(clearance)
BOTH(card_label)
BOTH(level)
BOTH(dominates)
BOTH(senior)
BOTH(assigned)
BOTH(takable)
BOTH(gives)

PAIR(counts_of);
PAIR(session_at);
PAIR(clearance);
PAIR(card_label);
PAIR(level);
PAIR(dominates);
PAIR(senior);
PAIR(assigned);
PAIR(takable);
PAIR(gives);

struct answer of_figure(struct monitor_figure figure)
{
    return (struct answer){figure.number, {figure.figure}};
}

static struct answer of_counts(struct monitor_counts c)
{
    return (struct answer){c.number, {c.labels, c.roles, c.users, c.cards}};
}

static struct answer of_session(struct monitor_session s)
{
    return (struct answer){s.number, {s.user, s.label, s.low, s.high}};
}

static struct answer of_set(struct monitor_set set)
{
    return (struct answer){set.number, {set.low, set.high}};
}

struct answer review(enum side side, enum kind kind, struct lent state,
                     const struct numbers *n)
{
    const uint8_t *s = state.bytes;
    size_t l = state.length;
    switch (kind) {
    case COUNTS:
        return of_counts(counts_of_of[side](s, l));
    case SESSION:
        return of_session(session_at_of[side](s, l, n->first));
    case CLEARANCE:
        return of_figure(clearance_of[side](s, l, n->first));
    case CARD_LABEL:
        return of_figure(card_label_of[side](s, l, n->first));
    case LEVEL:
        return of_figure(level_of[side](s, l, n->first, n->second));
    case DOMINATES:
        return of_figure(dominates_of[side](s, l, n->first, n->second));
    case SENIOR:
        return of_figure(senior_of[side](s, l, n->first, n->second));
    case ASSIGNED:
        return of_figure(assigned_of[side](s, l, n->first, n->second));
    case TAKABLE:
        return of_set(takable_of[side](s, l, n->first, n->second));
    default:
        return of_figure(gives_of[side](s, l, n->low, n->high, n->first,
                                        n->second, n->third));
    }
}
