/*
 * The monitor behind the memory server: it checks a role file, works out
 * levels and role flow, and decides session calls over a store of cards. The
 * library is for x86-64 Linux.
 *
 * Buffers. The server lends every buffer as a pointer and a length, at any
 * alignment; NULL with length 0 is allowed everywhere. The buffers of one call
 * must not overlap.
 *   file   the role file, only read. Receive it in MONITOR_FILE_BYTES + 1
 *          bytes and hand in the length received: so a file that is too long
 *          is seen as such, and gets 1.
 *   state  65,536 bytes or more, of which the first 65,536 are used; all that a
 *          load and the sessions leave behind. It may be copied and moved. It
 *          belongs to the library that made it: load again after an upgrade.
 *   store  the cards: card o fills bytes 64 * (o - 1) to 64 * o - 1. It has
 *          64 * cards bytes or more, where cards is the fourth count of the
 *          file's line H; 32,768 bytes are enough for every file.
 *
 * Isolation. No chain of sessions lets a label learn what it does not
 * dominate, openings and closings apart: of these, refused ones too, every
 * label may learn. Timing, and what answers tell of the role file itself, are
 * not covered. This is proved, and rests on what the server does:
 *   - One state and one store belong together. Each call is lent the two, at
 *     the same lengths, as the last one left them; an older copy is not used
 *     again. From a load on, nothing but these calls changes the state, and
 *     from the first call after it on nothing but these changes the store.
 *   - A session's calls are made at its own place, and by what it asks alone.
 *   - A read is its number and its bytes on the same state and store: after 0
 *     the part is handed on, or copied for that, before any other call, but
 *     for those that may run beside it; after any other answer no byte of the
 *     store is.
 *   - A 0 is good for that moment alone. What was granted is asked again.
 *   - A session is handed the answers to its own calls, and of what the review
 *     calls tell nothing but its own label.
 * A load that is done closes all sessions. The store keeps its bytes, which
 * now stand under the new file's labels: clear what these should not show
 * before the first call after it.
 *
 * Threads. The library keeps nothing between calls outside the buffers, so
 * calls on different buffers may run at one time. Calls that are lent a buffer
 * as const may share it; a call that is lent it as non-const must be alone
 * with it. So load, open, close, take and drop are alone with the state, and a
 * write with the store; reads and review calls may run together. A read lasts
 * until its part is handed on.
 *
 * Stack. A load needs at most MONITOR_LOAD_STACK_BYTES, any other call
 * MONITOR_CALL_STACK_BYTES. No call allocates memory, locks or waits.
 *
 * Numbers. Labels, roles, users, cards and the 64 places are numbered from 1;
 * a file has 1 to 32 labels and up to 128 roles, 256 users and 512 cards.
 * Every value of a uint64_t may be handed in. 0 is done; any other answer is a
 * refusal, which leaves state, store and every other buffer unchanged. A call
 * that is done changes nothing past what it fills. Where several numbers
 * apply, the first one in the order given with the function is answered.
 *
 * The directory supplier, by the file's form (load; place in brackets):
 *    1  length 0, not a multiple of 22, or above 63,800 [0, 0]
 *    2  malformed line, unknown letter, H missing on line 1 or found later
 *       [line, 0]
 *    3  count outside its limits [line, 0]
 *    4  a user, role, card, label or mode number out of its range [line, 0]
 *    5  line out of order or repeated [line, 0]
 *    6  user or card with no label or more than one [1 and the lowest such
 *       user, or 2 and the lowest such card]
 *
 * The security officer, by what the file says (load; place in brackets):
 *   11  labels dominate in a circle, a line D a a included [lowest label on
 *       one, 0]
 *   12  two labels without least upper bound [lower and higher label of the
 *       first such pair by its lower, then by its higher label]
 *   13  roles are senior to each other in a circle, a line S r r included
 *       [lowest role on one, 0]
 *   14  assigned role with undefined w-level [user, role]
 *   15  clearance does not dominate the r-level [user, role]
 *   16  no label dominated by the clearance lies at or above the r-level and
 *       at or below the w-level, free levels passing [user, role]
 *
 * The translator, by a session call, or the server by a review call:
 *   24  no session at the place (close, take, drop, read, write, session_at)
 *   26  clearance does not dominate the label asked (open, takable, can)
 *   27  neither the role nor a senior of it is assigned to the user (take)
 *   28  a level of the role forbids it at this label (take)
 *   29  no role held gives this read or write (read, write)
 *   30  offset plus length above 64 (read, write)
 *
 * The server's programmer:
 *    7  state shorter than 65,536 bytes [0, 0] (load)
 *   21  state shorter than 65,536 bytes, or holding a number outside its
 *       limits, as a zeroed one does; never a state that a load and calls left
 *       (every call but load)
 *   22  place not 1 to 64 (every call that names one)
 *   23  place in use (open)
 *   25  user, label, role, card or mode number out of range (every call that
 *       names one)
 *   31  store shorter than 64 * cards (read, write)
 */
#ifndef MONITOR_H
#define MONITOR_H

#include <stddef.h>
#include <stdint.h>

/* The version of this header, of the library and of the programs beside it. */
#define MONITOR_VERSION_MAJOR 1
#define MONITOR_VERSION_MINOR 2
#define MONITOR_VERSION_PATCH 0
#define MONITOR_VERSION "1.2.0"

/* Where the compiler can, it warns of an answer that is not looked at. */
#if defined(__has_attribute)
#if __has_attribute(warn_unused_result)
#define MONITOR_MUST_CHECK __attribute__((warn_unused_result))
#endif
#elif defined(__GNUC__)
#define MONITOR_MUST_CHECK __attribute__((warn_unused_result))
#endif
#ifndef MONITOR_MUST_CHECK
#define MONITOR_MUST_CHECK
#endif

#ifdef __cplusplus
extern "C" {
#endif

/* Sizes in bytes, and the most that there can be of each thing. */
enum {
    MONITOR_STATE_BYTES = 65536,
    MONITOR_FILE_BYTES = 63800,
    MONITOR_CARD_BYTES = 64,
    MONITOR_LOAD_STACK_BYTES = 81920,
    MONITOR_CALL_STACK_BYTES = 8192,
    MONITOR_LABELS = 32,
    MONITOR_ROLES = 128,
    MONITOR_USERS = 256,
    MONITOR_CARDS = 512,
    MONITOR_PLACES = 64
};

/* Modes, and levels that are no label. */
enum {
    MONITOR_READ = 1,
    MONITOR_WRITE = 2,
    MONITOR_LEVEL_FREE = 0,
    MONITOR_LEVEL_UNDEFINED = 99
};

/* A load's number and its place; all three are 0 where the load is done. */
struct monitor_verdict {
    uint64_t number, first, second;
};

/*
 * What the review calls answer: a number, and what was asked, 0 on a refusal.
 * Of a set of roles, role r is bit r - 1 of low, or from 65 on bit r - 65 of
 * high.
 */
struct monitor_figure {
    uint64_t number, figure;
};

struct monitor_counts {
    uint64_t number, labels, roles, users, cards;
};

struct monitor_session {
    uint64_t number, user, label, low, high;
};

struct monitor_set {
    uint64_t number, low, high;
};

/*
 * Checks a role file and loads it. Answers 7, then 1, then line by line 2 to 5
 * in that order within the line, then 6 (users before cards), 11, 12, 13, then
 * for the assignments in file order 14 to 16 within each, or 0.
 * Done, it replaces the state's first 65,536 bytes, whatever they held, and
 * closes all sessions.
 */
MONITOR_MUST_CHECK
struct monitor_verdict monitor_load(const uint8_t *file, size_t file_len,
                                    uint8_t *state, size_t state_len);

/*
 * Opens a session at a free place: a user and a label that the user's
 * clearance dominates, and no roles. Answers 21, 22, 23, 25, 26 or 0.
 * Done, it changes the state only: the place is in use.
 */
MONITOR_MUST_CHECK
uint64_t monitor_open(uint8_t *state, size_t state_len, uint64_t place,
                      uint64_t user, uint64_t label);

/*
 * Closes the session at a place. Answers 21, 22, 24 or 0.
 * Done, it changes the state only: the place is empty, the roles held there
 * are gone, and it can be opened again.
 */
MONITOR_MUST_CHECK
uint64_t monitor_close(uint8_t *state, size_t state_len, uint64_t place);

/*
 * Takes a role into a session: the user is assigned to it or to a senior of
 * it, the session's label dominates its r-level, and its w-level dominates the
 * session's label; a free level always passes, an undefined one never. Answers
 * 21, 22, 24, 25, 27, 28 or 0.
 * Done, it changes the state only: the role is held. Taking a role that is
 * held makes the same checks, and where they pass it changes nothing.
 */
MONITOR_MUST_CHECK
uint64_t monitor_take(uint8_t *state, size_t state_len, uint64_t place,
                      uint64_t role);

/*
 * Drops a role from a session. Answers 21, 22, 24, 25 or 0.
 * Done, it changes the state only: the role is not held. Dropping a role that
 * is not held is done and changes nothing.
 */
MONITOR_MUST_CHECK
uint64_t monitor_drop(uint8_t *state, size_t state_len, uint64_t place,
                      uint64_t role);

/*
 * Whether the session at a place may read this part of a card: a role it holds
 * gives the read, itself or by a junior. Answers 21, 22, 24, 25, 29, 30, 31
 * or 0. After 0, and only then, the server hands on the part itself: length
 * bytes of its store from 64 * (card - 1) + offset. Length 0 is allowed, up to
 * offset 64. It changes nothing.
 */
MONITOR_MUST_CHECK
uint64_t monitor_read_number(const uint8_t *state, size_t state_len,
                             const uint8_t *store, size_t store_len,
                             uint64_t place, uint64_t card, uint64_t offset,
                             uint64_t length);

/*
 * Writes bytes to a card: a role that the session holds gives the write,
 * itself or by a junior. Answers 21, 22, 24, 25, 29, 30, 31 or 0; the length
 * is bytes_len. Length 0 is allowed, up to offset 64.
 * Done, it puts the bytes into the store from 64 * (card - 1) + offset and
 * changes no other byte. State and bytes are only read.
 */
MONITOR_MUST_CHECK
uint64_t monitor_write(const uint8_t *state, size_t state_len, uint8_t *store,
                       size_t store_len, uint64_t place, uint64_t card,
                       uint64_t offset, const uint8_t *bytes,
                       size_t bytes_len);

/*
 * Review. The calls from here on change nothing and look at the policy alone,
 * monitor_session_at at its place too. They look at the whole policy and are
 * the server's: a session must not be handed what they tell, its own label
 * apart.
 */

/* How many labels, roles, users and cards the file has. Answers 21 or 0. */
MONITOR_MUST_CHECK
struct monitor_counts monitor_counts_of(const uint8_t *state,
                                        size_t state_len);

/*
 * The session at a place: its user, its label and the roles held. Answers 21,
 * 22, 24 or 0. The label to print above each of the session's match lists is
 * this one.
 */
MONITOR_MUST_CHECK
struct monitor_session monitor_session_at(const uint8_t *state,
                                          size_t state_len, uint64_t place);

/* The figure is the label that the user is cleared to. Answers 21, 25 or 0. */
MONITOR_MUST_CHECK
struct monitor_figure monitor_clearance(const uint8_t *state, size_t state_len,
                                        uint64_t user);

/* The figure is the card's label. Answers 21, 25 or 0. */
MONITOR_MUST_CHECK
struct monitor_figure monitor_card_label(const uint8_t *state,
                                         size_t state_len, uint64_t card);

/*
 * The figure is the role's level. By mode 1 its r-level: the least upper bound
 * of the labels of the cards that it may read, itself or by a junior. By mode
 * 2 its w-level: the greatest lower bound of those that it may write. Where
 * there are no such cards it is free, 0; where there is no such bound it is
 * undefined, 99. Answers 21, 25 or 0.
 */
MONITOR_MUST_CHECK
struct monitor_figure monitor_level(const uint8_t *state, size_t state_len,
                                    uint64_t role, uint64_t mode);

/*
 * Figure 1 where label a dominates label b or is the same label, else 0.
 * Answers 21, 25 or 0.
 */
MONITOR_MUST_CHECK
struct monitor_figure monitor_dominates(const uint8_t *state, size_t state_len,
                                        uint64_t a, uint64_t b);

/*
 * Figure 1 where role r is senior to role q or is the same role, else 0.
 * Answers 21, 25 or 0.
 */
MONITOR_MUST_CHECK
struct monitor_figure monitor_senior(const uint8_t *state, size_t state_len,
                                     uint64_t r, uint64_t q);

/*
 * Figure 1 where the file assigns the user to this very role, else 0. Answers
 * 21, 25 or 0.
 */
MONITOR_MUST_CHECK
struct monitor_figure monitor_assigned(const uint8_t *state, size_t state_len,
                                       uint64_t user, uint64_t role);

/*
 * The set of roles that a session of the user at the label may take: those for
 * which monitor_take would answer 0. Answers 21, 25, 26 or 0.
 */
MONITOR_MUST_CHECK
struct monitor_set monitor_takable(const uint8_t *state, size_t state_len,
                                   uint64_t user, uint64_t label);

/*
 * Figure 1 where one of the roles of the set, itself or by a junior, gives a
 * session at the label that holds it the read (mode 1) or the write (mode 2)
 * of the card, else 0. Whether it may be taken there is not asked. Bits past
 * the file's roles count for nothing, and the label is tested for its range
 * and makes no other difference today. Answers 21, 25 or 0.
 */
MONITOR_MUST_CHECK
struct monitor_figure monitor_gives(const uint8_t *state, size_t state_len,
                                    uint64_t low, uint64_t high,
                                    uint64_t label, uint64_t card,
                                    uint64_t mode);

/*
 * What a user ends up with: figure 1 where a session of the user at the label
 * could be granted the read (mode 1) or the write (mode 2) of the card, that
 * is, where monitor_gives is 1 of what monitor_takable gives; else 0. Answers
 * 21, 25, 26 or 0.
 */
MONITOR_MUST_CHECK
struct monitor_figure monitor_can(const uint8_t *state, size_t state_len,
                                  uint64_t user, uint64_t label, uint64_t card,
                                  uint64_t mode);

/*
 * Role flow: figure 1 where the first role, itself or by a junior, may write a
 * card that the second, another role, may so read or write, else 0; never 1
 * for a role and itself. So two roles that may write one card flow to each
 * other, and so do a role that may write and its senior. Answers 21, 25 or 0.
 */
MONITOR_MUST_CHECK
struct monitor_figure monitor_flows(const uint8_t *state, size_t state_len,
                                    uint64_t from, uint64_t to);

/*
 * Role flow: the figure is the lowest role on a circle of two or more roles,
 * or 0 where there is none. Two roles that may write one card are a circle.
 * Answers 21 or 0.
 */
MONITOR_MUST_CHECK
struct monitor_figure monitor_circle(const uint8_t *state, size_t state_len);

/* A number in words, to stand after what was asked; never NULL. */
static inline const char *monitor_words(uint64_t number)
{
    switch (number) {
    case 0:
        return "done";
    case 1:
        return "the length is 0, not a multiple of 22, or above 63,800";
    case 2:
        return "the line is malformed, its letter is unknown, or H is not on "
               "line 1 alone";
    case 3:
        return "a count is outside its limits";
    case 4:
        return "a user, role, card, label or mode number is out of its range";
    case 5:
        return "the line is out of order or repeated";
    case 6:
        return "the user or card has no label or more than one";
    case 7:
        return "the state is shorter than 65,536 bytes";
    case 11:
        return "labels dominate each other in a circle";
    case 12:
        return "the two labels have no least upper bound";
    case 13:
        return "roles are senior to each other in a circle";
    case 14:
        return "the assigned role has an undefined w-level";
    case 15:
        return "the clearance does not dominate the r-level";
    case 16:
        return "no label dominated by the clearance lies at or above the "
               "r-level and at or below the w-level";
    case 21:
        return "the state is too short or holds a number outside its limits";
    case 22:
        return "the place is not 1 to 64";
    case 23:
        return "the place is in use";
    case 24:
        return "there is no session at the place";
    case 25:
        return "a user, label, role, card or mode number is out of range";
    case 26:
        return "the clearance does not dominate the label asked";
    case 27:
        return "neither the role nor a senior of it is assigned to the user";
    case 28:
        return "a level of the role forbids it at this label";
    case 29:
        return "no role held gives this read or write";
    case 30:
        return "offset plus length is above 64";
    case 31:
        return "the store is shorter than 64 bytes for each card";
    default:
        return "this is none of the monitor's numbers";
    }
}

#ifdef __cplusplus
}
#endif

#endif
