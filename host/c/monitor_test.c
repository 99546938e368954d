/*
 * The documents' cases about sessions, and every number of the list that a
 * session call can get, over include/monitor.h alone. Every buffer is one
 * allocation of its exact length, so that valgrind and the address sanitizer
 * see a byte too far.
 */
#include "checks.h"

#include <stdlib.h>
#include <string.h>

/* The store of a file with two cards. */
#define STORE_BYTES (2 * CARD_BYTES)

static uint64_t write_bytes(const uint8_t *state, uint8_t *store,
                            size_t store_len, uint64_t place, uint64_t card,
                            uint64_t offset, const char *text)
{
    uint8_t *bytes = copy_of(text);
    uint64_t answer = monitor_write(state, STATE_BYTES, store, store_len,
                                    place, card, offset, bytes, strlen(text));
    free(bytes);
    return answer;
}

/* A read with the whole state and store. */
static uint64_t read_number(const uint8_t *state, const uint8_t *store,
                            uint64_t place, uint64_t card, uint64_t offset,
                            uint64_t length)
{
    return monitor_read_number(state, STATE_BYTES, store, STORE_BYTES, place,
                               card, offset, length);
}

/* Document 01's example file, with the lines that the cases change apart. */
#define COUNTS "H    2    2    1    2\n"
#define DOMINANCE "D    2    1          \n"
#define SENIORITY "S    2    1          \n"
#define CLEARED_TO_1 "U    1    1          \n"
#define CLEARED_TO_2 "U    1    2          \n"
#define CLEARED_TO_3 "U    1    3          \n"
#define CARDS "O    1    1          \nO    2    2          \n"
#define ROLE_1_READS_CARD_1 "P    1    1    1     \n"
#define ROLE_1_READS_CARD_2 "P    1    2    1     \n"
#define ROLE_1_WRITES_CARD_1 "P    1    1    2     \n"
#define ROLE_1_WRITES_CARD_2 "P    1    2    2     \n"
#define ROLE_2_WRITES_CARD_1 "P    2    1    2     \n"
#define ROLE_2_WRITES_CARD_2 "P    2    2    2     \n"
#define ASSIGNED_ROLE_1 "A    1    1          \n"
#define ASSIGNED_ROLE_2 "A    1    2          \n"

static const char example[] = COUNTS DOMINANCE SENIORITY CLEARED_TO_2 CARDS
    ROLE_1_READS_CARD_1 ROLE_2_WRITES_CARD_2 ASSIGNED_ROLE_2;

/* "user 1 cleared to 1 instead" */
static const char cleared_to_1[] = COUNTS DOMINANCE SENIORITY CLEARED_TO_1 CARDS
    ROLE_1_READS_CARD_1 ROLE_2_WRITES_CARD_2 ASSIGNED_ROLE_2;

/* "role 2 writing card 1 too" */
static const char reviewer[] = COUNTS DOMINANCE SENIORITY CLEARED_TO_2 CARDS
    ROLE_1_READS_CARD_1 ROLE_2_WRITES_CARD_1 ROLE_2_WRITES_CARD_2
        ASSIGNED_ROLE_2;

/* Three labels, 1 and 2 under 3 and none under both; one role. */
#define APART                                                                  \
    "H    3    1    1    2\nD    3    1          \nD    3    2          \n"

/* 14 to 16. */
static void assignments(uint8_t *state)
{
    verdict(load(APART CLEARED_TO_3 CARDS ROLE_1_WRITES_CARD_1
                     ROLE_1_WRITES_CARD_2 ASSIGNED_ROLE_1,
                 state),
            14, 1, 1, "an assigned role that writes at 1 and 2: 14");
    verdict(load(COUNTS DOMINANCE SENIORITY CLEARED_TO_1 CARDS
                     ROLE_1_READS_CARD_1 ROLE_1_READS_CARD_2
                         ROLE_2_WRITES_CARD_2 ASSIGNED_ROLE_2,
                 state),
            15, 1, 2, "and role 1 reading card 2 as well: 15 at [1, 2]");
    verdict(load(COUNTS DOMINANCE SENIORITY CLEARED_TO_2 CARDS
                     ROLE_1_READS_CARD_1 ROLE_1_READS_CARD_2
                         ROLE_2_WRITES_CARD_1 ASSIGNED_ROLE_2,
                 state),
            16, 1, 2, "role 2 reading card 2 and writing card 1: 16 at [1, 2]");
    verdict(load(APART CLEARED_TO_1 CARDS ROLE_1_WRITES_CARD_2 ASSIGNED_ROLE_1,
                 state),
            16, 1, 1, "no label under clearance 1 and w-level 2: 16 at [1, 1]");
}

static void files(void)
{
    uint8_t *state = bytes_of(STATE_BYTES, 0xa5);
    about = "files";
    verdict(load(COUNTS SENIORITY CLEARED_TO_2 CARDS ROLE_1_READS_CARD_1
                     ROLE_2_WRITES_CARD_2 ASSIGNED_ROLE_2,
                 state),
            12, 1, 2, "the example without its D line: 12 at [1, 2]");
    assignments(state);
    verdict(load(COUNTS "D    1    1          \n" DOMINANCE SENIORITY
                     CLEARED_TO_2 CARDS ROLE_1_READS_CARD_1
                         ROLE_2_WRITES_CARD_2 ASSIGNED_ROLE_2,
                 state),
            11, 1, 0, "D 1 1 in front: 11 at [1, 0]");
    verdict(load("H   33    0    0    0\n", state), 3, 1, 0,
            "only H with 33 labels: 3 at [1, 0]");
    verdict(load("", state), 1, 0, 0, "an empty file: 1");
    verdict(load(COUNTS "X    2    1          \n", state), 2, 2, 0,
            "an unknown letter: 2 at [2, 0]");
    verdict(load(COUNTS "D    2    3          \n", state), 4, 2, 0,
            "a label out of its range: 4 at [2, 0]");
    verdict(load(COUNTS DOMINANCE DOMINANCE, state), 5, 3, 0,
            "a line repeated: 5 at [3, 0]");
    verdict(load(COUNTS DOMINANCE SENIORITY CARDS, state), 6, 1, 1,
            "user 1 without a clearance: 6 at [1, 1]");
    verdict(load(COUNTS DOMINANCE SENIORITY CLEARED_TO_2
                 "O    1    1          \n",
                 state),
            6, 2, 2, "card 2 without a label: 6 at [2, 2]");
    verdict(load(COUNTS DOMINANCE "S    2    2          \n" CLEARED_TO_2 CARDS,
                 state),
            13, 2, 0, "S 2 2: 13 at [2, 0]");
    check(all_bytes_are(state, STATE_BYTES, 0xa5),
          "refused loads leave every byte of the state");
    accepted("H    1    0    0    0\n", state,
             "only H with counts 1 0 0 0: accepted");
    accepted(cleared_to_1, state, "user 1 cleared to 1 instead: accepted");
    accepted(example, state, "the example: accepted");
    free(state);
}

/* "user 1 at label 1 takes role 2, writes card 2: 0, reads card 2: 29" */
static void writing_up(const char *file, const char *name)
{
    uint8_t *state = bytes_of(STATE_BYTES, 0);
    uint8_t *store = bytes_of(STORE_BYTES, '.');
    about = name;
    accepted(file, state, "the file is accepted");
    number(monitor_open(state, STATE_BYTES, 1, 1, 1), 0,
           "user 1 opens place 1 at label 1");
    number(monitor_take(state, STATE_BYTES, 1, 2), 0, "takes role 2");
    number(write_bytes(state, store, STORE_BYTES, 1, 2, 0, "valve"), 0,
           "writes card 2");
    check(all_bytes_are(store, CARD_BYTES, '.') &&
              memcmp(store + CARD_BYTES, "valve", 5) == 0 &&
              all_bytes_are(store + CARD_BYTES + 5, CARD_BYTES - 5, '.'),
          "the store holds the bytes and is else as it was");
    number(read_number(state, store, 1, 2, 0, 5), 29, "reads card 2: 29");
    number(read_number(state, store, 1, 1, 0, 64), 0,
           "reads card 1 by its junior role 1");
    free(state);
    free(store);
}

/* "A reviewer with a high clearance opens a low session to correct a published
   card" (document 02). */
static void correcting_a_low_card(void)
{
    uint8_t *state = bytes_of(STATE_BYTES, 0);
    uint8_t *store = bytes_of(STORE_BYTES, '.');
    about = "correcting a low card";
    accepted(reviewer, state, "role 2 writing card 1 too: accepted");
    number(monitor_open(state, STATE_BYTES, 1, 1, 1), 0,
           "user 1, cleared to 2, opens place 1 at label 1");
    number(monitor_take(state, STATE_BYTES, 1, 2), 0, "takes role 2");
    number(write_bytes(state, store, STORE_BYTES, 1, 1, 0, "valve"), 0,
           "writes card 1");
    check(memcmp(store, "valve", 5) == 0 &&
              all_bytes_are(store + 5, STORE_BYTES - 5, '.'),
          "the store holds the bytes and is else as it was");
    number(monitor_open(state, STATE_BYTES, 2, 1, 2), 0,
           "user 1 opens place 2 at label 2");
    number(monitor_take(state, STATE_BYTES, 2, 2), 28,
           "28: role 2 writes at label 1");
    number(monitor_take(state, STATE_BYTES, 2, 1), 0,
           "takes role 1, which writes nothing");
    number(write_bytes(state, store, STORE_BYTES, 2, 1, 0, "x"), 29,
           "and may not write card 1");
    figure(monitor_can(state, STATE_BYTES, 1, 1, 1, MONITOR_WRITE), 0, 1,
           "at label 1, write card 1");
    figure(monitor_can(state, STATE_BYTES, 1, 2, 1, MONITOR_WRITE), 0, 0,
           "at label 2, not write card 1");
    free(state);
    free(store);
}

/* "offset 60, length 4: 0; length 5: 30; offset 64, length 0: 0" */
static void offset_and_length(void)
{
    uint8_t *state = bytes_of(STATE_BYTES, 0);
    uint8_t *store = bytes_of(STORE_BYTES, '.');
    static const struct {
        uint64_t offset, length, expected;
        const char *what;
    } reads[] = {
        {60, 4, 0, "read, offset 60, length 4: 0"},
        {60, 5, 30, "read, offset 60, length 5: 30"},
        {64, 0, 0, "read, offset 64, length 0: 0"},
        {65, 0, 30, "read, offset 65, length 0: 30"},
        {FARTHEST, 1, 30, "read, offset 2^64 - 1, length 1: 30"},
        {1, FARTHEST, 30, "read, offset 1, length 2^64 - 1: 30"},
        {(uint64_t)1 << 63, (uint64_t)1 << 63, 30,
         "read, offset 2^63, length 2^63: 30"},
    };
    about = "offset and length";
    accepted(example, state, "the example: accepted");
    number(monitor_open(state, STATE_BYTES, 64, 1, 2), 0,
           "user 1 opens place 64 at label 2");
    number(monitor_take(state, STATE_BYTES, 64, 2), 0, "takes role 2");
    for (size_t at = 0; at < sizeof reads / sizeof reads[0]; at++) {
        number(read_number(state, store, 64, 1, reads[at].offset,
                           reads[at].length),
               reads[at].expected, reads[at].what);
    }
    number(write_bytes(state, store, STORE_BYTES, 64, 2, 60, "hose"), 0,
           "write, offset 60, length 4: 0");
    check(all_bytes_are(store, STORE_BYTES - 4, '.') &&
              memcmp(store + STORE_BYTES - 4, "hose", 4) == 0,
          "the last four bytes of card 2, no other");
    number(write_bytes(state, store, STORE_BYTES, 64, 2, 60, "HOSES"), 30,
           "write, offset 60, length 5: 30");
    number(write_bytes(state, store, STORE_BYTES, 64, 2, 64, ""), 0,
           "write, offset 64, length 0: 0");
    number(write_bytes(state, store, STORE_BYTES, 64, 2, FARTHEST, "X"), 30,
           "write, offset 2^64 - 1, length 1: 30");
    check(memcmp(store + STORE_BYTES - 4, "hose", 4) == 0,
          "the store is as it was");
    free(state);
    free(store);
}

static void opening_and_closing(void)
{
    uint8_t *state = bytes_of(STATE_BYTES, 0);
    uint8_t *before = bytes_of(STATE_BYTES, 0);
    uint8_t *store = bytes_of(STORE_BYTES, '.');
    int all_open = 1;
    int all_closed = 1;
    about = "opening and closing";
    accepted(example, state, "the example: accepted");
    for (uint64_t place = 1; place <= 64; place++) {
        all_open &= monitor_open(state, STATE_BYTES, place, 1, 1) == 0;
    }
    check(all_open, "places 1 to 64 open");
    number(monitor_take(state, STATE_BYTES, 7, 2), 0, "place 7 takes role 2");
    memcpy(before, state, STATE_BYTES);
    number(monitor_take(state, STATE_BYTES, 7, 2), 0, "and takes it again");
    number(monitor_drop(state, STATE_BYTES, 7, 1), 0,
           "and drops role 1, which it doesn't hold");
    check(memcmp(before, state, STATE_BYTES) == 0, "which changes nothing");
    number(read_number(state, store, 8, 1, 0, 64), 29,
           "place 8 has none of place 7's roles");
    number(monitor_drop(state, STATE_BYTES, 7, 2), 0, "place 7 drops role 2");
    number(read_number(state, store, 7, 1, 0, 64), 29, "and may read no more");
    number(monitor_take(state, STATE_BYTES, 7, 2), 0, "and takes it again");
    number(monitor_close(state, STATE_BYTES, 7), 0, "place 7 closes");
    number(monitor_close(state, STATE_BYTES, 7), 24, "and can't close twice");
    number(monitor_open(state, STATE_BYTES, 7, 1, 2), 0,
           "and can be opened again");
    number(read_number(state, store, 7, 1, 0, 64), 29, "with no roles");
    memcpy(before, state, STATE_BYTES);
    verdict(load("H   33    0    0    0\n", state), 3, 1, 0,
            "a load is refused");
    check(memcmp(before, state, STATE_BYTES) == 0,
          "and every session is what it was");
    accepted(example, state, "a load is done");
    for (uint64_t place = 1; place <= 64; place++) {
        all_closed &= monitor_close(state, STATE_BYTES, place) == 24;
    }
    check(all_closed, "and all sessions are closed");
    free(state);
    free(before);
    free(store);
}

/* 7 and 22 to 26 and 29: user 1, cleared to 1, is at place 1, label 1. */
static void numbers_without_a_role(uint8_t *state, uint8_t *store)
{
    uint8_t *before = bytes_of(STATE_BYTES, 0);
    uint8_t *file = copy_of(example);
    memcpy(before, state, STATE_BYTES);
    /* The state is a byte short. */
    verdict(monitor_load(file, sizeof example - 1, state, STATE_BYTES - 1), 7,
            0, 0, "7: load with a state one byte short");
    /* Places are numbered from 1 to 64. */
    number(monitor_open(state, STATE_BYTES, 0, 1, 1), 22, "22: open place 0");
    number(monitor_close(state, STATE_BYTES, 65), 22, "22: close place 65");
    /* Place 1 is open. */
    number(monitor_open(state, STATE_BYTES, 1, 1, 1), 23,
           "23: open a place in use");
    /* Nobody opened place 2. */
    number(monitor_take(state, STATE_BYTES, 2, 1), 24,
           "24: take a role at a place without a session");
    /* The file has one user, two labels, two roles and two cards. */
    number(monitor_open(state, STATE_BYTES, 2, 2, 1), 25, "25: user 2");
    number(monitor_open(state, STATE_BYTES, 2, 1, 3), 25, "25: label 3");
    number(monitor_take(state, STATE_BYTES, 1, 3), 25, "25: role 3");
    number(read_number(state, store, 1, 3, 0, 1), 25, "25: card 3");
    figure(monitor_flows(state, STATE_BYTES, 1, 0), 25, 0,
           "25: flows to role 0, figure 0");
    /* Clearance 1 doesn't dominate label 2. */
    number(monitor_open(state, STATE_BYTES, 2, 1, 2), 26,
           "26: user 1, cleared to 1, at label 2");
    /* Role 2 would give the write; it isn't held yet. */
    number(write_bytes(state, store, STORE_BYTES, 1, 2, 0, "x"), 29,
           "29: write without a role");
    check(memcmp(before, state, STATE_BYTES) == 0,
          "refusals leave every byte of the state");
    free(before);
    free(file);
}

/* 30 and 31 at the same place. */
static void numbers_with_a_role(uint8_t *state, uint8_t *store)
{
    number(monitor_take(state, STATE_BYTES, 1, 2), 0, "place 1 takes role 2");
    /* A card has 64 bytes. */
    number(write_bytes(state, store, STORE_BYTES, 1, 2, 64, "x"), 30,
           "30: write at offset 64");
    /* Two cards are 128 bytes. */
    number(write_bytes(state, store, STORE_BYTES - 1, 1, 2, 0, "x"), 31,
           "31: write with a store one byte short");
    number(monitor_read_number(state, STATE_BYTES, store, CARD_BYTES, 1, 1, 0,
                               1),
           31, "31: read card 1 of a store with card 1 only");
    check(all_bytes_are(store, STORE_BYTES, '.'),
          "refusals leave every byte of the store");
}

/* 27 and 28. */
static void numbers_of_taking(uint8_t *state)
{
    /* User 1 is assigned to role 1; role 2 is its senior, not its junior. */
    accepted(COUNTS DOMINANCE SENIORITY CLEARED_TO_2 CARDS ROLE_1_READS_CARD_1
                 ROLE_2_WRITES_CARD_2 ASSIGNED_ROLE_1,
             state, "user 1 assigned to role 1 instead: accepted");
    number(monitor_open(state, STATE_BYTES, 1, 1, 1), 0, "user 1 at label 1");
    number(monitor_take(state, STATE_BYTES, 1, 2), 27,
           "27: take a senior of the role assigned");

    /* Role 1 reads card 2 of label 2. Clearance 2 would dominate it; the
       session's label 1 doesn't. */
    accepted(COUNTS DOMINANCE SENIORITY CLEARED_TO_2 CARDS ROLE_1_READS_CARD_1
                 ROLE_1_READS_CARD_2 ROLE_2_WRITES_CARD_2 ASSIGNED_ROLE_2,
             state, "role 1 reading card 2 as well: accepted");
    number(monitor_open(state, STATE_BYTES, 1, 1, 1), 0, "user 1 at label 1");
    number(monitor_take(state, STATE_BYTES, 1, 2), 28,
           "28: take a role that reads at label 2");
    number(monitor_open(state, STATE_BYTES, 2, 1, 2), 0, "user 1 at label 2");
    number(monitor_take(state, STATE_BYTES, 2, 2), 0, "takes the role there");
}

/* Every number of the list that doesn't come from a file, once. */
static void every_number(void)
{
    uint8_t *state = bytes_of(STATE_BYTES, 0);
    uint8_t *store = bytes_of(STORE_BYTES, '.');
    about = "numbers";
    /* A zeroed state has 0 labels. */
    number(monitor_open(state, STATE_BYTES, 1, 1, 1), 21,
           "21: open with a zeroed state");
    figure(monitor_circle(state, STATE_BYTES), 21, 0,
           "21: circle with a zeroed state, figure 0");
    check(all_bytes_are(state, STATE_BYTES, 0), "which stays zeroed");
    accepted(cleared_to_1, state, "user 1 cleared to 1 instead: accepted");
    number(monitor_open(state, STATE_BYTES, 1, 1, 1), 0,
           "user 1 opens place 1 at label 1");
    numbers_without_a_role(state, store);
    numbers_with_a_role(state, store);
    numbers_of_taking(state);
    /* Role 2 writes card 2, and role 1 reads it. */
    figure(monitor_flows(state, STATE_BYTES, 2, 1), 0, 1,
           "role 2 flows to role 1");
    figure(monitor_flows(state, STATE_BYTES, 1, 2), 0, 0,
           "role 1 doesn't flow to role 2");
    figure(monitor_flows(state, STATE_BYTES, 2, 2), 0, 0,
           "role 2 never flows to itself");
    figure(monitor_circle(state, STATE_BYTES), 0, 0, "no circle");
    free(state);
    free(store);
}

/* "Other calls check in order of number": what else is wrong comes later. */
static void order_of_numbers(void)
{
    uint8_t *state = bytes_of(STATE_BYTES, 0);
    about = "order of numbers";
    accepted(example, state, "the example: accepted");
    number(monitor_open(state, STATE_BYTES, 65, FARTHEST, FARTHEST), 22,
           "open: 22 before 25");
    number(monitor_take(state, STATE_BYTES, 1, FARTHEST), 24,
           "take: 24 before 25");
    number(monitor_drop(state, STATE_BYTES, 1, 0), 24, "drop: 24 before 25");
    number(monitor_read_number(state, STATE_BYTES, NULL, 0, 1, FARTHEST,
                               FARTHEST, FARTHEST),
           24, "read: 24 before 25, 30 and 31");
    number(monitor_open(state, STATE_BYTES, 1, 1, 1), 0, "user 1 at label 1");
    number(monitor_open(state, STATE_BYTES, 1, FARTHEST, FARTHEST), 23,
           "open: 23 before 25");
    number(monitor_read_number(state, STATE_BYTES, NULL, 0, 1, FARTHEST,
                               FARTHEST, FARTHEST),
           25, "read: 25 before 29, 30 and 31");
    number(monitor_read_number(state, STATE_BYTES, NULL, 0, 1, 1, FARTHEST,
                               FARTHEST),
           29, "read: 29 before 30 and 31");
    number(monitor_take(state, STATE_BYTES, 1, 1), 0,
           "takes role 1, a junior of the role assigned");
    number(monitor_read_number(state, STATE_BYTES, NULL, 0, 1, 1, FARTHEST,
                               FARTHEST),
           30, "read: 30 before 31");
    number(monitor_read_number(state, STATE_BYTES, NULL, 0, 1, 1, 0, 0), 31,
           "read: 31, also of no bytes");
    free(state);
}

/*
 * Circles of role flow: role 2 writes card 1 for 3, role 3 card 2 for 2; and
 * roles 2 and 3 write card 1, which nobody reads.
 */
static void role_flow(void)
{
    uint8_t *state = bytes_of(STATE_BYTES, 0);
    about = "role flow";
    accepted("H    1    3    0    2\n"
             "O    1    1          \n"
             "O    2    1          \n"
             "P    2    1    2     \n"
             "P    2    2    1     \n"
             "P    3    1    1     \n"
             "P    3    2    2     \n",
             state, "two roles that write for each other: accepted");
    figure(monitor_flows(state, STATE_BYTES, 2, 3), 0, 1,
           "role 2 flows to role 3");
    figure(monitor_flows(state, STATE_BYTES, 3, 2), 0, 1,
           "role 3 flows to role 2");
    figure(monitor_circle(state, STATE_BYTES), 0, 2, "a circle at role 2");
    accepted("H    1    3    0    2\n"
             "O    1    1          \n"
             "O    2    1          \n"
             "P    1    2    2     \n"
             "P    2    1    2     \n"
             "P    3    1    2     \n",
             state, "two roles that write one card: accepted");
    figure(monitor_flows(state, STATE_BYTES, 2, 3), 0, 1,
           "role 2 flows to role 3, which writes that card too");
    figure(monitor_flows(state, STATE_BYTES, 3, 2), 0, 1,
           "and role 3 to role 2");
    figure(monitor_flows(state, STATE_BYTES, 1, 1), 0, 0,
           "role 1 writes alone and does not flow to itself");
    figure(monitor_circle(state, STATE_BYTES), 0, 2,
           "the two are a circle");
    free(state);
}

/* What user 1 of the example could be granted. Role 2 is assigned; its r-level
   is 1 and its w-level is 2, so it may be taken at both labels. It writes card
   2, and reads card 1 by role 1. */
static void what_a_user_can(void)
{
    uint8_t *state = bytes_of(STATE_BYTES, 0);
    uint8_t *before = bytes_of(STATE_BYTES, 0);
    about = "what a user can";
    accepted(example, state, "the example: accepted");
    memcpy(before, state, STATE_BYTES);
    figure(monitor_can(state, STATE_BYTES, 1, 1, 2, 2), 0, 1,
           "at label 1, write card 2");
    figure(monitor_can(state, STATE_BYTES, 1, 1, 2, 1), 0, 0,
           "at label 1, not read card 2");
    figure(monitor_can(state, STATE_BYTES, 1, 1, 1, 1), 0, 1,
           "at label 1, read card 1");
    figure(monitor_can(state, STATE_BYTES, 1, 1, 1, 2), 0, 0,
           "at label 1, not write card 1");
    figure(monitor_can(state, STATE_BYTES, 1, 2, 2, 2), 0, 1,
           "at label 2, write card 2");
    figure(monitor_can(state, STATE_BYTES, 2, 1, 2, 2), 25, 0, "25: user 2");
    figure(monitor_can(state, STATE_BYTES, 1, 3, 2, 2), 25, 0, "25: label 3");
    figure(monitor_can(state, STATE_BYTES, 1, 1, 3, 2), 25, 0, "25: card 3");
    figure(monitor_can(state, STATE_BYTES, 1, 1, 2, 0), 25, 0, "25: mode 0");
    figure(monitor_can(state, STATE_BYTES, 1, 1, 2, 3), 25, 0, "25: mode 3");
    figure(monitor_can(state, STATE_BYTES, FARTHEST, FARTHEST, FARTHEST,
                       FARTHEST),
           25, 0, "25: all numbers too high");
    check(memcmp(before, state, STATE_BYTES) == 0,
          "every byte of the state is as it was");

    accepted(cleared_to_1, state, "user 1 cleared to 1 instead: accepted");
    figure(monitor_can(state, STATE_BYTES, 1, 1, 2, 2), 0, 1,
           "at label 1, write card 2");
    figure(monitor_can(state, STATE_BYTES, 1, 2, 2, 2), 26, 0,
           "26: at label 2, figure 0");
    figure(monitor_can(state, STATE_BYTES, 1, 2, 2, 3), 25, 0,
           "25 before 26: at label 2, mode 3");
    free(state);
    free(before);
}

/* Every call with a state that is too short. */
static void calls_with_short_state(uint8_t *state, size_t length,
                                   uint8_t *store)
{
    uint8_t byte = 'x';
    verdict(monitor_load((const uint8_t *)example, sizeof example - 1,
                         state, length),
            7, 0, 0, "load: 7");
    verdict(monitor_load(NULL, 0, state, length), 7, 0, 0,
            "load of nothing: 7 before 1");
    number(monitor_open(state, length, 0, 0, 0), 21,
           "open: 21 before all others");
    number(monitor_close(state, length, 1), 21, "close: 21");
    number(monitor_take(state, length, 1, 2), 21, "take: 21");
    number(monitor_drop(state, length, 1, 2), 21, "drop: 21");
    number(monitor_read_number(state, length, store, STORE_BYTES, 1, 1, 0,
                               1),
           21, "read: 21");
    number(monitor_read_number(state, length, NULL, 0, 1, 1, 0, 1), 21,
           "read without a store: 21");
    number(monitor_write(state, length, store, STORE_BYTES, 1, 2, 0, &byte,
                         1),
           21, "write: 21");
    figure(monitor_flows(state, length, 1, 2), 21, 0, "flows: 21");
    figure(monitor_circle(state, length), 21, 0, "circle: 21");
    figure(monitor_can(state, length, 1, 1, 2, 2), 21, 0, "can: 21");
    figure(monitor_can(state, length, 0, 0, 0, 0), 21, 0,
           "can: 21 before 25");
}

static void null_beside_a_whole_state(uint8_t *state, uint8_t *store)
{
    uint8_t byte = 'x';
    about = "NULL with length 0 beside a whole state";
    verdict(monitor_load(NULL, 0, state, STATE_BYTES), 1, 0, 0,
            "no file: 1");
    number(monitor_read_number(state, STATE_BYTES, NULL, 0, 1, 1, 0, 1), 31,
           "read without a store: 31");
    number(monitor_write(state, STATE_BYTES, NULL, 0, 1, 2, 0, &byte, 1), 31,
           "write without a store: 31");
    number(monitor_write(state, STATE_BYTES, store, STORE_BYTES, 1, 2, 64, NULL,
                         0),
           0, "write of no bytes at offset 64: 0");
    number(monitor_write(state, STATE_BYTES, store, STORE_BYTES, 1, 2, 65, NULL,
                         0),
           30, "write of no bytes at offset 65: 30");
    check(all_bytes_are(store, STORE_BYTES, '.'), "the store is as it was");
}

/* The first 65,536 bytes are used where more are lent. */
static void long_state(const uint8_t *whole)
{
    uint8_t *longer = bytes_of(STATE_BYTES + 100, 0x5a);
    about = "a state with bytes to spare";
    verdict(monitor_load((const uint8_t *)example, sizeof example - 1, longer,
                         STATE_BYTES + 100),
            0, 0, 0, "load: 0");
    number(monitor_open(longer, STATE_BYTES + 100, 1, 1, 1), 0, "open: 0");
    number(monitor_take(longer, STATE_BYTES + 100, 1, 2), 0, "take: 0");
    check(memcmp(longer, whole, STATE_BYTES) == 0,
          "the first 65,536 bytes are those of the other state");
    check(all_bytes_are(longer + STATE_BYTES, 100, 0x5a),
          "the bytes past 65,536 are as they were");
    free(longer);
}

/* Every call with no state, with a state one byte short, and with NULL; then
   the first calls with a longer one. */
static void short_and_long_buffers(void)
{
    uint8_t *whole = bytes_of(STATE_BYTES, 0);
    uint8_t *store = bytes_of(STORE_BYTES, '.');
    about = "a whole state";
    accepted(example, whole, "the example: accepted");
    number(monitor_open(whole, STATE_BYTES, 1, 1, 1), 0, "user 1 at label 1");
    number(monitor_take(whole, STATE_BYTES, 1, 2), 0, "takes role 2");

    uint8_t *short_by_one = bytes_of(STATE_BYTES - 1, 0);
    memcpy(short_by_one, whole, STATE_BYTES - 1);
    about = "a state one byte short";
    calls_with_short_state(short_by_one, STATE_BYTES - 1, store);
    about = "a state of length 0";
    calls_with_short_state(whole, 0, store);
    about = "NULL with length 0 as state";
    calls_with_short_state(NULL, 0, store);
    about = "a state one byte short";
    check(memcmp(short_by_one, whole, STATE_BYTES - 1) == 0,
          "every byte is as it was");
    null_beside_a_whole_state(whole, store);
    long_state(whole);
    free(short_by_one);
    free(whole);
    free(store);
}

int main(void)
{
    files();
    writing_up(example, "the example");
    writing_up(cleared_to_1, "user 1 cleared to 1 instead");
    correcting_a_low_card();
    offset_and_length();
    opening_and_closing();
    every_number();
    order_of_numbers();
    role_flow();
    what_a_user_can();
    short_and_long_buffers();
    header_tests();
    review_tests();
    return outcome();
}
