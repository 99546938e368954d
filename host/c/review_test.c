/*
 * The review calls over a small file made by hand, with roles above 64: each
 * number and each figure, and that no byte changes.
 */
#include "checks.h"
#include "largest.h"

#include <stdlib.h>
#include <string.h>

/* Labels 1 and 2 have nothing below them, 3 is above both and 4 above 3.
   Role 70 is senior to 66, and 66 to 1. Role 5 writes at labels 1 and 2, which
   have no lower bound. User 3 is assigned to no role. */
static const char reviewed[] = "H    4   70    3    4\n"
                               "D    3    1          \n"
                               "D    3    2          \n"
                               "D    4    3          \n"
                               "S   66    1          \n"
                               "S   70   66          \n"
                               "U    1    3          \n"
                               "U    2    1          \n"
                               "U    3    4          \n"
                               "O    1    1          \n"
                               "O    2    2          \n"
                               "O    3    3          \n"
                               "O    4    4          \n"
                               "P    1    1    1     \n"
                               "P    5    1    2     \n"
                               "P    5    2    2     \n"
                               "P   64    3    1     \n"
                               "P   65    2    1     \n"
                               "P   66    4    2     \n"
                               "P   70    3    2     \n"
                               "A    1   64          \n"
                               "A    1   65          \n"
                               "A    1   70          \n"
                               "A    2   66          \n";

/* A role as a bit of the half that it stands in. */
#define LOW(role) ((uint64_t)1 << ((role)-1))
#define HIGH(role) ((uint64_t)1 << ((role)-65))

/* The state of `reviewed`, between bytes that no call may touch. */
#define CANARY_BYTES 32u
static uint8_t *lent;
static uint8_t *state;

static int same_counts(struct monitor_counts answer, uint64_t number,
                       uint64_t labels, uint64_t roles, uint64_t users,
                       uint64_t cards)
{
    return answer.number == number && answer.labels == labels &&
           answer.roles == roles && answer.users == users &&
           answer.cards == cards;
}

static int same_session(struct monitor_session answer, uint64_t number,
                        uint64_t user, uint64_t label, uint64_t low,
                        uint64_t high)
{
    return answer.number == number && answer.user == user &&
           answer.label == label && answer.low == low && answer.high == high;
}

static int same_set(struct monitor_set answer, uint64_t number, uint64_t low,
                    uint64_t high)
{
    return answer.number == number && answer.low == low && answer.high == high;
}

static void counts(void)
{
    uint8_t *file = bytes_of(MONITOR_FILE_BYTES, 0);
    uint8_t *other = bytes_of(STATE_BYTES, 0);
    about = "counts_of";
    check(same_counts(monitor_counts_of(state, STATE_BYTES), 0, 4, 70, 3, 4),
          "4 labels, 70 roles, 3 users, 4 cards");
    accepted("H    1    0    0    0\n", other, "only H with counts 1 0 0 0");
    check(same_counts(monitor_counts_of(other, STATE_BYTES), 0, 1, 0, 0, 0),
          "1 label and nothing else");
    write_largest(file);
    verdict(monitor_load(file, MONITOR_FILE_BYTES, other, STATE_BYTES), 0, 0, 0,
            "the largest counts and 2,900 lines: accepted");
    check(same_counts(monitor_counts_of(other, STATE_BYTES), 0, 32, 128, 256,
                      512),
          "32 labels, 128 roles, 256 users, 512 cards");
    number(monitor_open(other, STATE_BYTES, 1, 256, 16), 0, "user 256 opens");
    check(same_session(monitor_session_at(other, STATE_BYTES, 1), 0, 256, 16, 0,
                       0),
          "and is the user of the session");
    free(file);
    free(other);
}

static void sessions(void)
{
    about = "session_at";
    check(same_session(monitor_session_at(state, STATE_BYTES, 64), 24, 0, 0, 0,
                       0),
          "24: place 64 is empty");
    number(monitor_open(state, STATE_BYTES, 64, 1, 3), 0,
           "user 1 opens place 64 at label 3");
    check(same_session(monitor_session_at(state, STATE_BYTES, 64), 0, 1, 3, 0,
                       0),
          "user 1, label 3, no roles");
    number(monitor_take(state, STATE_BYTES, 64, 64), 0, "takes role 64");
    number(monitor_take(state, STATE_BYTES, 64, 65), 0, "takes role 65");
    number(monitor_take(state, STATE_BYTES, 64, 70), 0, "takes role 70");
    check(same_session(monitor_session_at(state, STATE_BYTES, 64), 0, 1, 3,
                       LOW(64), HIGH(65) | HIGH(70)),
          "roles 64, 65 and 70");
    number(monitor_drop(state, STATE_BYTES, 64, 64), 0, "drops role 64");
    check(same_session(monitor_session_at(state, STATE_BYTES, 64), 0, 1, 3, 0,
                       HIGH(65) | HIGH(70)),
          "roles 65 and 70");
    check(same_session(monitor_session_at(state, STATE_BYTES, 63), 24, 0, 0, 0,
                       0),
          "24: the place before is empty");
    check(same_session(monitor_session_at(state, STATE_BYTES, 0), 22, 0, 0, 0,
                       0) &&
              same_session(monitor_session_at(state, STATE_BYTES, 65), 22, 0, 0,
                           0, 0) &&
              same_session(monitor_session_at(state, STATE_BYTES, FARTHEST), 22,
                           0, 0, 0, 0),
          "22: places 0, 65 and 2^64 - 1");
    number(monitor_close(state, STATE_BYTES, 64), 0, "place 64 closes");
    check(same_session(monitor_session_at(state, STATE_BYTES, 64), 24, 0, 0, 0,
                       0),
          "24: place 64 is empty again");
}

/* The label is the session's, and not what its user is cleared to. */
static void session_below_clearance(void)
{
    number(monitor_open(state, STATE_BYTES, 1, 1, 2), 0,
           "user 1, cleared to 3, opens place 1 at label 2");
    check(same_session(monitor_session_at(state, STATE_BYTES, 1), 0, 1, 2, 0,
                       0),
          "user 1, label 2");
}

static void labels(void)
{
    static const char *const dominance[] = {"1000", "0100", "1110", "1111"};
    static const uint64_t cleared[] = {3, 1, 4};
    int all = 1;
    about = "clearance, card_label, dominates";
    for (uint64_t at = 0; at < 16; at++) {
        struct monitor_figure answer = monitor_dominates(
            state, STATE_BYTES, at / 4 + 1, at % 4 + 1);
        all &= answer.number == 0 &&
               answer.figure == (dominance[at / 4][at % 4] == '1');
    }
    check(all, "dominance of all pairs");
    for (uint64_t user = 1; user <= 3; user++) {
        figure(monitor_clearance(state, STATE_BYTES, user), 0,
               cleared[user - 1], "the clearance of a user");
    }
    for (uint64_t card = 1; card <= 4; card++) {
        figure(monitor_card_label(state, STATE_BYTES, card), 0, card,
               "the label of a card");
    }
    figure(monitor_clearance(state, STATE_BYTES, 0), 25, 0, "25: user 0");
    figure(monitor_clearance(state, STATE_BYTES, 4), 25, 0, "25: user 4");
    figure(monitor_clearance(state, STATE_BYTES, FARTHEST), 25, 0,
           "25: user 2^64 - 1");
    figure(monitor_card_label(state, STATE_BYTES, 0), 25, 0, "25: card 0");
    figure(monitor_card_label(state, STATE_BYTES, 5), 25, 0, "25: card 5");
    figure(monitor_dominates(state, STATE_BYTES, 0, 1), 25, 0, "25: label 0");
    figure(monitor_dominates(state, STATE_BYTES, 5, 1), 25, 0, "25: label 5");
    figure(monitor_dominates(state, STATE_BYTES, 1, 5), 25, 0,
           "25: label 5 as the second");
}

static void levels(void)
{
    static const struct {
        uint64_t role, read, write;
    } expected[] = {
        {1, 1, 0},  {2, 0, 0},  {5, 0, 99}, {64, 3, 0},
        {65, 2, 0}, {66, 1, 4}, {70, 1, 3},
    };
    about = "level";
    for (size_t at = 0; at < sizeof expected / sizeof expected[0]; at++) {
        figure(monitor_level(state, STATE_BYTES, expected[at].role,
                             MONITOR_READ),
               0, expected[at].read, "r-level");
        figure(monitor_level(state, STATE_BYTES, expected[at].role,
                             MONITOR_WRITE),
               0, expected[at].write, "w-level");
    }
    figure(monitor_level(state, STATE_BYTES, 0, 1), 25, 0, "25: role 0");
    figure(monitor_level(state, STATE_BYTES, 71, 1), 25, 0, "25: role 71");
    figure(monitor_level(state, STATE_BYTES, 1, 0), 25, 0, "25: mode 0");
    figure(monitor_level(state, STATE_BYTES, 1, 3), 25, 0, "25: mode 3");
}

/* Whether a role is the same as another or senior to it, by the S lines. */
static int senior_by_hand(uint64_t r, uint64_t q)
{
    return r == q || (r == 66 && q == 1) || (r == 70 && (q == 66 || q == 1));
}

/* Whether a user is assigned to a role, by the A lines. */
static int assigned_by_hand(uint64_t user, uint64_t role)
{
    return (user == 1 && (role == 64 || role == 65 || role == 70)) ||
           (user == 2 && role == 66);
}

static void roles(void)
{
    int all = 1;
    about = "senior, assigned";
    for (uint64_t at = 0; at < 70 * 70; at++) {
        uint64_t r = at / 70 + 1, q = at % 70 + 1;
        struct monitor_figure answer = monitor_senior(state, STATE_BYTES, r, q);
        all &= answer.number == 0 &&
               answer.figure == (uint64_t)senior_by_hand(r, q);
    }
    check(all, "seniority of all pairs");
    all = 1;
    for (uint64_t at = 0; at < 3 * 70; at++) {
        uint64_t user = at / 70 + 1, role = at % 70 + 1;
        struct monitor_figure answer =
            monitor_assigned(state, STATE_BYTES, user, role);
        all &= answer.number == 0 &&
               answer.figure == (uint64_t)assigned_by_hand(user, role);
    }
    check(all, "assignments of all users and roles");
    figure(monitor_senior(state, STATE_BYTES, 0, 1), 25, 0, "25: role 0");
    figure(monitor_senior(state, STATE_BYTES, 71, 1), 25, 0, "25: role 71");
    figure(monitor_senior(state, STATE_BYTES, 1, 71), 25, 0,
           "25: role 71 as the second");
    figure(monitor_assigned(state, STATE_BYTES, 0, 1), 25, 0, "25: user 0");
    figure(monitor_assigned(state, STATE_BYTES, 4, 1), 25, 0, "25: user 4");
    figure(monitor_assigned(state, STATE_BYTES, 1, 0), 25, 0, "25: role 0");
    figure(monitor_assigned(state, STATE_BYTES, 1, 71), 25, 0, "25: role 71");
}

static void takable(void)
{
    static const struct {
        uint64_t user, label, number, low, high;
        const char *what;
    } expected[] = {
        {1, 1, 0, LOW(1), HIGH(66) | HIGH(70), "user 1 at label 1"},
        {1, 2, 0, 0, HIGH(65), "user 1 at label 2"},
        {1, 3, 0, LOW(1) | LOW(64), HIGH(65) | HIGH(66) | HIGH(70),
         "user 1 at label 3"},
        {1, 4, 26, 0, 0, "26: user 1 at label 4"},
        {2, 1, 0, LOW(1), HIGH(66), "user 2 at label 1"},
        {2, 2, 26, 0, 0, "26: user 2 at label 2"},
        {3, 4, 0, 0, 0, "user 3, who is assigned to no role"},
        {0, 1, 25, 0, 0, "25: user 0"},
        {4, 1, 25, 0, 0, "25: user 4"},
        {1, 0, 25, 0, 0, "25: label 0"},
        {1, 5, 25, 0, 0, "25: label 5"},
        {FARTHEST, FARTHEST, 25, 0, 0, "25: numbers too high"},
    };
    about = "takable";
    for (size_t at = 0; at < sizeof expected / sizeof expected[0]; at++) {
        check(same_set(monitor_takable(state, STATE_BYTES, expected[at].user,
                                       expected[at].label),
                       expected[at].number, expected[at].low,
                       expected[at].high),
              expected[at].what);
    }
}

static void gives(void)
{
    static const struct {
        uint64_t low, high, label, card, mode, number, figure;
        const char *what;
    } expected[] = {
        {LOW(1), 0, 1, 1, 1, 0, 1, "role 1 reads card 1"},
        {LOW(1), 0, 1, 1, 2, 0, 0, "role 1 does not write card 1"},
        {LOW(2), 0, 1, 1, 1, 0, 0, "role 2 gives nothing"},
        {LOW(64), 0, 3, 3, 1, 0, 1, "role 64 reads card 3"},
        {LOW(64), 0, 1, 3, 1, 0, 1, "whether it may be taken is not asked"},
        {0, HIGH(65), 3, 2, 1, 0, 1, "role 65 reads card 2"},
        {LOW(1), HIGH(66), 3, 2, 1, 0, 0, "roles 1 and 66 do not"},
        {0, HIGH(70), 1, 1, 1, 0, 1, "role 70 reads card 1 by role 1"},
        {0, HIGH(70), 3, 4, 2, 0, 1, "role 70 writes card 4 by role 66"},
        {0, HIGH(66), 3, 3, 2, 0, 0, "role 66 does not write as its senior"},
        {FARTHEST, FARTHEST, 4, 4, 2, 0, 1, "one of all roles writes card 4"},
        {FARTHEST, FARTHEST, 4, 4, 1, 0, 0, "none reads card 4"},
        {0, FARTHEST << 6, 1, 1, 1, 0, 0, "bits past role 70 give no read"},
        {0, FARTHEST << 6, 4, 4, 2, 0, 0, "bits past role 70 give no write"},
        {0, 0, 1, 1, 1, 0, 0, "no roles"},
        {LOW(1), 0, 0, 1, 1, 25, 0, "25: label 0"},
        {LOW(1), 0, 5, 1, 1, 25, 0, "25: label 5"},
        {LOW(1), 0, 1, 0, 1, 25, 0, "25: card 0"},
        {LOW(1), 0, 1, 5, 1, 25, 0, "25: card 5"},
        {LOW(1), 0, 1, 1, 0, 25, 0, "25: mode 0"},
        {LOW(1), 0, 1, 1, 3, 25, 0, "25: mode 3"},
    };
    about = "gives";
    for (size_t at = 0; at < sizeof expected / sizeof expected[0]; at++) {
        figure(monitor_gives(state, STATE_BYTES, expected[at].low,
                             expected[at].high, expected[at].label,
                             expected[at].card, expected[at].mode),
               expected[at].number, expected[at].figure, expected[at].what);
    }
}

/* `monitor_can` is `monitor_gives` of what `monitor_takable` gives. */
static void can_is_gives_of_takable(void)
{
    int all = 1;
    about = "can";
    for (uint64_t at = 0; at < 3 * 4 * 4 * 2; at++) {
        uint64_t user = at / 32 + 1, label = at / 8 % 4 + 1;
        uint64_t card = at / 2 % 4 + 1, mode = at % 2 + 1;
        struct monitor_set set =
            monitor_takable(state, STATE_BYTES, user, label);
        struct monitor_figure given = monitor_gives(
            state, STATE_BYTES, set.low, set.high, label, card, mode);
        struct monitor_figure can =
            monitor_can(state, STATE_BYTES, user, label, card, mode);
        all &= can.number == set.number &&
               can.figure == (set.number == 0 ? given.figure : 0);
    }
    check(all, "what takable and gives tell, of all that can be asked");
}

/* Every review call with a state that gets 21, whatever else is wrong. */
static void refused_with_21(const uint8_t *bad, size_t length,
                            const char *which)
{
    about = which;
    check(same_counts(monitor_counts_of(bad, length), 21, 0, 0, 0, 0),
          "counts_of: 21");
    check(same_session(monitor_session_at(bad, length, 0), 21, 0, 0, 0, 0),
          "session_at: 21 before 22");
    figure(monitor_clearance(bad, length, 0), 21, 0, "clearance: 21");
    figure(monitor_card_label(bad, length, 0), 21, 0, "card_label: 21");
    figure(monitor_level(bad, length, 0, 0), 21, 0, "level: 21");
    figure(monitor_dominates(bad, length, 0, 0), 21, 0, "dominates: 21");
    figure(monitor_senior(bad, length, 0, 0), 21, 0, "senior: 21");
    figure(monitor_assigned(bad, length, 0, 0), 21, 0, "assigned: 21");
    check(same_set(monitor_takable(bad, length, 0, 0), 21, 0, 0),
          "takable: 21 before 25");
    figure(monitor_gives(bad, length, FARTHEST, FARTHEST, 0, 0, 0), 21, 0,
           "gives: 21 before 25");
    figure(monitor_gives(bad, length, FARTHEST, FARTHEST, 1, 1, 1), 21, 0,
           "gives: 21 with numbers in range");
}

static void states_of_21(void)
{
    uint8_t *short_by_one = bytes_of(STATE_BYTES - 1, 0);
    uint8_t *other = bytes_of(STATE_BYTES, 0);
    memcpy(short_by_one, state, STATE_BYTES - 1);
    refused_with_21(short_by_one, STATE_BYTES - 1, "a state one byte short");
    refused_with_21(NULL, 0, "NULL with length 0 as state");
    refused_with_21(state, 0, "a state of length 0");
    refused_with_21(other, STATE_BYTES, "a zeroed state");
    memset(other, 0xff, STATE_BYTES);
    refused_with_21(other, STATE_BYTES, "a state of bytes 255");
    check(all_bytes_are(other, STATE_BYTES, 0xff), "which stay so");
    check(memcmp(short_by_one, state, STATE_BYTES - 1) == 0,
          "the short state is as it was");
    free(short_by_one);
    free(other);
}

/* Each answer fills its own bytes and no other. */
static void answers_between_canaries(void)
{
    struct {
        uint64_t first;
        struct monitor_counts counts;
        uint64_t second;
        struct monitor_session session;
        uint64_t third;
        struct monitor_set set;
        uint64_t fourth;
    } answers;
    about = "answers";
    memset(&answers, 0xa5, sizeof answers);
    answers.counts = monitor_counts_of(state, STATE_BYTES);
    answers.session = monitor_session_at(state, STATE_BYTES, 1);
    answers.set = monitor_takable(state, STATE_BYTES, 1, 3);
    check(all_bytes_are((uint8_t *)&answers.first, 8, 0xa5) &&
              all_bytes_are((uint8_t *)&answers.second, 8, 0xa5) &&
              all_bytes_are((uint8_t *)&answers.third, 8, 0xa5) &&
              all_bytes_are((uint8_t *)&answers.fourth, 8, 0xa5),
          "the bytes around them are as they were");
}

void review_tests(void)
{
    uint8_t *before = bytes_of(STATE_BYTES, 0);
    /* One byte past an even address: any alignment will do. */
    lent = bytes_of(CANARY_BYTES + 1 + STATE_BYTES + CANARY_BYTES, 0xa5);
    state = lent + CANARY_BYTES + 1;
    about = "review calls";
    accepted(reviewed, state, "the file is accepted");
    sessions();
    session_below_clearance();
    memcpy(before, state, STATE_BYTES);
    counts();
    labels();
    levels();
    roles();
    takable();
    gives();
    can_is_gives_of_takable();
    answers_between_canaries();
    states_of_21();
    about = "review calls";
    check(memcmp(before, state, STATE_BYTES) == 0,
          "every byte of the state is as it was");
    check(all_bytes_are(lent, CANARY_BYTES + 1, 0xa5) &&
              all_bytes_are(state + STATE_BYTES, CANARY_BYTES, 0xa5),
          "and every byte around it");
    free(before);
    free(lent);
}
