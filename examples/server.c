/*
 * A small server over monitor.h: two sessions of user 1 on the cards of a role
 * file, a low one and a high one, each answer in words.
 *
 *   cc -std=c11 server.c $(pkg-config --cflags --libs monitor) -o server
 *   ./server two-makers.role
 */
#include "monitor.h"

#include <inttypes.h>
#include <stdarg.h>
#include <stdio.h>

enum { USER = 1, LOW = 1, HIGH = 2 };

/* What the server lends to the calls. */
static uint8_t state[MONITOR_STATE_BYTES], cards[MONITOR_CARDS][MONITOR_CARD_BYTES];
#define STATE state, sizeof state
#define STORE cards[0], sizeof cards

/* Prints what was asked, with its numbers, and the answer in words. */
static void tell(uint64_t answer, const char *asked, ...)
{
    va_list numbers;
    va_start(numbers, asked);
    vprintf(asked, numbers);
    va_end(numbers);
    printf(": %s\n", monitor_words(answer));
}

/* Asks for every role; tells of the first three and of those that are taken. */
static void take_roles(uint64_t place)
{
    for (uint64_t role = 1; role <= MONITOR_ROLES; role++) {
        uint64_t answer = monitor_take(STATE, place, role);
        if (role <= 3 || answer == 0)
            tell(answer, "place %" PRIu64 " takes role %" PRIu64, place, role);
    }
}

/* The lowest card that the user can read or write at a label, or 0. */
static uint64_t lowest_card(uint64_t label, uint64_t mode)
{
    for (uint64_t card = 1; card <= MONITOR_CARDS; card++)
        if (monitor_can(STATE, USER, label, card, mode).figure == 1)
            return card;
    return 0;
}

static void read_card(uint64_t place, uint64_t card)
{
    uint64_t answer = monitor_read_number(STATE, STORE, place, card, 0, MONITOR_CARD_BYTES);
    tell(answer, "place %" PRIu64 " reads card %" PRIu64, place, card);
    if (answer == 0)
        printf("    %.64s\n", (const char *)cards[card - 1]);
}

int main(int count, char **arguments)
{
    static uint8_t file[MONITOR_FILE_BYTES + 1];
    FILE *from = count == 2 ? fopen(arguments[1], "rb") : NULL;
    if (from == NULL) {
        fputs("usage: server FILE, a role file that can be read\n", stderr);
        return 2;
    }
    size_t length = fread(file, 1, sizeof file, from);
    fclose(from);
    struct monitor_verdict verdict = monitor_load(file, length, STATE);
    tell(verdict.number, "load, place %" PRIu64 " %" PRIu64, verdict.first, verdict.second);
    if (verdict.number != 0)
        return 1;
    for (int card = 1; card <= MONITOR_CARDS; card++)
        snprintf((char *)cards[card - 1], MONITOR_CARD_BYTES, "the wording of card %d", card);

    uint64_t answer, label = MONITOR_LABELS; /* down to one that the user may open */
    while ((answer = monitor_open(STATE, HIGH, USER, label)) != 0 && label > 1)
        label--;
    tell(answer, "place %d opens at label %" PRIu64, HIGH, label);
    tell(monitor_open(STATE, LOW, USER, 1), "place %d opens at label 1", LOW);
    tell(monitor_open(STATE, LOW, USER, 1), "place %d opens once more", LOW);
    take_roles(LOW);
    take_roles(HIGH);

    uint64_t below = lowest_card(1, MONITOR_READ), above = lowest_card(1, MONITOR_WRITE);
    static const uint8_t note[] = "a note from label 1";
    read_card(LOW, below);
    answer = monitor_write(STATE, STORE, LOW, above, 0, note, sizeof note);
    tell(answer, "place %d writes card %" PRIu64, LOW, above);
    read_card(LOW, above);
    read_card(HIGH, above);
    struct monitor_figure can = monitor_can(STATE, USER, label, above, MONITOR_READ);
    tell(can.number, "can user %d read card %" PRIu64 " at label %" PRIu64, USER, above, label);
    printf("    %s\n", can.figure == 1 ? "yes" : "no");
    tell(monitor_close(STATE, LOW), "place %d closes", LOW);
    read_card(LOW, below);
    tell(monitor_close(STATE, HIGH), "place %d closes", HIGH);
    return 0;
}
