#include "largest.h"

#include "monitor.h"

#include <stdio.h>
#include <string.h>

#define LINE_BYTES 22

/* Line `line`; a number that is 0 leaves its field blank. */
static void put(uint8_t *file, unsigned line, char letter, unsigned first,
                unsigned second, unsigned third, unsigned fourth)
{
    unsigned fields[] = {first, second, third, fourth};
    char text[LINE_BYTES + 1];
    memset(text, ' ', LINE_BYTES);
    text[0] = letter;
    for (int at = 0; at < 4; at++) {
        char field[16];
        snprintf(field, sizeof field, "%5u", fields[at]);
        if (fields[at] != 0) {
            memcpy(text + 1 + 5 * at, field, 5);
        }
    }
    text[LINE_BYTES - 1] = '\n';
    memcpy(file + LINE_BYTES * (line - 1), text, LINE_BYTES);
}

/* Labels and roles are chains. Cards 1 to 256 have label 2, the others label
   32; all users are cleared to label 16. */
static void put_orders(uint8_t *file)
{
    put(file, 1, 'H', 32, 128, 256, 512);
    for (unsigned at = 0; at < 31; at++) {
        put(file, LARGEST_D + at, 'D', at + 2, at + 1, 0, 0);
    }
    for (unsigned at = 0; at < 127; at++) {
        put(file, LARGEST_S + at, 'S', at + 2, at + 1, 0, 0);
    }
    for (unsigned at = 0; at < 256; at++) {
        put(file, LARGEST_U + at, 'U', at + 1, 16, 0, 0);
    }
    for (unsigned at = 0; at < 512; at++) {
        put(file, LARGEST_O + at, 'O', at + 1, at < 256 ? 2 : 32, 0, 0);
    }
}

/* Every role reads four cards of label 2 and writes four of label 32, and
   users are assigned to four roles each until the lines are used up. */
static void put_permissions(uint8_t *file)
{
    for (unsigned at = 0; at < 1024; at++) {
        unsigned role = at / 8 + 1, turn = at % 8;
        unsigned card = role + turn + (turn < 4 ? 0 : 256);
        put(file, LARGEST_P + at, 'P', role, card, turn < 4 ? 1 : 2, 0);
    }
    for (unsigned at = 0; at < LARGEST_END - LARGEST_A; at++) {
        put(file, LARGEST_A + at, 'A', at / 4 + 1, 32 * (at % 4 + 1), 0, 0);
    }
}

void write_largest(uint8_t *file)
{
    put_orders(file);
    put_permissions(file);
}

void change_field(uint8_t *file, int line, int field, unsigned number)
{
    char text[16];
    snprintf(text, sizeof text, "%5u", number);
    memcpy(file + LINE_BYTES * (line - 1) + 1 + 5 * (field - 1), text, 5);
}
