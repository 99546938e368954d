/* A role file of the largest counts and 2,900 lines, which is accepted. */
#ifndef LARGEST_H
#define LARGEST_H

#include <stdint.h>

/* Writes the file's MONITOR_FILE_BYTES bytes. */
void write_largest(uint8_t *file);

/* Puts a number into a field, 1 to 4, of a line. */
void change_field(uint8_t *file, int line, int field, unsigned number);

/* The line on which lines of a letter begin. */
enum {
    LARGEST_D = 2,
    LARGEST_S = LARGEST_D + 31,
    LARGEST_U = LARGEST_S + 127,
    LARGEST_O = LARGEST_U + 256,
    LARGEST_P = LARGEST_O + 512,
    LARGEST_A = LARGEST_P + 1024,
    LARGEST_END = 2901
};

#endif
