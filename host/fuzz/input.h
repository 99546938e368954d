/* A fuzzer's input, read as numbers, role files and calls: how many calls, a
 * record of eight bytes for each, then the first file. */
#ifndef INPUT_H
#define INPUT_H

#include <stddef.h>
#include <stdint.h>

/* No file is longer; the monitor takes 63,800 bytes at most. */
#define MOST_FILE 65535
#define RECORD 8

struct input {
    const uint8_t *at;
    size_t left;
};

/* How many records the input has. */
size_t whole_records(const uint8_t *data, size_t size);

/* 0 where the input is at its end. */
uint8_t next_byte(struct input *input);

/* A number from 0 to 65,535. */
uint32_t next_pair(struct input *input);

/* A number up to one above the limit, so that most are in range; now and then
 * one of the last ones of all, or a small one with a high bit set. It takes
 * two bytes where the limit asks for them. */
uint64_t next_number(struct input *input, uint64_t limit);

/* Half a set of roles by one byte: a single role, or the byte's bits again and
 * again. */
uint64_t next_set(struct input *input);

/* One of the first places mostly, so that sessions are met again. */
uint64_t next_place(struct input *input);

/* Puts a role file into `file`, which has room for MOST_FILE bytes: bytes as
 * they are, or a known file with so many changes. Its length. */
size_t next_file(struct input *input, uint8_t *file, unsigned changes);

#endif
