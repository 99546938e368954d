#include "input.h"

#include <stdio.h>
#include <string.h>

#define LINE 22

/* The known files, put into the program by the linker. */
#define KNOWN(NAME)                                                            \
    extern const uint8_t _binary_##NAME##_role_start[];                        \
    extern const uint8_t _binary_##NAME##_role_end[];
#define ENTRY(NAME) {_binary_##NAME##_role_start, _binary_##NAME##_role_end}

KNOWN(document)
KNOWN(two_makers)
KNOWN(reading_at_1_and_2)
KNOWN(writing_at_2_and_3)
KNOWN(writing_1_too)
KNOWN(only_counts)

static const struct {
    const uint8_t *start, *end;
} known[] = {
    ENTRY(document),           ENTRY(reading_at_1_and_2),
    ENTRY(writing_at_2_and_3), ENTRY(writing_1_too),
    ENTRY(only_counts),        ENTRY(two_makers),
};

enum { KNOWN_FILES = sizeof known / sizeof known[0], LARGE = 255 };

uint8_t next_byte(struct input *input)
{
    if (input->left == 0)
        return 0;
    input->left--;
    return *input->at++;
}

uint32_t next_pair(struct input *input)
{
    uint32_t low = next_byte(input);
    return low | (uint32_t)next_byte(input) << 8;
}

size_t whole_records(const uint8_t *data, size_t size)
{
    if (size == 0)
        return 0;
    size_t room = (size - 1) / RECORD;
    return data[0] < room ? data[0] : room;
}

/* One of the last numbers of all, or a small one with a high bit set. */
static uint64_t wild(struct input *input)
{
    static const unsigned high[] = {8, 16, 31, 32, 58, 62, 63};
    unsigned way = next_byte(input);
    uint64_t small = way >> 4;
    way &= 15;
    if (way < sizeof high / sizeof high[0])
        return ((uint64_t)1 << high[way]) + small;
    return 0 - small;
}

uint64_t next_number(struct input *input, uint64_t limit)
{
    uint64_t number = next_byte(input);
    if (number >= 240)
        return wild(input);
    if (limit + 2 > 240)
        number = number << 8 | next_byte(input);
    return number % (limit + 2);
}

uint64_t next_set(struct input *input)
{
    uint64_t byte = next_byte(input);
    if (byte < 64)
        return (uint64_t)1 << byte;
    return (byte - 64) * 0x0101010101010101;
}

uint64_t next_place(struct input *input)
{
    if (input->left > 0 && *input->at < 200)
        return 1 + next_byte(input) % 3;
    return next_number(input, 64);
}

/* One change to a file: a byte, a field's number, a line gone or doubled. */
static size_t change(struct input *input, uint8_t *file, size_t length)
{
    unsigned what = next_byte(input);
    size_t at = next_pair(input);
    uint32_t value = next_pair(input);
    if (length < LINE)
        return length;
    uint8_t *line = file + at % (length / LINE) * LINE;
    size_t rest = (size_t)(file + length - line);
    char field[6];
    switch (what & 3) {
    case 0:
        file[at % length] = (uint8_t)value;
        return length;
    case 1:
        snprintf(field, sizeof field, "%5u", (unsigned)value);
        memcpy(line + 1 + 5 * (what >> 2 & 3), field, 5);
        return length;
    case 2:
        memmove(line, line + LINE, rest - LINE);
        return length - LINE;
    default:
        if (length + LINE > MOST_FILE)
            return length;
        memmove(line + LINE, line, rest);
        return length + LINE;
    }
}

size_t next_file(struct input *input, uint8_t *file, unsigned changes)
{
    /* The large file, the last one, takes long: it has one byte alone. */
    size_t choice = next_byte(input);
    choice = choice == LARGE ? KNOWN_FILES : choice % KNOWN_FILES;
    size_t length;
    if (choice == 0) {
        length = next_pair(input);
        if (length > input->left)
            length = input->left;
        memcpy(file, input->at, length);
        input->at += length;
        input->left -= length;
        return length;
    }
    length = (size_t)(known[choice - 1].end - known[choice - 1].start);
    memcpy(file, known[choice - 1].start, length);
    for (; changes > 0; changes--)
        length = change(input, file, length);
    return length;
}
