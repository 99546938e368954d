#include "checks.h"

#include <inttypes.h>
#include <stdio.h>
#include <stdlib.h>
#include <string.h>

static unsigned passed;
static unsigned failed;
const char *about = "";

/* The line for a check, without its end. */
static void begin_line(int holds, const char *what)
{
    if (holds) {
        passed++;
    } else {
        failed++;
    }
    printf("%s%s: %s", holds ? "ok      " : "FAILED  ", about, what);
}

void check(int holds, const char *what)
{
    begin_line(holds, what);
    printf("\n");
}

void number(uint64_t answer, uint64_t expected, const char *what)
{
    begin_line(answer == expected, what);
    if (answer != expected) {
        printf("; expected %" PRIu64 ", got %" PRIu64, expected, answer);
    }
    printf("\n");
}

void verdict(struct monitor_verdict answer, uint64_t expected, uint64_t first,
             uint64_t second, const char *what)
{
    int same = answer.number == expected && answer.first == first &&
               answer.second == second;
    begin_line(same, what);
    if (!same) {
        printf("; expected %" PRIu64 " at [%" PRIu64 ", %" PRIu64
               "], got %" PRIu64 " at [%" PRIu64 ", %" PRIu64 "]",
               expected, first, second, answer.number, answer.first,
               answer.second);
    }
    printf("\n");
}

void figure(struct monitor_figure answer, uint64_t expected, uint64_t value,
            const char *what)
{
    int same = answer.number == expected && answer.figure == value;
    begin_line(same, what);
    if (!same) {
        printf("; expected %" PRIu64 " with figure %" PRIu64 ", got %" PRIu64
               " with figure %" PRIu64,
               expected, value, answer.number, answer.figure);
    }
    printf("\n");
}

uint8_t *bytes_of(size_t length, int byte)
{
    uint8_t *bytes = malloc(length);
    if (bytes == NULL) {
        fprintf(stderr, "no memory\n");
        exit(2);
    }
    memset(bytes, byte, length);
    return bytes;
}

int all_bytes_are(const uint8_t *bytes, size_t length, int byte)
{
    for (size_t at = 0; at < length; at++) {
        if (bytes[at] != byte) {
            return 0;
        }
    }
    return 1;
}

uint8_t *copy_of(const char *text)
{
    size_t length = strlen(text);
    uint8_t *copy = bytes_of(length + (length == 0), 0);
    memcpy(copy, text, length);
    return copy;
}

struct monitor_verdict load(const char *text, uint8_t *state)
{
    size_t length = strlen(text);
    uint8_t *file = copy_of(text);
    struct monitor_verdict answer =
        monitor_load(file, length, state, STATE_BYTES);
    check(memcmp(file, text, length) == 0, "a load only reads the file");
    free(file);
    return answer;
}

void accepted(const char *text, uint8_t *state, const char *what)
{
    verdict(load(text, state), 0, 0, 0, what);
}

int outcome(void)
{
    printf("%u passed, %u failed\n", passed, failed);
    return failed == 0 ? 0 : 1;
}
