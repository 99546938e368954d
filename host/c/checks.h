/* What the C tests share: one line for each check, and buffers. */
#ifndef CHECKS_H
#define CHECKS_H

#include "monitor.h"

#define STATE_BYTES 65536u
#define CARD_BYTES 64u
#define FARTHEST UINT64_MAX

/* What the checks are about just now. */
extern const char *about;

void check(int holds, const char *what);
void number(uint64_t answer, uint64_t expected, const char *what);
void verdict(struct monitor_verdict answer, uint64_t expected, uint64_t first,
             uint64_t second, const char *what);
void figure(struct monitor_figure answer, uint64_t expected, uint64_t value,
            const char *what);

/* The last line, with how many passed; the program's status. */
int outcome(void);

/* An allocation of this length, every byte the same. */
uint8_t *bytes_of(size_t length, int byte);

/* An allocation of the text's exact length, or of a byte where it is empty. */
uint8_t *copy_of(const char *text);

int all_bytes_are(const uint8_t *bytes, size_t length, int byte);

/* Loads a text, and checks that the load only reads it. */
struct monitor_verdict load(const char *text, uint8_t *state);

/* The same of a text that must be accepted. */
void accepted(const char *text, uint8_t *state, const char *what);

/* The parts of the test that stand in files of their own. */
void header_tests(void);
void review_tests(void);

#endif
