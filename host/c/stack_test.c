/*
 * How much stack each call uses, against the figures of the header: a call runs
 * on a stack that was filled with one byte, and what it used is what was
 * changed. The largest file, and edits of it that each stage of a load refuses;
 * every other call on the state it leaves, and once as the first of a process
 * that was handed that state, where the dynamic linker still has to find what
 * the call calls.
 */
#define _XOPEN_SOURCE 700
#include "checks.h"
#include "largest.h"

#include <stdio.h>
#include <stdlib.h>
#include <string.h>
#include <sys/wait.h>
#include <ucontext.h>
#include <unistd.h>

#define STACK_BYTES (1u << 20)

static uint8_t stack[STACK_BYTES];
static ucontext_t here, there;

static uint8_t file[MONITOR_FILE_BYTES];
static uint8_t loaded[MONITOR_STATE_BYTES];
/* A session of user 1 at place 1, label 16, which holds role 128. */
static uint8_t prepared[MONITOR_STATE_BYTES];
static uint8_t state[MONITOR_STATE_BYTES];
static uint8_t store[MONITOR_CARDS * MONITOR_CARD_BYTES];
static const uint8_t term[MONITOR_CARD_BYTES] = "term";
#define STATE state, sizeof state
#define STORE store, sizeof store

/* The number that the last call answered. */
static uint64_t answered;

static void load_file(void)
{
    answered = monitor_load(file, sizeof file, loaded, sizeof loaded).number;
}
static void open_place(void) { answered = monitor_open(STATE, 2, 256, 16); }
static void close_place(void) { answered = monitor_close(STATE, 1); }
static void take_role(void) { answered = monitor_take(STATE, 1, 96); }
static void drop_role(void) { answered = monitor_drop(STATE, 1, 128); }
static void read_card(void)
{
    answered = monitor_read_number(STATE, STORE, 1, 1, 0, 64);
}
static void write_card(void)
{
    answered = monitor_write(STATE, STORE, 1, 512 - 128, 0, term, sizeof term);
}
static void flows(void) { answered = monitor_flows(STATE, 128, 1).number; }
static void circle(void) { answered = monitor_circle(STATE).number; }
static void can(void)
{
    answered = monitor_can(STATE, 1, 16, 512, MONITOR_WRITE).number;
}
static void counts(void) { answered = monitor_counts_of(STATE).number; }
static void session(void) { answered = monitor_session_at(STATE, 1).number; }
static void clearance(void) { answered = monitor_clearance(STATE, 256).number; }
static void card_label(void)
{
    answered = monitor_card_label(STATE, 512).number;
}
static void level(void)
{
    answered = monitor_level(STATE, 128, MONITOR_WRITE).number;
}
static void dominates(void)
{
    answered = monitor_dominates(STATE, 32, 1).number;
}
static void senior(void) { answered = monitor_senior(STATE, 128, 1).number; }
static void assigned(void)
{
    answered = monitor_assigned(STATE, 1, 128).number;
}
static void takable(void) { answered = monitor_takable(STATE, 1, 16).number; }
static void gives(void)
{
    answered = monitor_gives(STATE, FARTHEST, FARTHEST, 16, 512, MONITOR_READ)
                   .number;
}

/* Every call but load; each is done. */
static const struct {
    const char *name;
    void (*call)(void);
} calls[] = {
    {"open", open_place},       {"close", close_place},
    {"take", take_role},        {"drop", drop_role},
    {"read_number", read_card}, {"write", write_card},
    {"counts_of", counts},      {"session_at", session},
    {"clearance", clearance},   {"card_label", card_label},
    {"level", level},           {"dominates", dominates},
    {"senior", senior},         {"assigned", assigned},
    {"takable", takable},       {"gives", gives},
    {"can", can},               {"flows", flows},
    {"circle", circle},
};
#define CALLS (sizeof calls / sizeof calls[0])

/* Fills by a loop, so that memset is not called before the call under test. */
static void paint(uint8_t byte)
{
    volatile uint8_t *at = stack;
    for (size_t left = sizeof stack; left > 0; left--) {
        *at++ = byte;
    }
}

/* Bytes of the stack that a call changes, where it is filled with `byte`. */
static size_t changed_over(void (*call)(void), uint8_t byte)
{
    size_t untouched = 0;
    paint(byte);
    if (getcontext(&there) != 0) {
        return sizeof stack;
    }
    there.uc_stack.ss_sp = stack;
    there.uc_stack.ss_size = sizeof stack;
    there.uc_link = &here;
    makecontext(&there, call, 0);
    if (swapcontext(&here, &there) != 0) {
        return sizeof stack;
    }
    while (untouched < sizeof stack && stack[untouched] == byte) {
        untouched++;
    }
    return sizeof stack - untouched;
}

/* A byte that the call puts there itself shows in one of two runs. */
static size_t stack_of(void (*call)(void))
{
    size_t first, second;
    memcpy(state, prepared, sizeof state);
    first = changed_over(call, 0xa5);
    memcpy(state, prepared, sizeof state);
    second = changed_over(call, 0x5a);
    return first > second ? first : second;
}

/* The call answered as expected, and kept within the header's figure. */
static void holds(const char *name, size_t used, size_t most, uint64_t expected)
{
    char line[80];
    snprintf(line, sizeof line, "%zu bytes of %zu", used, most);
    about = name;
    check(used <= most, line);
    number(answered, expected, "answered as meant");
}

static void load_holds(const char *name, uint64_t expected)
{
    holds(name, stack_of(load_file), MONITOR_LOAD_STACK_BYTES, expected);
}

/* The file with a field of a line changed: a stage of the load refuses it. */
static void refused_load(const char *name, uint64_t expected, int line,
                         int field, unsigned changed)
{
    write_largest(file);
    change_field(file, line, field, changed);
    load_holds(name, expected);
}

static void loads(void)
{
    load_holds("load", 0);
    refused_load("load, a count", 3, 1, 1, 33);
    refused_load("load, a number", 4, LARGEST_A - 1, 1, 129);
    refused_load("load, the order of lines", 5, LARGEST_A - 1, 1, 1);
    refused_load("load, labels in a circle", 11, LARGEST_D, 1, 1);
    refused_load("load, two highest labels", 12, LARGEST_S - 1, 2, 30);
    refused_load("load, roles in a circle", 13, LARGEST_S, 1, 1);
    refused_load("load, reading high", 15, LARGEST_O, 2, 32);
    refused_load("load, writing low", 16, LARGEST_O + 511 - 128, 2, 1);
}

/* A call as the first of this process, which gets its state on standard
   input; the stack that it uses goes to standard output. */
static int first_of_process(size_t at)
{
    size_t used;
    if (at >= CALLS || read(0, state, sizeof state) != (ssize_t)sizeof state) {
        return 2;
    }
    used = changed_over(calls[at].call, 0xa5);
    return write(1, &used, sizeof used) == (ssize_t)sizeof used && answered == 0
               ? 0
               : 1;
}

/* Runs this program for one call. The state and the figure go by a file. */
static size_t stack_of_first(const char *program, size_t at)
{
    FILE *between = tmpfile();
    size_t used = SIZE_MAX;
    char which[24];
    int status = 1;
    snprintf(which, sizeof which, "%zu", at);
    if (between == NULL ||
        fwrite(prepared, sizeof prepared, 1, between) != 1 ||
        fflush(between) != 0 || lseek(fileno(between), 0, SEEK_SET) != 0) {
        return used;
    }
    if (fork() == 0) {
        dup2(fileno(between), 0);
        dup2(fileno(between), 1);
        execl(program, program, which, (char *)NULL);
        _exit(2);
    }
    if (wait(&status) < 0 || status != 0 ||
        pread(fileno(between), &used, sizeof used, sizeof prepared) !=
            (ssize_t)sizeof used) {
        used = SIZE_MAX;
    }
    fclose(between);
    return used;
}

static void prepare(void)
{
    write_largest(file);
    about = "preparing";
    verdict(monitor_load(file, sizeof file, STATE), 0, 0, 0,
            "the largest counts and 2,900 lines: accepted");
    number(monitor_open(STATE, 1, 1, 16), 0, "user 1 opens place 1");
    number(monitor_take(STATE, 1, 128), 0, "and takes role 128");
    memcpy(prepared, state, sizeof state);
}

int main(int count, char **arguments)
{
    char first[40];
    if (count == 2) {
        return first_of_process((size_t)atoi(arguments[1]));
    }
    prepare();
    loads();
    for (size_t at = 0; at < CALLS; at++) {
        holds(calls[at].name, stack_of(calls[at].call),
              MONITOR_CALL_STACK_BYTES, 0);
        snprintf(first, sizeof first, "%s, first call", calls[at].name);
        holds(first, stack_of_first(arguments[0], at), MONITOR_CALL_STACK_BYTES,
              0);
    }
    return outcome();
}
