/* One run: the load of a file, then calls, on both builds of the monitor and
 * on the model. Any difference ends the program. */
#include "input.h"
#include "model.h"
#include "review.h"
#include "sides.h"

#include <stdio.h>
#include <stdlib.h>
#include <string.h>

#define MOST_WRITE 256

struct run {
    struct input input;
    struct model *model;
    struct lent state[SIDES], store[SIDES];
    /* What state and store must be. */
    uint8_t expected[MONITOR_STATE_BYTES];
    uint8_t *cards;
    size_t cards_length;
    /* The state was changed by hand: the model can't tell what calls do. */
    int spoiled;
};

const char *__asan_default_options(void);
const char *__asan_default_options(void)
{
    return "quarantine_size_mb=4:malloc_context_size=2:detect_leaks=0";
}

static void same(int condition, const char *what, enum side side)
{
    if (condition)
        return;
    fprintf(stderr, "DIFFERENCE: %s, %s build\n", what,
            side == SHIPPED ? "shipped" : "instrumented");
    abort();
}

/* State and store of both sides after a call. A call that is done may have
 * changed the state, to the same bytes on both sides. */
static void compare(struct run *run, int state_may_change)
{
    if (state_may_change)
        memcpy(run->expected, run->state[INSTRUMENTED].bytes,
               MONITOR_STATE_BYTES);
    for (enum side side = 0; side < SIDES; side++) {
        same(memcmp(run->state[side].bytes, run->expected,
                    MONITOR_STATE_BYTES) == 0,
             "state", side);
        same(memcmp(run->store[side].bytes, run->cards, run->cards_length) == 0,
             "store", side);
    }
}

/* Lends a store with exactly the bytes of the loaded file's cards. */
static void fit_store(struct run *run)
{
    size_t length = MONITOR_CARD_BYTES * model_counts(run->model).cards;
    free(run->cards);
    run->cards = malloc(length + 1);
    run->cards_length = length;
    for (size_t at = 0; at < length; at++)
        run->cards[at] = (uint8_t)(at * 7 + at / MONITOR_CARD_BYTES);
    for (enum side side = 0; side < SIDES; side++) {
        give_back(side, run->store[side]);
        run->store[side] = lend(side, STORE_SLOT, run->cards, length);
    }
}

/* A load into a state that is too short: 7, and nothing is changed. */
static void load_short(const struct run *run, enum side side, struct lent file,
                       size_t length)
{
    struct lent part = lend(side, OTHER_STATE, run->expected, length);
    struct monitor_verdict verdict =
        load_of[side](file.bytes, file.length, part.bytes, length);
    same(verdict.number == 7 && verdict.first == 0 && verdict.second == 0,
         "load of a short state", side);
    same(memcmp(part.bytes, run->expected, length) == 0, "short state", side);
    give_back(side, part);
}

static void load(struct run *run, unsigned lending, unsigned changes)
{
    static uint8_t file[MOST_FILE];
    size_t length = next_file(&run->input, file, changes);
    struct monitor_verdict wanted =
        model_load(run->model, file, length, MONITOR_STATE_BYTES);
    for (enum side side = 0; side < SIDES; side++) {
        struct lent lent = lend(side, FILE_SLOT, file, length);
        if (lending >= 240)
            load_short(run, side, lent,
                       MONITOR_STATE_BYTES - 1 - 4369 * (lending - 240));
        struct monitor_verdict verdict = load_of[side](
            lent.bytes, length, run->state[side].bytes, MONITOR_STATE_BYTES);
        same(verdict.number == wanted.number, "verdict's number", side);
        same(verdict.first == wanted.first, "verdict's place", side);
        same(verdict.second == wanted.second, "verdict's place", side);
        same(memcmp(lent.bytes, file, length) == 0, "file", side);
        give_back(side, lent);
    }
    if (wanted.number == 0)
        run->spoiled = 0;
    compare(run, wanted.number == 0);
    if (wanted.number == 0 && lending % 4 != 3)
        fit_store(run);
}

static struct answer only(uint64_t number)
{
    return (struct answer){number, {0}};
}

/* One call on one side, with this state and store. */
static struct answer ask(enum side side, enum kind kind, struct lent state,
                         struct lent store, const struct numbers *n,
                         struct lent bytes)
{
    uint8_t *s = state.bytes;
    size_t l = state.length;
    switch (kind) {
    case OPEN:
        return only(open_of[side](s, l, n->first, n->second, n->third));
    case CLOSE:
        return only(close_of[side](s, l, n->first));
    case TAKE:
        return only(take_of[side](s, l, n->first, n->second));
    case DROP:
        return only(drop_of[side](s, l, n->first, n->second));
    case READ:
        return only(read_number_of[side](s, l, store.bytes, store.length,
                                         n->first, n->second, n->third,
                                         n->fourth));
    case WRITE:
        return only(write_of[side](s, l, store.bytes, store.length, n->first,
                                   n->second, n->third, bytes.bytes,
                                   bytes.length));
    case FLOWS:
        return of_figure(flows_of[side](s, l, n->first, n->second));
    case CIRCLE:
        return of_figure(circle_of[side](s, l));
    case CAN:
        return of_figure(
            can_of[side](s, l, n->first, n->second, n->third, n->fourth));
    default:
        return review(side, kind, state, n);
    }
}

/* A call's numbers, most of them in range. */
static struct numbers next_numbers(struct run *run, enum kind kind)
{
    enum { NONE, LABEL, ROLE, USER, CARD, SPAN, MODE, PLACE };
    static const uint8_t meanings[KINDS][4] = {
        [OPEN] = {PLACE, USER, LABEL},
        [CLOSE] = {PLACE},
        [TAKE] = {PLACE, ROLE},
        [DROP] = {PLACE, ROLE},
        [READ] = {PLACE, CARD, SPAN, SPAN},
        [WRITE] = {PLACE, CARD, SPAN, SPAN},
        [FLOWS] = {ROLE, ROLE},
        [CAN] = {USER, LABEL, CARD, MODE},
        [SESSION] = {PLACE},
        [CLEARANCE] = {USER},
        [CARD_LABEL] = {CARD},
        [LEVEL] = {ROLE, MODE},
        [DOMINATES] = {LABEL, LABEL},
        [SENIOR] = {ROLE, ROLE},
        [ASSIGNED] = {USER, ROLE},
        [TAKABLE] = {USER, LABEL},
        [GIVES] = {LABEL, CARD, MODE},
    };
    struct model_counts counts = model_counts(run->model);
    const uint64_t limits[] = {0, counts.labels, counts.roles, counts.users,
                               counts.cards, MONITOR_CARD_BYTES, 2};
    struct numbers n = {0};
    uint64_t *fields[] = {&n.first, &n.second, &n.third, &n.fourth};
    for (unsigned at = 0; at < 4 && meanings[kind][at] != NONE; at++) {
        unsigned meaning = meanings[kind][at];
        *fields[at] = meaning == PLACE
                          ? next_place(&run->input)
                          : next_number(&run->input, limits[meaning]);
    }
    if (kind == WRITE)
        n.fourth %= MOST_WRITE;
    if (kind == GIVES) {
        n.low = next_set(&run->input);
        n.high = next_set(&run->input);
    }
    return n;
}

/* A call with a short or a zeroed state: 21, and nothing is changed. */
static void call_unusable(const struct run *run, enum kind kind,
                          const struct numbers *numbers, unsigned lending)
{
    static const uint8_t zeroes[MONITOR_STATE_BYTES];
    const uint8_t *content = lending == 255 ? zeroes : run->expected;
    size_t length = lending == 255
                        ? MONITOR_STATE_BYTES
                        : MONITOR_STATE_BYTES - 1 - 5041 * (lending - 242);
    struct lent none = {NULL, 0};
    for (enum side side = 0; side < SIDES; side++) {
        struct lent state = lend(side, OTHER_STATE, content, length);
        struct answer answer =
            ask(side, kind, state, run->store[side], numbers, none);
        const struct answer refused = {21, {0}};
        same(memcmp(&answer, &refused, sizeof answer) == 0, "unusable state",
             side);
        same(memcmp(state.bytes, content, length) == 0, "unusable state's bytes",
             side);
        give_back(side, state);
    }
}

/* What the call must answer: as the model, or as the instrumented side where
 * the state was spoiled. A done write then has its bytes in both stores. */
static struct answer wanted(struct run *run, enum kind kind,
                            const struct numbers *numbers, uint8_t value,
                            struct lent bytes)
{
    if (!run->spoiled)
        return model_call(run->model, kind, MONITOR_STATE_BYTES, run->cards,
                          run->cards_length, numbers, value);
    struct answer answer = ask(INSTRUMENTED, kind, run->state[INSTRUMENTED],
                               run->store[INSTRUMENTED], numbers, bytes);
    memcpy(run->cards, run->store[INSTRUMENTED].bytes, run->cards_length);
    return answer;
}

static void call(struct run *run, enum kind kind, unsigned lending)
{
    struct numbers numbers = next_numbers(run, kind);
    uint8_t content[MOST_WRITE], value = 0;
    size_t length = kind == WRITE ? numbers.fourth : 0;
    if (kind == WRITE)
        value = next_byte(&run->input);
    for (size_t at = 0; at < length; at++)
        content[at] = (uint8_t)(value + at);
    if (lending >= 242)
        call_unusable(run, kind, &numbers, lending);
    struct lent bytes[SIDES];
    for (enum side side = 0; side < SIDES; side++)
        bytes[side] = lend(side, BYTES_SLOT, content, length);
    struct answer answer =
        wanted(run, kind, &numbers, value, bytes[INSTRUMENTED]);
    for (enum side side = run->spoiled ? SHIPPED : INSTRUMENTED; side < SIDES; side++) {
        struct answer got = ask(side, kind, run->state[side], run->store[side],
                                &numbers, bytes[side]);
        same(got.number == answer.number, "number", side);
        same(memcmp(got.told, answer.told, sizeof got.told) == 0,
             "what is told", side);
    }
    for (enum side side = 0; side < SIDES; side++) {
        same(memcmp(bytes[side].bytes, content, length) == 0, "bytes", side);
        give_back(side, bytes[side]);
    }
    compare(run, answer.number == 0 && kind <= DROP);
}

/* Changes a byte of the state by hand, the same on both sides. */
static void spoil(struct run *run)
{
    size_t at = next_pair(&run->input);
    uint8_t value = next_byte(&run->input);
    for (enum side side = 0; side < SIDES; side++)
        run->state[side].bytes[at] = value;
    run->expected[at] = value;
    run->spoiled = 1;
}

static void begin(struct run *run)
{
    memset(run->expected, 0xa5, MONITOR_STATE_BYTES);
    run->model = model_new();
    run->spoiled = 1;
    for (enum side side = 0; side < SIDES; side++)
        run->state[side] =
            lend(side, STATE_SLOT, run->expected, MONITOR_STATE_BYTES);
    run->cards = malloc(1);
    for (enum side side = 0; side < SIDES; side++)
        run->store[side] = lend(side, STORE_SLOT, run->cards, 0);
}

static void end(struct run *run)
{
    for (enum side side = 0; side < SIDES; side++) {
        give_back(side, run->state[side]);
        give_back(side, run->store[side]);
    }
    free(run->cards);
    model_free(run->model);
}

int LLVMFuzzerTestOneInput(const uint8_t *data, size_t size);
int LLVMFuzzerTestOneInput(const uint8_t *data, size_t size)
{
    static struct run run;
    memset(&run, 0, sizeof run);
    begin(&run);
    size_t records = whole_records(data, size);
    size_t start = size == 0 ? 0 : 1 + RECORD * records;
    run.input = (struct input){data + start, size - start};
    unsigned lending = next_byte(&run.input);
    load(&run, lending, next_byte(&run.input) & 7);
    for (size_t at = 0; at < records; at++) {
        run.input = (struct input){data + 1 + RECORD * at, RECORD};
        enum kind kind = next_byte(&run.input) % KINDS;
        lending = next_byte(&run.input);
        if (kind == LOAD)
            load(&run, lending, 1);
        else if (kind == SPOIL)
            spoil(&run);
        else
            call(&run, kind, lending);
    }
    end(&run);
    return 0;
}
