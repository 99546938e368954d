/* The independent model, in Rust (model/src/lib.rs). */
#ifndef MODEL_H
#define MODEL_H

#include "monitor.h"

struct model;

/* The calls, by the numbers that the model knows them by. */
enum kind {
    LOAD, OPEN, CLOSE, TAKE, DROP, READ, WRITE, FLOWS, CIRCLE, SPOIL, CAN,
    COUNTS, SESSION, CLEARANCE, CARD_LABEL, LEVEL, DOMINATES, SENIOR, ASSIGNED,
    TAKABLE, GIVES, KINDS
};

/* What the loaded file counts; all 0 before a load. */
struct model_counts {
    size_t labels, roles, users, cards;
};

/* What is handed in: numbers, and a set of roles. */
struct numbers {
    uint64_t first, second, third, fourth, low, high;
};

/* A number, then what the call tells in the order of its struct, then 0. */
struct answer {
    uint64_t number, told[4];
};

struct model *model_new(void);
void model_free(struct model *model);
struct monitor_verdict model_load(struct model *model, const uint8_t *file,
                                  size_t file_len, size_t state_len);
struct model_counts model_counts(const struct model *model);
struct answer model_call(struct model *model, uint64_t kind, size_t state_len,
                         uint8_t *store, size_t store_len,
                         const struct numbers *numbers, uint8_t value);

#endif
