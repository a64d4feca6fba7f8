/* The kinds of work that are measured. */
#ifndef KINDS_H
#define KINDS_H

#include "calculator.h"
#include "inputs.h"

/* A store that another edition went into has more than any other answer. */
enum { MOST_NUMBERS = 2 + 2 * TABLE_ROOM };

struct kind {
    const char *name;
    /* So many calls, over the inputs from one on and round again; the sum of what they answer. */
    uint64_t (*run)(const struct calculator *who, const struct inputs *inputs, size_t from, size_t calls);
    /* Every number of one answer, and how many they are. */
    size_t (*answer)(const struct calculator *who, const struct inputs *inputs, size_t i, int64_t *numbers);
    void (*show)(const struct inputs *inputs, size_t i);
    size_t calls_a_turn;
};

enum { KINDS = 17 };

extern const struct kind kinds[KINDS];

#endif
