/* What the calculators are given: the same at every run. */
#ifndef INPUTS_H
#define INPUTS_H

#include "tulpavice.h"

/* Memory for a record or for a list goes on past the longest. */
enum {
    MOST_INPUTS = 4096,
    PAST = 8,
    ROOM = TULPAVICE_MOST_BYTES + PAST,
    LIST = 2 * TULPAVICE_MOST_LOTS + PAST,
    DIFFERENCES = 2 * TULPAVICE_ENTRIES + PAST,
    TABLE_ROOM = TULPAVICE_TABLE_106_1_BYTES + PAST,
    NUMBERS = TULPAVICE_MOST_EDITIONS + PAST
};

/* Table 106-1 so many times, under the numbers from 1 on, and room for bytes behind it. */
struct store {
    uint8_t bytes[TULPAVICE_MOST_EDITIONS * TULPAVICE_TABLE_106_1_BYTES + PAST];
    size_t size;
};

struct record {
    uint8_t bytes[TULPAVICE_MOST_BYTES];
    size_t size;
};

struct sale {
    int64_t vma;
    int64_t voids;
    int64_t density;
    int64_t price;
    int64_t quantity;
};

struct lookup {
    int64_t mixture;
    int32_t minimum;
    int32_t target;
};

struct job {
    size_t sublots;
    size_t room;
};

/* A pay sheet, with the lots, price and quantity that it is for, and one to compare it with, into so much room. */
struct claim {
    struct tulpavice_lot vma;
    struct tulpavice_lot voids;
    struct tulpavice_lot density;
    int64_t price;
    int64_t quantity;
    struct tulpavice_sheet sheet;
    struct tulpavice_sheet other;
    size_t room;
};

/* So many of each. A lot is evaluated from its places, as a whole and from its readings as bytes, by an edition that is
   named in a store of one and in a store of eight, and written into so much room. */
struct inputs {
    size_t number;
    struct store one;
    struct store eight;
    uint32_t editions_of_one[MOST_INPUTS];
    uint32_t editions[MOST_INPUTS];
    size_t lists[MOST_INPUTS];
    size_t tables[MOST_INPUTS];
    struct tulpavice_lot lots[MOST_INPUTS];
    uint8_t bytes[MOST_INPUTS][4 * TULPAVICE_MOST];
    size_t rooms[MOST_INPUTS];
    struct record records[MOST_INPUTS];
    struct sale sales[MOST_INPUTS];
    struct lookup lookups[MOST_INPUTS];
    struct job jobs[MOST_INPUTS];
    struct claim claims[MOST_INPUTS];
};

void make_inputs(struct inputs *inputs, size_t number);

#endif
