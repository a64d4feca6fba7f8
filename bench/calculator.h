/* The entries of one calculator. Every call goes through a pointer, from the same loop whoever answers, so that no side
   is inlined and both pay the same for being called. */
#ifndef CALCULATOR_H
#define CALCULATOR_H

#include "tulpavice.h"

struct calculator {
    const char *name;
    struct tulpavice_percentages (*evaluate)(const uint8_t *store, size_t store_size, uint32_t edition,
                                             const int32_t *readings, size_t count, int32_t upper,
                                             uint32_t upper_present, int32_t lower, uint32_t lower_present);
    struct tulpavice_percentages (*evaluate_lot)(const uint8_t *store, size_t store_size, uint32_t edition,
                                                 struct tulpavice_lot lot);
    struct tulpavice_read (*read)(const uint8_t *bytes, size_t size);
    struct tulpavice_written (*write)(struct tulpavice_lot lot, uint8_t *out, size_t room);
    struct tulpavice_payment (*pay)(int64_t vma, int64_t voids, int64_t density, int64_t price, int64_t quantity);
    struct tulpavice_mixture_limits (*mixture)(int64_t mixture, int32_t minimum, int32_t target);
    struct tulpavice_mean (*mean)(const int32_t *readings, size_t count);
    struct tulpavice_deviation (*deviation)(const int32_t *readings, size_t count);
    struct tulpavice_row (*row)(const uint8_t *store, size_t store_size, uint32_t edition, const uint8_t *readings,
                                size_t size, int32_t upper, uint32_t upper_present, int32_t lower,
                                uint32_t lower_present);
    struct tulpavice_listed (*cut)(size_t sublots, uint32_t *out, size_t room);
    struct tulpavice_checked (*check)(const uint8_t *store, size_t store_size, uint32_t edition,
                                      struct tulpavice_lot vma, struct tulpavice_lot voids, struct tulpavice_lot density,
                                      int64_t price, int64_t quantity, struct tulpavice_sheet sheet);
    struct tulpavice_listed (*compare)(struct tulpavice_sheet first, struct tulpavice_sheet second, int64_t *out,
                                       size_t room);
    struct tulpavice_written (*table_106_1)(uint16_t number, uint8_t *out, size_t room);
    struct tulpavice_place (*store)(uint8_t *store, size_t store_size, const uint8_t *edition, size_t size);
    struct tulpavice_place (*find)(const uint8_t *store, size_t store_size, uint32_t edition);
    struct tulpavice_listed (*list)(const uint8_t *store, size_t store_size, uint32_t *out, size_t room);
};

/* The library, plain C, and a calculator whose answers are all zero: what a loop of calls costs by itself. */
extern const struct calculator library;
extern const struct calculator plain;
extern const struct calculator nothing;

#endif
