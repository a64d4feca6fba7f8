/* The entries of tulpavice.h in plain C: what the library is measured beside. */
#ifndef PLAIN_H
#define PLAIN_H

#include "tulpavice.h"

struct tulpavice_mean plain_mean(const int32_t *readings, size_t count);
struct tulpavice_deviation plain_deviation(const int32_t *readings, size_t count);
struct tulpavice_written plain_table_106_1(uint16_t number, uint8_t *out, size_t room);
struct tulpavice_place plain_store(uint8_t *store, size_t store_size, const uint8_t *edition, size_t size);
struct tulpavice_place plain_find(const uint8_t *store, size_t store_size, uint32_t edition);
struct tulpavice_listed plain_list(const uint8_t *store, size_t store_size, uint32_t *out, size_t room);
struct tulpavice_percentages plain_evaluate(const uint8_t *store, size_t store_size, uint32_t edition,
                                            const int32_t *readings, size_t count, int32_t upper,
                                            uint32_t upper_present, int32_t lower, uint32_t lower_present);
struct tulpavice_percentages plain_evaluate_lot(const uint8_t *store, size_t store_size, uint32_t edition,
                                                struct tulpavice_lot lot);
struct tulpavice_payment plain_pay(int64_t vma, int64_t voids, int64_t density, int64_t price, int64_t quantity);
struct tulpavice_mixture_limits plain_mixture(int64_t mixture, int32_t minimum, int32_t target);
struct tulpavice_read plain_read(const uint8_t *bytes, size_t size);
struct tulpavice_written plain_write(struct tulpavice_lot lot, uint8_t *out, size_t room);
struct tulpavice_listed plain_cut(size_t sublots, uint32_t *out, size_t room);
struct tulpavice_checked plain_check(const uint8_t *store, size_t store_size, uint32_t edition,
                                     struct tulpavice_lot vma, struct tulpavice_lot voids, struct tulpavice_lot density,
                                     int64_t price, int64_t quantity, struct tulpavice_sheet sheet);
struct tulpavice_listed plain_compare(struct tulpavice_sheet first, struct tulpavice_sheet second, int64_t *out,
                                      size_t room);
struct tulpavice_row plain_row(const uint8_t *store, size_t store_size, uint32_t edition, const uint8_t *bytes,
                               size_t size, int32_t upper, uint32_t upper_present, int32_t lower,
                               uint32_t lower_present);

#endif
