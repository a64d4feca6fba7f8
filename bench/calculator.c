#include "calculator.h"

#include "plain.h"

static struct tulpavice_percentages no_evaluate(const uint8_t *store, size_t store_size, uint32_t edition,
                                                const int32_t *readings, size_t count, int32_t upper,
                                                uint32_t upper_present, int32_t lower, uint32_t lower_present)
{
    (void)store, (void)store_size, (void)edition;
    (void)readings, (void)count, (void)upper, (void)upper_present, (void)lower, (void)lower_present;
    return (struct tulpavice_percentages){0};
}

static struct tulpavice_percentages no_evaluate_lot(const uint8_t *store, size_t store_size, uint32_t edition,
                                                    struct tulpavice_lot lot)
{
    (void)store, (void)store_size, (void)edition;
    (void)lot;
    return (struct tulpavice_percentages){0};
}

static struct tulpavice_read no_read(const uint8_t *bytes, size_t size)
{
    (void)bytes, (void)size;
    return (struct tulpavice_read){0};
}

static struct tulpavice_written no_write(struct tulpavice_lot lot, uint8_t *out, size_t room)
{
    (void)lot, (void)out, (void)room;
    return (struct tulpavice_written){0};
}

static struct tulpavice_payment no_pay(int64_t vma, int64_t voids, int64_t density, int64_t price, int64_t quantity)
{
    (void)vma, (void)voids, (void)density, (void)price, (void)quantity;
    return (struct tulpavice_payment){0};
}

static struct tulpavice_mixture_limits no_mixture(int64_t mixture, int32_t minimum, int32_t target)
{
    (void)mixture, (void)minimum, (void)target;
    return (struct tulpavice_mixture_limits){0};
}

static struct tulpavice_mean no_mean(const int32_t *readings, size_t count)
{
    (void)readings, (void)count;
    return (struct tulpavice_mean){0};
}

static struct tulpavice_deviation no_deviation(const int32_t *readings, size_t count)
{
    (void)readings, (void)count;
    return (struct tulpavice_deviation){0};
}

static struct tulpavice_row no_row(const uint8_t *store, size_t store_size, uint32_t edition, const uint8_t *readings,
                                   size_t size, int32_t upper, uint32_t upper_present, int32_t lower,
                                   uint32_t lower_present)
{
    (void)store, (void)store_size, (void)edition;
    (void)readings, (void)size, (void)upper, (void)upper_present, (void)lower, (void)lower_present;
    return (struct tulpavice_row){0};
}

static struct tulpavice_listed no_cut(size_t sublots, uint32_t *out, size_t room)
{
    (void)sublots, (void)out, (void)room;
    return (struct tulpavice_listed){0};
}

static struct tulpavice_checked no_check(const uint8_t *store, size_t store_size, uint32_t edition,
                                         struct tulpavice_lot vma, struct tulpavice_lot voids,
                                         struct tulpavice_lot density, int64_t price, int64_t quantity,
                                         struct tulpavice_sheet sheet)
{
    (void)store, (void)store_size, (void)edition;
    (void)vma, (void)voids, (void)density, (void)price, (void)quantity, (void)sheet;
    return (struct tulpavice_checked){0};
}

static struct tulpavice_listed no_compare(struct tulpavice_sheet first, struct tulpavice_sheet second, int64_t *out,
                                          size_t room)
{
    (void)first, (void)second, (void)out, (void)room;
    return (struct tulpavice_listed){0};
}

static struct tulpavice_written no_table_106_1(uint16_t number, uint8_t *out, size_t room)
{
    (void)number, (void)out, (void)room;
    return (struct tulpavice_written){0};
}

static struct tulpavice_place no_store(uint8_t *store, size_t store_size, const uint8_t *edition, size_t size)
{
    (void)store, (void)store_size, (void)edition, (void)size;
    return (struct tulpavice_place){0};
}

static struct tulpavice_place no_find(const uint8_t *store, size_t store_size, uint32_t edition)
{
    (void)store, (void)store_size, (void)edition;
    return (struct tulpavice_place){0};
}

static struct tulpavice_listed no_list(const uint8_t *store, size_t store_size, uint32_t *out, size_t room)
{
    (void)store, (void)store_size, (void)out, (void)room;
    return (struct tulpavice_listed){0};
}

const struct calculator library = {"library", tulpavice_evaluate, tulpavice_evaluate_lot, tulpavice_read,
                                   tulpavice_write, tulpavice_pay, tulpavice_mixture, tulpavice_mean,
                                   tulpavice_deviation, tulpavice_row, tulpavice_cut, tulpavice_check,
                                   tulpavice_compare, tulpavice_table_106_1, tulpavice_store, tulpavice_find,
                                   tulpavice_list};

const struct calculator plain = {"plain", plain_evaluate, plain_evaluate_lot, plain_read, plain_write, plain_pay,
                                 plain_mixture, plain_mean, plain_deviation, plain_row, plain_cut, plain_check,
                                 plain_compare, plain_table_106_1, plain_store, plain_find, plain_list};

const struct calculator nothing = {"nothing", no_evaluate, no_evaluate_lot, no_read, no_write, no_pay,
                                   no_mixture, no_mean, no_deviation, no_row, no_cut, no_check,
                                   no_compare, no_table_106_1, no_store, no_find, no_list};
