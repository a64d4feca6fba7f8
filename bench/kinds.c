/* Each kind of work: one call, the loop of calls that is timed, every number of an answer, and an input shown. */
#include "kinds.h"

#include <inttypes.h>
#include <stdio.h>
#include <string.h>

#define CALL(KIND, TYPE) static TYPE call_##KIND(const struct calculator *who, const struct inputs *inputs, size_t i)

/* Of each answer `a` some numbers are summed, so that no call can be left out. */
#define LOOP(KIND, TYPE, SUM)                                                                                        \
    static uint64_t run_##KIND(const struct calculator *who, const struct inputs *inputs, size_t from, size_t calls) \
    {                                                                                                                \
        uint64_t sum = 0;                                                                                            \
        for (size_t at = from; calls > 0; calls--) {                                                                 \
            TYPE a = call_##KIND(who, inputs, at);                                                                   \
            sum += (uint64_t)(SUM);                                                                                  \
            at = at + 1 < inputs->number ? at + 1 : 0;                                                               \
        }                                                                                                            \
        return sum;                                                                                                  \
    }

#define ANSWER(KIND, TYPE, ...)                                                                                      \
    static size_t answer_##KIND(const struct calculator *who, const struct inputs *inputs, size_t i, int64_t *taken) \
    {                                                                                                                \
        TYPE a = call_##KIND(who, inputs, i);                                                                        \
        const int64_t numbers[] = {__VA_ARGS__};                                                                     \
        memcpy(taken, numbers, sizeof numbers);                                                                      \
        return sizeof numbers / sizeof *numbers;                                                                     \
    }

CALL(evaluate, struct tulpavice_percentages)
{
    const struct tulpavice_lot *lot = &inputs->lots[i];
    return who->evaluate(inputs->one.bytes, inputs->one.size, inputs->editions_of_one[i], lot->readings, lot->count,
                         lot->upper, lot->upper_present, lot->lower, lot->lower_present);
}
LOOP(evaluate, struct tulpavice_percentages,
     a.refusal.number + a.upper + a.lower + a.pwl + a.tried_upper + a.tried_lower)
ANSWER(evaluate, struct tulpavice_percentages, a.refusal.number, a.upper, a.lower, a.pwl, a.tried_upper, a.tried_lower)

/* The same, by one of eight editions. */
CALL(evaluate_of_8, struct tulpavice_percentages)
{
    const struct tulpavice_lot *lot = &inputs->lots[i];
    return who->evaluate(inputs->eight.bytes, inputs->eight.size, inputs->editions[i], lot->readings, lot->count,
                         lot->upper, lot->upper_present, lot->lower, lot->lower_present);
}
LOOP(evaluate_of_8, struct tulpavice_percentages,
     a.refusal.number + a.upper + a.lower + a.pwl + a.tried_upper + a.tried_lower)
ANSWER(evaluate_of_8, struct tulpavice_percentages, a.refusal.number, a.upper, a.lower, a.pwl, a.tried_upper,
       a.tried_lower)

CALL(evaluate_lot, struct tulpavice_percentages)
{
    return who->evaluate_lot(inputs->one.bytes, inputs->one.size, inputs->editions_of_one[i], inputs->lots[i]);
}
LOOP(evaluate_lot, struct tulpavice_percentages,
     a.refusal.number + a.upper + a.lower + a.pwl + a.tried_upper + a.tried_lower)
ANSWER(evaluate_lot, struct tulpavice_percentages, a.refusal.number, a.upper, a.lower, a.pwl, a.tried_upper,
       a.tried_lower)

CALL(read, struct tulpavice_read)
{
    return who->read(inputs->records[i].bytes, inputs->records[i].size);
}
LOOP(read, struct tulpavice_read, a.refusal.number + a.lot.count + (uint32_t)a.lot.readings[1])

/* All places of a lot that was read, also those without a reading. */
static size_t answer_read(const struct calculator *who, const struct inputs *inputs, size_t i, int64_t *taken)
{
    struct tulpavice_read a = call_read(who, inputs, i);
    const int64_t head[] = {a.refusal.number, a.lot.upper,         a.lot.upper_present,
                            a.lot.lower,      a.lot.lower_present, a.lot.count};
    const size_t n = sizeof head / sizeof *head;
    memcpy(taken, head, sizeof head);
    for (size_t j = 0; j < TULPAVICE_MOST; j++)
        taken[n + j] = a.lot.readings[j];
    return n + TULPAVICE_MOST;
}

static uint8_t out[ROOM];

CALL(write, struct tulpavice_written)
{
    return who->write(inputs->lots[i], out, inputs->rooms[i]);
}
/* a refused write leaves what the one before it wrote */
LOOP(write, struct tulpavice_written, a.refusal.number + a.size + (a.refusal.number ? 0 : out[a.size / 2]))

/* What lies past a record, or under a refused one, is to stay: the whole memory is part of the answer. */
static size_t answer_write(const struct calculator *who, const struct inputs *inputs, size_t i, int64_t *taken)
{
    memset(out, 0xA5, sizeof out);
    struct tulpavice_written a = call_write(who, inputs, i);
    taken[0] = a.refusal.number;
    taken[1] = (int64_t)a.size;
    for (size_t j = 0; j < sizeof out; j++)
        taken[2 + j] = out[j];
    return 2 + sizeof out;
}

static uint32_t list[LIST];

CALL(cut, struct tulpavice_listed)
{
    return who->cut(inputs->jobs[i].sublots, list, inputs->jobs[i].room);
}
LOOP(cut, struct tulpavice_listed, a.refusal.number + a.items + (a.items ? list[2 * a.items - 1] : 0))

/* The list is part of the answer as written memory is. */
static size_t answer_cut(const struct calculator *who, const struct inputs *inputs, size_t i, int64_t *taken)
{
    memset(list, 0xA5, sizeof list);
    struct tulpavice_listed a = call_cut(who, inputs, i);
    taken[0] = a.refusal.number;
    taken[1] = (int64_t)a.items;
    for (size_t j = 0; j < LIST; j++)
        taken[2 + j] = list[j];
    return 2 + LIST;
}

CALL(check, struct tulpavice_checked)
{
    const struct claim *claim = &inputs->claims[i];
    return who->check(inputs->one.bytes, inputs->one.size, inputs->editions_of_one[i], claim->vma, claim->voids,
                      claim->density, claim->price, claim->quantity, claim->sheet);
}
LOOP(check, struct tulpavice_checked, a.refusal.number + a.accepted + a.entry + a.sheet + a.ours)
ANSWER(check, struct tulpavice_checked, a.refusal.number, a.accepted, a.entry, a.sheet, a.ours)

static int64_t differences[DIFFERENCES];

CALL(compare, struct tulpavice_listed)
{
    const struct claim *claim = &inputs->claims[i];
    return who->compare(claim->sheet, claim->other, differences, claim->room);
}
LOOP(compare, struct tulpavice_listed, a.refusal.number + a.items + (a.items ? differences[2 * a.items - 1] : 0))

static size_t answer_compare(const struct calculator *who, const struct inputs *inputs, size_t i, int64_t *taken)
{
    memset(differences, 0xA5, sizeof differences);
    struct tulpavice_listed a = call_compare(who, inputs, i);
    taken[0] = a.refusal.number;
    taken[1] = (int64_t)a.items;
    memcpy(taken + 2, differences, sizeof differences);
    return 2 + DIFFERENCES;
}

CALL(pay, struct tulpavice_payment)
{
    const struct sale *sale = &inputs->sales[i];
    return who->pay(sale->vma, sale->voids, sale->density, sale->price, sale->quantity);
}
LOOP(pay, struct tulpavice_payment, a.refusal.number + a.composite + a.lot + a.pay)
ANSWER(pay, struct tulpavice_payment, a.refusal.number, a.composite, a.vma, a.voids, a.density, a.lot, a.pay)

CALL(mixture, struct tulpavice_mixture_limits)
{
    const struct lookup *lookup = &inputs->lookups[i];
    return who->mixture(lookup->mixture, lookup->minimum, lookup->target);
}
LOOP(mixture, struct tulpavice_mixture_limits, a.refusal.number + (uint32_t)a.vma_upper + (uint32_t)a.density_lower)
ANSWER(mixture, struct tulpavice_mixture_limits, a.refusal.number, a.vma_lower, a.vma_upper, a.voids_lower, a.voids_upper,
       a.density_lower, a.density_upper)

CALL(mean, struct tulpavice_mean)
{
    return who->mean(inputs->lots[i].readings, inputs->lots[i].count);
}
LOOP(mean, struct tulpavice_mean, a.refusal.number + (uint32_t)a.total + a.count)
ANSWER(mean, struct tulpavice_mean, a.refusal.number, a.total, a.count)

CALL(deviation, struct tulpavice_deviation)
{
    return who->deviation(inputs->lots[i].readings, inputs->lots[i].count);
}
LOOP(deviation, struct tulpavice_deviation, a.refusal.number + (uint32_t)a.deviation)
ANSWER(deviation, struct tulpavice_deviation, a.refusal.number, a.deviation)

CALL(row, struct tulpavice_row)
{
    const struct tulpavice_lot *lot = &inputs->lots[i];
    return who->row(inputs->one.bytes, inputs->one.size, inputs->editions_of_one[i], inputs->bytes[i], 4 * lot->count,
                    lot->upper, lot->upper_present, lot->lower, lot->lower_present);
}

/* A double by its bits. */
static int64_t bits(double value)
{
    int64_t taken;
    memcpy(&taken, &value, sizeof taken);
    return taken;
}

LOOP(row, struct tulpavice_row,
     a.refusal.number + (uint64_t)bits(a.mean) + (uint64_t)bits(a.deviation) + (uint64_t)bits(a.pwl))
ANSWER(row, struct tulpavice_row, a.refusal.number, bits(a.mean), bits(a.deviation), bits(a.pwl))

static uint8_t edition[TABLE_ROOM];

CALL(table_106_1, struct tulpavice_written)
{
    return who->table_106_1((uint16_t)inputs->editions[i], edition, inputs->tables[i]);
}
LOOP(table_106_1, struct tulpavice_written, a.refusal.number + a.size + (a.refusal.number ? 0 : edition[a.size / 2]))

static size_t answer_table_106_1(const struct calculator *who, const struct inputs *inputs, size_t i, int64_t *taken)
{
    memset(edition, 0xA5, sizeof edition);
    struct tulpavice_written a = call_table_106_1(who, inputs, i);
    taken[0] = a.refusal.number;
    taken[1] = (int64_t)a.size;
    for (size_t j = 0; j < sizeof edition; j++)
        taken[2 + j] = edition[j];
    return 2 + sizeof edition;
}

static uint8_t stored[2 * TABLE_ROOM];

/* A second edition into a store of one: what the call before this one stored is taken out again, by a zero length. */
CALL(store, struct tulpavice_place)
{
    const uint8_t *second = inputs->eight.bytes + (inputs->editions_of_one[i] == 1 ? TULPAVICE_TABLE_106_1_BYTES : 0);
    stored[TULPAVICE_TABLE_106_1_BYTES] = stored[TULPAVICE_TABLE_106_1_BYTES + 1] = 0;
    memcpy(stored, inputs->one.bytes, TULPAVICE_TABLE_106_1_BYTES);
    return who->store(stored, sizeof stored, second, TULPAVICE_TABLE_106_1_BYTES);
}
LOOP(store, struct tulpavice_place, a.refusal.number + a.start)

static size_t answer_store(const struct calculator *who, const struct inputs *inputs, size_t i, int64_t *taken)
{
    memset(stored, 0xA5, sizeof stored);
    struct tulpavice_place a = call_store(who, inputs, i);
    taken[0] = a.refusal.number;
    taken[1] = (int64_t)a.start;
    for (size_t j = 0; j < sizeof stored; j++)
        taken[2 + j] = stored[j];
    return 2 + sizeof stored;
}

CALL(find, struct tulpavice_place)
{
    return who->find(inputs->eight.bytes, inputs->eight.size, inputs->editions[i]);
}
LOOP(find, struct tulpavice_place, a.refusal.number + a.start)
ANSWER(find, struct tulpavice_place, a.refusal.number, (int64_t)a.start)

static uint32_t numbers_listed[NUMBERS];

CALL(list, struct tulpavice_listed)
{
    return who->list(inputs->eight.bytes, inputs->eight.size, numbers_listed, inputs->lists[i]);
}
LOOP(list, struct tulpavice_listed, a.refusal.number + a.items + (a.items ? numbers_listed[a.items - 1] : 0))

static size_t answer_list(const struct calculator *who, const struct inputs *inputs, size_t i, int64_t *taken)
{
    memset(numbers_listed, 0xA5, sizeof numbers_listed);
    struct tulpavice_listed a = call_list(who, inputs, i);
    taken[0] = a.refusal.number;
    taken[1] = (int64_t)a.items;
    for (size_t j = 0; j < NUMBERS; j++)
        taken[2 + j] = numbers_listed[j];
    return 2 + NUMBERS;
}

static void show_held(const struct tulpavice_lot *lot)
{
    printf("upper %" PRId32 " (%" PRIu32 "), lower %" PRId32 " (%" PRIu32 "), %" PRIu32 " readings:", lot->upper,
           lot->upper_present, lot->lower, lot->lower_present, lot->count);
    for (uint32_t j = 0; j < lot->count; j++)
        printf(" %" PRId32, lot->readings[j]);
}

static void show_lot(const struct inputs *inputs, size_t i)
{
    printf("room %zu, ", inputs->rooms[i]);
    show_held(&inputs->lots[i]);
}

static void show_record(const struct inputs *inputs, size_t i)
{
    for (size_t j = 0; j < inputs->records[i].size; j++)
        printf("%02X ", inputs->records[i].bytes[j]);
}

static void show_sale(const struct inputs *inputs, size_t i)
{
    const struct sale *sale = &inputs->sales[i];
    printf("vma %" PRId64 ", voids %" PRId64 ", density %" PRId64 ", price %" PRId64 ", quantity %" PRId64, sale->vma,
           sale->voids, sale->density, sale->price, sale->quantity);
}

static void show_lookup(const struct inputs *inputs, size_t i)
{
    const struct lookup *lookup = &inputs->lookups[i];
    printf("mixture %" PRId64 ", minimum %" PRId32 ", target %" PRId32, lookup->mixture, lookup->minimum,
           lookup->target);
}

static void show_job(const struct inputs *inputs, size_t i)
{
    printf("%zu sublots, room %zu", inputs->jobs[i].sublots, inputs->jobs[i].room);
}

static void show_sheet(const struct tulpavice_sheet *sheet)
{
    printf("%" PRId64 " %" PRId64 " %" PRId64 " %" PRId64 " %" PRId64 " %" PRId64, sheet->vma, sheet->voids,
           sheet->density, sheet->composite, sheet->verdict, sheet->pay);
}

static void show_claim(const struct inputs *inputs, size_t i)
{
    const struct claim *claim = &inputs->claims[i];
    printf("price %" PRId64 ", quantity %" PRId64 ", sheet ", claim->price, claim->quantity);
    show_sheet(&claim->sheet);
    printf(", other ");
    show_sheet(&claim->other);
    printf(", room %zu; VMA ", claim->room);
    show_held(&claim->vma);
    printf("; voids ");
    show_held(&claim->voids);
    printf("; density ");
    show_held(&claim->density);
}

static void show_edition(const struct inputs *inputs, size_t i)
{
    printf("edition %" PRIu32 " of one, %" PRIu32 " of eight, room %zu", inputs->editions_of_one[i], inputs->editions[i],
           inputs->lists[i]);
}

#define KIND(NAME, SHOW, CALLS) {#NAME, run_##NAME, answer_##NAME, SHOW, CALLS}

/* The deviation's search from zero is slow by design, and a store is looked at whole: a turn has fewer of these. */
enum { CALLS = 512, FEW_CALLS = CALLS / 8, SLOW_CALLS = CALLS / 32 };

const struct kind kinds[KINDS] = {
    KIND(evaluate, show_lot, FEW_CALLS),     KIND(evaluate_of_8, show_lot, SLOW_CALLS),
    KIND(evaluate_lot, show_lot, FEW_CALLS), KIND(read, show_record, CALLS),
    KIND(write, show_lot, CALLS),            KIND(pay, show_sale, CALLS),
    KIND(mixture, show_lookup, CALLS),       KIND(mean, show_lot, CALLS),
    KIND(deviation, show_lot, SLOW_CALLS),   KIND(row, show_lot, SLOW_CALLS),
    KIND(cut, show_job, CALLS),              KIND(check, show_claim, FEW_CALLS),
    KIND(compare, show_claim, CALLS),        KIND(table_106_1, show_edition, CALLS),
    KIND(store, show_edition, FEW_CALLS),    KIND(find, show_edition, SLOW_CALLS),
    KIND(list, show_edition, SLOW_CALLS),
};
