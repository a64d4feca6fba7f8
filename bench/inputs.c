/* Lots as they come from a job: three characteristics near document 000's limits, mostly ten readings, fewer in one lot
   of three, and more in one of sixteen, as where what was left over has joined it. One in sixteen of each input is
   spoiled, mostly so that it is refused. */
#include "inputs.h"

#include <stdbool.h>

#include "plain.h"

enum { ONE_REFUSED_IN = 16, ONE_JOINED_IN = 16, WHOLE_LOT = 10 };

/* splitmix64, from a seed of its own */
static uint64_t state;

static uint64_t next(void)
{
    uint64_t x = state += 0x9E3779B97F4A7C15u;
    x = (x ^ x >> 30) * 0xBF58476D1CE4E5B9u;
    x = (x ^ x >> 27) * 0x94D049BB133111EBu;
    return x ^ x >> 31;
}

static int32_t between(int32_t low, int32_t high)
{
    return low + (int32_t)(next() % (uint64_t)(high - low + 1));
}

static bool one_in(int32_t n)
{
    return between(1, n) == 1;
}

/* From -reach to reach, the sum of four draws of 16 bits, so that far ones are rare. */
static int32_t off(int32_t reach)
{
    uint64_t x = next();
    int64_t sum = 0;
    for (int j = 0; j < 4; j++)
        sum += (int64_t)(x >> 16 * j & 0xFFFF);
    return (int32_t)((sum - 2 * 0xFFFF) * reach / (2 * 0xFFFF));
}

/* Readings about a centre, in whole steps of the instrument; now and then all are equal. */
static void fill(struct tulpavice_lot *lot, int32_t centre, int32_t reach, int32_t step)
{
    if (one_in(64))
        reach = 0;
    for (uint32_t i = 0; i < lot->count; i++)
        lot->readings[i] = (centre + off(reach)) / step * step;
}

static struct lookup lookup_of_job(void)
{
    return (struct lookup){between(0, 3), 500 * between(22, 32), 500 * between(6, 10)};
}

static uint32_t count_of_job(void)
{
    if (one_in(ONE_JOINED_IN))
        return (uint32_t)between(WHOLE_LOT + 1, TULPAVICE_MOST);
    return one_in(3) ? (uint32_t)between(2, WHOLE_LOT - 1) : WHOLE_LOT;
}

static struct tulpavice_lot lot_of_job(void)
{
    struct tulpavice_lot lot = {.count = count_of_job()};
    struct lookup job = lookup_of_job();
    struct tulpavice_mixture_limits limits = plain_mixture(job.mixture, job.minimum, job.target);
    switch (between(0, 2)) {
    case 0:
        lot.lower = limits.vma_lower, lot.upper = limits.vma_upper;
        fill(&lot, lot.lower + between(300, 1500), between(600, 1800), 10);
        break;
    case 1:
        lot.lower = limits.voids_lower, lot.upper = limits.voids_upper;
        fill(&lot, job.target + between(-700, 700), between(1600, 3600), 10);
        break;
    default:
        lot.lower = limits.density_lower, lot.upper = limits.density_upper;
        fill(&lot, lot.lower + between(500, 3000), between(2000, 4400), 100);
    }
    int32_t limited = between(1, 10);
    lot.upper_present = limited != 1;
    lot.lower_present = limited != 2;
    return lot;
}

static void spoil_lot(struct tulpavice_lot *lot)
{
    switch (between(4, 7)) {
    case 4:
        lot->count = 1;
        break;
    case 5:
        lot->readings[between(0, (int32_t)lot->count - 1)] = between(500001, 900000);
        break;
    case 6:
        lot->upper_present = lot->lower_present = 0;
        break;
    default:
        lot->upper_present = lot->lower_present = 1;
        lot->upper = lot->lower - 1;
    }
}

/* Four bytes to each reading, highest first. */
static void spell(const struct tulpavice_lot *lot, uint8_t *bytes)
{
    for (uint32_t i = 0; i < lot->count; i++)
        for (int shift = 24; shift >= 0; shift -= 8)
            *bytes++ = (uint8_t)((uint32_t)lot->readings[i] >> shift);
}

static struct record record_of_job(void)
{
    struct record record;
    record.size = plain_write(lot_of_job(), record.bytes, sizeof record.bytes).size;
    if (one_in(ONE_REFUSED_IN))
        record.bytes[between(0, 13)] ^= 0x40;
    return record;
}

static struct sale sale_of_job(void)
{
    struct sale sale = {between(4500, 10000), between(4500, 10000), between(4500, 10000), between(5000, 15000),
                        between(10000, 2000000)};
    if (one_in(ONE_REFUSED_IN))
        sale.density = -1;
    return sale;
}

/* Mostly of some hundred sublots; it is spoiled by too many, or by a list that is too short. */
static struct job job_to_cut(void)
{
    struct job job = {(size_t)between(0, one_in(8) ? TULPAVICE_MOST_SUBLOTS : 400), LIST};
    if (one_in(ONE_REFUSED_IN)) {
        if (one_in(2))
            job.sublots += TULPAVICE_MOST_SUBLOTS + 1;
        else
            job.room = job.sublots / WHOLE_LOT;
    }
    return job;
}

/* A lot that has a percentage. */
static struct tulpavice_lot lot_of_sheet(void)
{
    struct tulpavice_lot lot = lot_of_job();
    if (lot.count > WHOLE_LOT)
        lot.count = WHOLE_LOT;
    return lot;
}

static int64_t right_pwl(const struct store *store, struct tulpavice_lot lot)
{
    return plain_evaluate_lot(store->bytes, store->size, 1, lot).pwl;
}

static struct tulpavice_sheet right_sheet(const struct store *store, const struct claim *claim)
{
    int64_t vma = right_pwl(store, claim->vma), voids = right_pwl(store, claim->voids),
            density = right_pwl(store, claim->density);
    struct tulpavice_payment paid = plain_pay(vma, voids, density, claim->price, claim->quantity);
    return (struct tulpavice_sheet){vma, voids, density, paid.composite, paid.lot, paid.pay};
}

/* An entry, and the pay that follows from it, are claimed too high. */
static void inflate(struct tulpavice_sheet *sheet)
{
    switch (between(0, 3)) {
    case 0:
        sheet->voids += 100;
        break;
    case 1:
        sheet->density += 1;
        break;
    case 2:
        sheet->composite += 3;
    }
    sheet->pay += between(1, 100000);
}

/* One sheet in two is right, and is compared with one that is not. */
static struct claim claim_of_job(const struct store *store)
{
    struct claim claim = {.vma = lot_of_sheet(), .voids = lot_of_sheet(), .density = lot_of_sheet(),
                          .price = between(5000, 15000), .quantity = between(10000, 2000000), .room = DIFFERENCES};
    claim.sheet = claim.other = right_sheet(store, &claim);
    inflate(one_in(2) ? &claim.sheet : &claim.other);
    if (one_in(ONE_REFUSED_IN))
        spoil_lot(&claim.density);
    if (one_in(ONE_REFUSED_IN))
        claim.sheet.verdict = 2;
    if (one_in(ONE_REFUSED_IN))
        claim.room = 1;
    return claim;
}

static struct store store_of(uint16_t editions)
{
    struct store store = {.size = 0};
    for (uint16_t number = 1; number <= editions; number++)
        store.size += plain_table_106_1(number, store.bytes + store.size, sizeof store.bytes - store.size).size;
    return store;
}

void make_inputs(struct inputs *inputs, size_t number)
{
    state = 106;
    inputs->number = number;
    inputs->one = store_of(1);
    inputs->eight = store_of(TULPAVICE_MOST_EDITIONS);
    for (size_t i = 0; i < number; i++) {
        inputs->lots[i] = lot_of_job();
        if (one_in(ONE_REFUSED_IN))
            spoil_lot(&inputs->lots[i]);
        spell(&inputs->lots[i], inputs->bytes[i]);
        inputs->rooms[i] = one_in(ONE_REFUSED_IN) ? (size_t)between(0, TULPAVICE_MOST_BYTES) : ROOM;
        inputs->records[i] = record_of_job();
        inputs->sales[i] = sale_of_job();
        inputs->lookups[i] = lookup_of_job();
        if (one_in(ONE_REFUSED_IN))
            inputs->lookups[i].mixture = 4;
        inputs->jobs[i] = job_to_cut();
        inputs->editions_of_one[i] = one_in(ONE_REFUSED_IN) ? 2 : 1;
        inputs->editions[i] = (uint32_t)between(1, TULPAVICE_MOST_EDITIONS) + (one_in(ONE_REFUSED_IN) ? 100 : 0);
        inputs->lists[i] = one_in(ONE_REFUSED_IN) ? TULPAVICE_MOST_EDITIONS - 1 : NUMBERS;
        inputs->tables[i] = one_in(ONE_REFUSED_IN) ? TULPAVICE_TABLE_106_1_BYTES - 1 : TABLE_ROOM;
    }
    for (size_t i = 0; i < number; i++)
        inputs->claims[i] = claim_of_job(&inputs->one);
}
