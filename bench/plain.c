/* The rules of documents 01 and 02 in plain C, as one would write them by hand for speed: every check that the library
   makes, no search or sum done twice, and nothing that only a machine would write. */
#include "plain.h"

#include <stdbool.h>
#include <string.h>

#include "table.h"

enum { FEWEST = 2, FARTHEST = 500000, WHOLE = 10000, LAST_ROW = 53, HEAD = 13, WHOLE_LOT = 10, MOST_JOINED = 7 };
enum { LEAST_ENTRY = 5000, EDITION_HEAD = 7, COLUMN = 2 * (LAST_ROW + 1) };

struct totals {
    int64_t n;
    int64_t t;
    int64_t v;
};

static bool out_of_range(int32_t x)
{
    return x < -FARTHEST || x > FARTHEST;
}

static bool outside(int64_t x, int64_t greatest)
{
    return x < 0 || x > greatest;
}

/* n, T and V; the refusal, 4 or 5, or 0 for none. Whether a reading is in range is seen while it is added. */
static uint32_t total(const int32_t *readings, size_t count, struct totals *a)
{
    if (count < FEWEST || count > TULPAVICE_MOST)
        return 4;
    int64_t t = 0, z = 0;
    for (size_t i = 0; i < count; i++) {
        int64_t x = readings[i];
        if (out_of_range(readings[i]))
            return 5;
        t += x;
        z += x * x;
    }
    a->n = (int64_t)count;
    a->t = t;
    a->v = a->n * z - t * t;
    return 0;
}

static unsigned two(const uint8_t *bytes)
{
    return (unsigned)bytes[0] << 8 | bytes[1];
}

/* It starts at 5,000, never falls and ends at 10,000. */
static bool is_column(const uint8_t *column)
{
    unsigned before = LEAST_ENTRY;
    if (two(column) != LEAST_ENTRY)
        return false;
    for (size_t i = 2; i < COLUMN; i += 2) {
        unsigned entry = two(column + i);
        if (entry < before)
            return false;
        before = entry;
    }
    return before == WHOLE;
}

static bool is_edition(const uint8_t *entry, size_t size)
{
    if (size < EDITION_HEAD)
        return false;
    size_t first = entry[5], last = entry[6];
    if (two(entry) != size - 2 || entry[2] != 1 || first < FEWEST || last > TULPAVICE_MOST || first > last ||
        size != TULPAVICE_EDITION_BYTES(last + 1 - first))
        return false;
    for (size_t at = EDITION_HEAD; at < size; at += COLUMN) {
        if (!is_column(entry + at))
            return false;
    }
    return true;
}

/* A store: the place where it ends, how many editions it has, the least number that another may have, and the edition
   that is named, or NULL where it has none. */
struct editions {
    size_t end;
    size_t count;
    uint32_t least;
    const uint8_t *named;
};

/* One pass over a store; whether it is one. */
static bool walk(const uint8_t *store, size_t size, uint32_t edition, struct editions *found)
{
    struct editions a = {0, 0, 0, NULL};
    while (size - a.end >= 2 && two(store + a.end) != 0) {
        const uint8_t *entry = store + a.end;
        size_t entry_size = 2 + two(entry);
        if (a.count == TULPAVICE_MOST_EDITIONS || entry_size > size - a.end || !is_edition(entry, entry_size))
            return false;
        uint32_t number = two(entry + 3);
        if (number < a.least)
            return false;
        if (number == edition)
            a.named = entry;
        a.least = number + 1;
        a.count++;
        a.end += entry_size;
    }
    *found = a;
    return true;
}

/* What two limits that are in range can still meet: 6 and 7. */
static uint32_t limits_refused(int32_t upper, bool has_upper, int32_t lower, bool has_lower)
{
    if (!has_upper && !has_lower)
        return 6;
    if (has_upper && has_lower && lower > upper)
        return 7;
    return 0;
}

/* What a percentage of readings in range can still meet: 5 for a limit, then 6, 7, 13 and 10. */
static uint32_t lookup_refused(const uint8_t *edition, int64_t n, int32_t upper, bool has_upper, int32_t lower,
                               bool has_lower)
{
    if ((has_upper && out_of_range(upper)) || (has_lower && out_of_range(lower)))
        return 5;
    uint32_t refusal = limits_refused(upper, has_upper, lower, has_lower);
    if (refusal != 0)
        return refusal;
    if (!edition)
        return 13;
    if (n < edition[5] || n > edition[6])
        return 10;
    return 0;
}

/* Of an edition that has one, the column for n. */
static const uint8_t *column_for(const uint8_t *edition, int64_t n)
{
    return edition + EDITION_HEAD + COLUMN * (n - edition[5]);
}

/* The largest k from 0 to 53 with k = 0 or (2k-1)^2 nV <= 1600 (n-1) D^2, and how many were tried. The widest readings
   take all 64 bits. */
static unsigned row(uint64_t nv, uint64_t reach, uint32_t *tried)
{
    unsigned low = 0, high = LAST_ROW;
    uint32_t tries = 0;
    while (low < high) {
        unsigned middle = (low + high + 1) / 2;
        uint64_t odd = 2 * middle - 1;
        tries++;
        if (odd * odd * nv <= reach)
            low = middle;
        else
            high = middle - 1;
    }
    *tried = tries;
    return low;
}

/* Where no row is tried, `tried` is left as it is. */
static int64_t side(const uint8_t *column, const struct totals *a, int64_t d, uint32_t *tried)
{
    int64_t entry = WHOLE;
    if (a->v != 0)
        entry = two(column + 2 * row((uint64_t)(a->n * a->v), (uint64_t)(1600 * (a->n - 1) * d * d), tried));
    return d < 0 ? WHOLE - entry : entry;
}

/* By an edition, or NULL where none is found. */
static struct tulpavice_percentages evaluate(const uint8_t *edition, const int32_t *readings, size_t count,
                                             int32_t upper, bool has_upper, int32_t lower, bool has_lower)
{
    struct tulpavice_percentages answer = {0};
    struct totals a;
    answer.refusal.number = total(readings, count, &a);
    if (answer.refusal.number == 0)
        answer.refusal.number = lookup_refused(edition, a.n, upper, has_upper, lower, has_lower);
    if (answer.refusal.number != 0)
        return answer;
    const uint8_t *column = column_for(edition, a.n);
    answer.upper = has_upper ? side(column, &a, a.n * upper - a.t, &answer.tried_upper) : WHOLE;
    answer.lower = has_lower ? side(column, &a, a.t - a.n * lower, &answer.tried_lower) : WHOLE;
    answer.pwl = answer.upper + answer.lower - WHOLE;
    return answer;
}

struct tulpavice_percentages plain_evaluate(const uint8_t *store, size_t store_size, uint32_t edition,
                                            const int32_t *readings, size_t count, int32_t upper,
                                            uint32_t upper_present, int32_t lower, uint32_t lower_present)
{
    struct editions found;
    if (!walk(store, store_size, edition, &found))
        return (struct tulpavice_percentages){.refusal.number = 11};
    return evaluate(found.named, readings, count, upper, upper_present, lower, lower_present);
}

struct tulpavice_percentages plain_evaluate_lot(const uint8_t *store, size_t store_size, uint32_t edition,
                                                struct tulpavice_lot lot)
{
    return plain_evaluate(store, store_size, edition, lot.readings, lot.count, lot.upper, lot.upper_present, lot.lower,
                          lot.lower_present);
}

struct tulpavice_mean plain_mean(const int32_t *readings, size_t count)
{
    struct tulpavice_mean answer = {0};
    struct totals a;
    answer.refusal.number = total(readings, count, &a);
    if (answer.refusal.number == 0) {
        answer.total = (int32_t)a.t;
        answer.count = (uint32_t)a.n;
    }
    return answer;
}

/* By a search from zero, as the library has it. */
static int64_t rounded_deviation(const struct totals *a)
{
    int64_t pairs = a->n * (a->n - 1), s = 0;
    while ((2 * s + 1) * (2 * s + 1) * pairs <= 4 * a->v)
        s++;
    return s;
}

struct tulpavice_deviation plain_deviation(const int32_t *readings, size_t count)
{
    struct tulpavice_deviation answer = {0};
    struct totals a;
    answer.refusal.number = total(readings, count, &a);
    if (answer.refusal.number == 0)
        answer.deviation = (int32_t)rounded_deviation(&a);
    return answer;
}

struct tulpavice_payment plain_pay(int64_t vma, int64_t voids, int64_t density, int64_t price, int64_t quantity)
{
    struct tulpavice_payment answer = {0};
    if (outside(vma, WHOLE) || outside(voids, WHOLE) || outside(density, WHOLE) || outside(price, 10000000) ||
        outside(quantity, 100000000)) {
        answer.refusal.number = 9;
        return answer;
    }
    int64_t weighted = 3 * (10600 + vma) + 3 * (10600 + voids) + 4 * (10600 + density);
    answer.composite = (weighted + 100) / 200;
    answer.vma = vma < 5000;
    answer.voids = voids < 5000;
    answer.density = density < 5000;
    answer.lot = answer.vma | answer.voids | answer.density;
    answer.pay = (price * quantity * answer.composite + 50000) / 100000;
    return answer;
}

struct tulpavice_mixture_limits plain_mixture(int64_t mixture, int32_t minimum, int32_t target)
{
    static const int32_t density[4][2] = {{92500, 97000}, {92200, 97000}, {93000, 98000}, {91500, 97000}};
    struct tulpavice_mixture_limits answer = {0};
    if (minimum < -FARTHEST + 700 || minimum > FARTHEST - 3000 || target < -FARTHEST + 1350 ||
        target > FARTHEST - 1350) {
        answer.refusal.number = 5;
    } else if (outside(mixture, 3)) {
        answer.refusal.number = 9;
    } else {
        answer.vma_lower = minimum - 700;
        answer.vma_upper = minimum + 3000;
        answer.voids_lower = target - 1350;
        answer.voids_upper = target + 1350;
        answer.density_lower = density[mixture][0];
        answer.density_upper = density[mixture][1];
    }
    return answer;
}

static uint32_t word(const uint8_t *bytes)
{
    return (uint32_t)bytes[0] << 24 | (uint32_t)bytes[1] << 16 | (uint32_t)bytes[2] << 8 | bytes[3];
}

static void put(uint8_t *out, uint32_t x)
{
    out[0] = (uint8_t)(x >> 24);
    out[1] = (uint8_t)(x >> 16);
    out[2] = (uint8_t)(x >> 8);
    out[3] = (uint8_t)x;
}

/* What the first 13 bytes can meet: 1 to 4. */
static uint32_t head_refused(const uint8_t *bytes, size_t size)
{
    if (size < HEAD)
        return 1;
    size_t length = (size_t)bytes[0] << 8 | bytes[1];
    unsigned flags = bytes[3], n = bytes[12];
    if (length != size - 2)
        return 1;
    if (bytes[2] != 1)
        return 2;
    if (flags > 3 || (!(flags & 1) && word(bytes + 4) != 0) || (!(flags & 2) && word(bytes + 8) != 0))
        return 3;
    if (n < FEWEST || n > TULPAVICE_MOST || length != 11 + 4 * n)
        return 4;
    return 0;
}

/* The lot of a record whose head is not refused, and what it can meet: 5 to 7. An absent limit's number is 0. */
static uint32_t take_lot(const uint8_t *bytes, struct tulpavice_lot *lot)
{
    lot->upper = (int32_t)word(bytes + 4);
    lot->upper_present = bytes[3] & 1;
    lot->lower = (int32_t)word(bytes + 8);
    lot->lower_present = bytes[3] >> 1;
    lot->count = bytes[12];
    if (out_of_range(lot->upper) || out_of_range(lot->lower))
        return 5;
    for (size_t i = 0; i < lot->count; i++) {
        lot->readings[i] = (int32_t)word(bytes + HEAD + 4 * i);
        if (out_of_range(lot->readings[i]))
            return 5;
    }
    return limits_refused(lot->upper, lot->upper_present, lot->lower, lot->lower_present);
}

struct tulpavice_read plain_read(const uint8_t *bytes, size_t size)
{
    struct tulpavice_read answer = {0};
    uint32_t refusal = head_refused(bytes, size);
    if (refusal == 0)
        refusal = take_lot(bytes, &answer.lot);
    if (refusal != 0)
        return (struct tulpavice_read){.refusal.number = refusal};
    return answer;
}

static uint32_t lot_refused(const struct tulpavice_lot *lot)
{
    if (lot->count < FEWEST || lot->count > TULPAVICE_MOST)
        return 4;
    if ((lot->upper_present && out_of_range(lot->upper)) || (lot->lower_present && out_of_range(lot->lower)))
        return 5;
    for (size_t i = 0; i < lot->count; i++) {
        if (out_of_range(lot->readings[i]))
            return 5;
    }
    return limits_refused(lot->upper, lot->upper_present, lot->lower, lot->lower_present);
}

struct tulpavice_written plain_write(struct tulpavice_lot lot, uint8_t *out, size_t room)
{
    struct tulpavice_written answer = {0};
    size_t size = HEAD + 4 * (size_t)lot.count;
    answer.refusal.number = lot_refused(&lot);
    if (answer.refusal.number == 0 && room < size)
        answer.refusal.number = 8;
    if (answer.refusal.number != 0)
        return answer;
    bool has_upper = lot.upper_present, has_lower = lot.lower_present;
    out[0] = 0;
    out[1] = (uint8_t)(size - 2);
    out[2] = 1;
    out[3] = (uint8_t)(has_upper | has_lower << 1);
    put(out + 4, has_upper ? (uint32_t)lot.upper : 0);
    put(out + 8, has_lower ? (uint32_t)lot.lower : 0);
    out[12] = (uint8_t)lot.count;
    for (size_t i = 0; i < lot.count; i++)
        put(out + HEAD + 4 * i, (uint32_t)lot.readings[i]);
    answer.size = size;
    return answer;
}

/* Every lot starts ten after the one before it and has ten, but the last, which has all that is left. */
struct tulpavice_listed plain_cut(size_t sublots, uint32_t *out, size_t room)
{
    struct tulpavice_listed answer = {0};
    if (sublots > TULPAVICE_MOST_SUBLOTS) {
        answer.refusal.number = 9;
        return answer;
    }
    /* eight or nine left over count as ten */
    size_t lots = (sublots + WHOLE_LOT - MOST_JOINED - 1) / WHOLE_LOT;
    if (lots == 0 && sublots != 0)
        lots = 1;
    if (room < 2 * lots) {
        answer.refusal.number = 8;
        return answer;
    }
    uint32_t start = 0;
    for (size_t i = 0; i < lots; i++, start += WHOLE_LOT) {
        out[2 * i] = start;
        out[2 * i + 1] = WHOLE_LOT;
    }
    if (lots != 0)
        out[2 * lots - 1] = (uint32_t)sublots + WHOLE_LOT - start;
    answer.items = lots;
    return answer;
}

static bool sheet_refused(const struct tulpavice_sheet *sheet)
{
    const int64_t greatest = 1000000000000000;
    return outside(sheet->vma, greatest) || outside(sheet->voids, greatest) || outside(sheet->density, greatest) ||
           outside(sheet->composite, greatest) || outside(sheet->verdict, 1) || outside(sheet->pay, greatest);
}

static struct tulpavice_percentages evaluate_lot(const uint8_t *edition, const struct tulpavice_lot *lot)
{
    return evaluate(edition, lot->readings, lot->count, lot->upper, lot->upper_present, lot->lower, lot->lower_present);
}

/* The sheet that the rules give by an edition; the refusal, or 0 for none. */
static uint32_t work_out(const uint8_t *edition, const struct tulpavice_lot *vma, const struct tulpavice_lot *voids,
                         const struct tulpavice_lot *density, int64_t price, int64_t quantity,
                         struct tulpavice_sheet *sheet)
{
    struct tulpavice_percentages a = evaluate_lot(edition, vma);
    if (a.refusal.number != 0)
        return a.refusal.number;
    struct tulpavice_percentages b = evaluate_lot(edition, voids);
    if (b.refusal.number != 0)
        return b.refusal.number;
    struct tulpavice_percentages c = evaluate_lot(edition, density);
    if (c.refusal.number != 0)
        return c.refusal.number;
    struct tulpavice_payment paid = plain_pay(a.pwl, b.pwl, c.pwl, price, quantity);
    *sheet = (struct tulpavice_sheet){a.pwl, b.pwl, c.pwl, paid.composite, paid.lot, paid.pay};
    return paid.refusal.number;
}

static void take_entries(const struct tulpavice_sheet *sheet, int64_t *entries)
{
    entries[0] = sheet->vma;
    entries[1] = sheet->voids;
    entries[2] = sheet->density;
    entries[3] = sheet->composite;
    entries[4] = sheet->verdict;
    entries[5] = sheet->pay;
}

struct tulpavice_checked plain_check(const uint8_t *store, size_t store_size, uint32_t edition,
                                     struct tulpavice_lot vma, struct tulpavice_lot voids, struct tulpavice_lot density,
                                     int64_t price, int64_t quantity, struct tulpavice_sheet sheet)
{
    struct tulpavice_checked answer = {0};
    struct editions found;
    struct tulpavice_sheet right;
    int64_t ours[TULPAVICE_ENTRIES], theirs[TULPAVICE_ENTRIES];
    if (!walk(store, store_size, edition, &found))
        answer.refusal.number = 11;
    else
        answer.refusal.number = work_out(found.named, &vma, &voids, &density, price, quantity, &right);
    if (answer.refusal.number == 0 && sheet_refused(&sheet))
        answer.refusal.number = 9;
    if (answer.refusal.number != 0)
        return answer;
    take_entries(&right, ours);
    take_entries(&sheet, theirs);
    for (uint32_t i = 0; i < TULPAVICE_ENTRIES; i++) {
        if (theirs[i] != ours[i]) {
            answer.entry = i;
            answer.sheet = theirs[i];
            answer.ours = ours[i];
            return answer;
        }
    }
    answer.accepted = 1;
    return answer;
}

struct tulpavice_listed plain_compare(struct tulpavice_sheet first, struct tulpavice_sheet second, int64_t *out,
                                      size_t room)
{
    struct tulpavice_listed answer = {0};
    int64_t a[TULPAVICE_ENTRIES], b[TULPAVICE_ENTRIES];
    size_t items = 0;
    if (sheet_refused(&first) || sheet_refused(&second)) {
        answer.refusal.number = 9;
        return answer;
    }
    take_entries(&first, a);
    take_entries(&second, b);
    for (size_t i = 0; i < TULPAVICE_ENTRIES; i++)
        items += a[i] != b[i];
    if (room < 2 * items) {
        answer.refusal.number = 8;
        return answer;
    }
    for (int64_t i = 0; i < TULPAVICE_ENTRIES; i++) {
        if (a[i] != b[i]) {
            *out++ = i;
            *out++ = a[i] - b[i];
        }
    }
    answer.items = items;
    return answer;
}

/* n, T and V of readings as bytes; the refusal, 4 or 5, or 0 for none. */
static uint32_t total_bytes(const uint8_t *bytes, size_t size, struct totals *a)
{
    if (size % 4 != 0 || size < 4 * FEWEST || size > 4 * TULPAVICE_MOST)
        return 4;
    int64_t t = 0, z = 0;
    for (size_t i = 0; i < size; i += 4) {
        int32_t x = (int32_t)word(bytes + i);
        if (out_of_range(x))
            return 5;
        t += x;
        z += (int64_t)x * x;
    }
    a->n = (int64_t)(size / 4);
    a->t = t;
    a->v = a->n * z - t * t;
    return 0;
}

struct tulpavice_row plain_row(const uint8_t *store, size_t store_size, uint32_t edition, const uint8_t *bytes,
                               size_t size, int32_t upper, uint32_t upper_present, int32_t lower,
                               uint32_t lower_present)
{
    struct tulpavice_row answer = {0};
    struct editions found;
    struct totals a;
    if (!walk(store, store_size, edition, &found))
        answer.refusal.number = 11;
    else
        answer.refusal.number = total_bytes(bytes, size, &a);
    if (answer.refusal.number == 0)
        answer.refusal.number = lookup_refused(found.named, a.n, upper, upper_present, lower, lower_present);
    if (answer.refusal.number != 0)
        return answer;
    const uint8_t *column = column_for(found.named, a.n);
    uint32_t tried; /* which the notebook does not show */
    int64_t above = upper_present ? side(column, &a, a.n * upper - a.t, &tried) : WHOLE;
    int64_t below = lower_present ? side(column, &a, a.t - a.n * lower, &tried) : WHOLE;
    answer.mean = (double)a.t / (double)(1000 * a.n);
    answer.deviation = (double)rounded_deviation(&a) / 1000;
    answer.pwl = (double)(above + below - WHOLE) / 100;
    return answer;
}

struct tulpavice_written plain_table_106_1(uint16_t number, uint8_t *out, size_t room)
{
    if (room < sizeof TABLE_106_1)
        return (struct tulpavice_written){.refusal.number = 8};
    memcpy(out, TABLE_106_1, sizeof TABLE_106_1);
    out[3] = (uint8_t)(number >> 8);
    out[4] = (uint8_t)number;
    return (struct tulpavice_written){.size = sizeof TABLE_106_1};
}

struct tulpavice_place plain_store(uint8_t *store, size_t store_size, const uint8_t *edition, size_t size)
{
    struct tulpavice_place answer = {0};
    struct editions found;
    if (!walk(store, store_size, 0, &found) || !is_edition(edition, size))
        answer.refusal.number = 11;
    else if (two(edition + 3) < found.least)
        answer.refusal.number = 12;
    else if (found.count == TULPAVICE_MOST_EDITIONS || size > store_size - found.end)
        answer.refusal.number = 8;
    if (answer.refusal.number != 0)
        return answer;
    size_t end = found.end + size;
    memcpy(store + found.end, edition, size);
    if (store_size - end >= 2)
        store[end] = store[end + 1] = 0;
    answer.start = found.end;
    return answer;
}

struct tulpavice_place plain_find(const uint8_t *store, size_t store_size, uint32_t edition)
{
    struct editions found;
    if (!walk(store, store_size, edition, &found))
        return (struct tulpavice_place){.refusal.number = 11};
    if (!found.named)
        return (struct tulpavice_place){.refusal.number = 13};
    return (struct tulpavice_place){.start = (size_t)(found.named - store)};
}

struct tulpavice_listed plain_list(const uint8_t *store, size_t store_size, uint32_t *out, size_t room)
{
    struct editions found;
    if (!walk(store, store_size, 0, &found))
        return (struct tulpavice_listed){.refusal.number = 11};
    if (room < found.count)
        return (struct tulpavice_listed){.refusal.number = 8};
    for (size_t i = 0; i < found.count; i++) {
        out[i] = two(store + 3);
        store += 2 + two(store);
    }
    return (struct tulpavice_listed){.items = found.count};
}
