/* Tulpavice: percent within limits (PWL) of asphalt lots, and what is paid for them.

   Units. Readings, limits and deviations are whole thousandths, from -500,000 to 500,000 for readings and limits.
   Percentages are hundredths of a percent, 0 to 10,000. A composite is in thousandths, money in cents, a quantity in
   hundredths of a ton.

   Any numbers and any bytes may be passed. Every call either answers or gives one refusal:

     1  a record of fewer than 13 bytes, or whose length is not its size less 2
     2  a record whose version is not 1
     3  unknown flags in a record, or an absent limit whose bytes are not zero
     4  not 2 to 17 readings, or a size that does not fit their number
     5  a present limit or a reading out of range; in the mixture lookup, a limit that would be
     6  both limits absent
     7  the lower limit above the upper
     8  lent memory shorter than what is to be written; a ninth edition
     9  in pay: a number below 0, a PWL above 10,000, a price above 10,000,000 or a quantity above 100,000,000;
        in the mixture lookup: a mixture number not 0 to 3; in the cut of a job: more than 4,096 sublots; of a pay
        sheet: an entry below 0 or above 1,000,000,000,000,000, or a verdict that is neither 0 nor 1
    10  no column for so many readings in the edition that is named; only where a percentage is asked for
    11  a lent store that is none, or an edition that is not accepted
    12  an edition whose number is not above the last one stored
    13  no edition of that number in the store

   The first that applies is given, in the order in which the call below names them: for most calls the lowest. Each
   struct that is answered begins with the refusal, whose number is 0 for none; of what is refused every other number
   is 0.

   A limit is a number and a presence: 0 is absent, and its number is then not read; any other is present.

   Whoever asks for a percentage lends a store of editions of the table and names one by its number. A store is any bytes:
   up to eight entries, their numbers strictly rising, one after the other from the first byte, and then an end, which is
   two zero bytes or fewer than two bytes. What lies behind the end is not read. So no bytes at all, and zero bytes, are an
   empty store. An entry, numbers highest byte first:

     bytes 0 and 1   how many bytes follow
     byte 2          the version, 1
     bytes 3 and 4   the edition's number
     byte 5          first n, 2 to 17
     byte 6          last n, 2 to 17, not below first n
     from 7 on       a column for each n from first to last: 54 entries of two bytes, hundredths of a percent for the
                     indices 0.00, 0.05, .. to 2.65; the first is 5,000, none is below the one before, the last is 10,000

   Any other bytes are refusal 11, whichever edition is named, and before anything else is looked at.

   What a caller owes. The numbers and bytes may be any; these things the library cannot see for itself, and where one
   does not hold, nothing is promised:

     - Lent memory is a pointer and how many items it points to. That many can be read there or, where it is lent to
       be written, read and written, from before the call until it returns.
     - The pointer is aligned for its items. Bytes may stand anywhere.
     - NULL may be passed with no items, and with no items alone.
     - Nobody else writes lent memory during the call, and nobody else reads what is lent to be written.

   The library keeps no pointer when a call has returned, holds no state, allocates nothing and writes nothing but its
   answer and what is lent to be written: calls may be made from several threads at once. */
#ifndef TULPAVICE_H
#define TULPAVICE_H

#include <stddef.h>
#include <stdint.h>

#ifdef __cplusplus
extern "C" {
#endif

/* The first number goes up where a program must be built anew or is answered otherwise, the second where more is
   offered. docs/VERSIONS.md says what each version has. */
#define TULPAVICE_VERSION "5.0.0"

/* The most readings that a lot can hold, and the most bytes that its record can have. */
#define TULPAVICE_MOST 17
#define TULPAVICE_MOST_BYTES (13 + 4 * TULPAVICE_MOST)

/* The most sublots of a job that is cut, and how many lots that job has: two numbers to each are room for any job. */
#define TULPAVICE_MOST_SUBLOTS 4096
#define TULPAVICE_MOST_LOTS ((TULPAVICE_MOST_SUBLOTS + 2) / 10)

/* The most editions that a store holds, and the bytes of one with so many columns: of Table 106-1's, and the most. */
#define TULPAVICE_MOST_EDITIONS 8
#define TULPAVICE_EDITION_BYTES(columns) (7 + 108 * (columns))
#define TULPAVICE_TABLE_106_1_BYTES TULPAVICE_EDITION_BYTES(9)
#define TULPAVICE_MOST_EDITION_BYTES TULPAVICE_EDITION_BYTES(16)

/* How many entries a pay sheet has: two numbers to each are room for any comparison. */
#define TULPAVICE_ENTRIES 6

/* Why there is no answer: the number above, or 0 where there is one. */
struct tulpavice_refusal {
    uint32_t number;
};

/* A lot: its limits, how many readings it has, and those readings from the first place on. What stands in the places
   after them is not read. */
struct tulpavice_lot {
    int32_t upper;
    uint32_t upper_present;
    int32_t lower;
    uint32_t lower_present;
    uint32_t count;
    int32_t readings[TULPAVICE_MOST];
};

/* The mean, unrounded: the sum of the readings, in thousandths, and their count. */
struct tulpavice_mean {
    struct tulpavice_refusal refusal;
    int32_t total;
    uint32_t count;
};

struct tulpavice_deviation {
    struct tulpavice_refusal refusal;
    int32_t deviation;
};

/* The percentage of each side, percent within limits, and how many rows of the table were tried for each side: 5 or 6,
   but 0 for an absent limit, and 0 where all readings are equal. */
struct tulpavice_percentages {
    struct tulpavice_refusal refusal;
    int64_t upper;
    int64_t lower;
    int64_t pwl;
    uint32_t tried_upper;
    uint32_t tried_lower;
};

/* The composite, the verdict on each characteristic and on the lot (0 accepted, 1 rejected), and what is paid. */
struct tulpavice_payment {
    struct tulpavice_refusal refusal;
    int64_t composite;
    uint32_t vma;
    uint32_t voids;
    uint32_t density;
    uint32_t lot;
    int64_t pay;
};

struct tulpavice_mixture_limits {
    struct tulpavice_refusal refusal;
    int32_t vma_lower;
    int32_t vma_upper;
    int32_t voids_lower;
    int32_t voids_upper;
    int32_t density_lower;
    int32_t density_upper;
};

/* A lot that was read. A limit's presence is 0 or 1; an absent limit's number, and the places after the readings, are 0. */
struct tulpavice_read {
    struct tulpavice_refusal refusal;
    struct tulpavice_lot lot;
};

/* How many bytes were written. */
struct tulpavice_written {
    struct tulpavice_refusal refusal;
    size_t size;
};

/* How many items stand in a lent list that was filled. */
struct tulpavice_listed {
    struct tulpavice_refusal refusal;
    size_t items;
};

/* The place in a store, counted from 0, of the first byte of an edition's entry. */
struct tulpavice_place {
    struct tulpavice_refusal refusal;
    size_t start;
};

/* A pay sheet, its entries 0 to 5 in this order: the PWLs of VMA, voids and density, the composite, the verdict on the lot
   (0 accepted, 1 rejected), and what is paid. */
struct tulpavice_sheet {
    int64_t vma;
    int64_t voids;
    int64_t density;
    int64_t composite;
    int64_t verdict;
    int64_t pay;
};

/* What is found of a sheet: it is accepted (1), or not (0). Of one that is neither accepted nor refused there is the first
   entry that differs, with the sheet's number and ours; of any other these three are 0. */
struct tulpavice_checked {
    struct tulpavice_refusal refusal;
    uint32_t accepted;
    uint32_t entry;
    int64_t sheet;
    int64_t ours;
};

/* The notebook's row: mean and deviation in the readings' own units, thousandths over 1000, and PWL in percent. */
struct tulpavice_row {
    struct tulpavice_refusal refusal;
    double mean;
    double deviation;
    double pwl;
};

/* Of some readings, as plain numbers. Refusals 4 and 5. */
struct tulpavice_mean tulpavice_mean(const int32_t *readings, size_t count);

/* To the nearest thousandth; shown to people, and no percentage depends on it. Refusals 4 and 5. */
struct tulpavice_deviation tulpavice_deviation(const int32_t *readings, size_t count);

/* Writes Table 106-1 as an edition, n = 2 to 10, TULPAVICE_TABLE_106_1_BYTES bytes under a number of the caller's, from the
   start of lent memory, and leaves what lies past it. These bytes are a store of one edition by themselves. A refused
   write leaves every byte. Refusal 8. */
struct tulpavice_written tulpavice_table_106_1(uint16_t number, uint8_t *out, size_t room);

/* Stores an edition, lent as an entry that fills its bytes, where the store ends, and two zero bytes after it where two or
   more bytes follow. All other bytes stay, and a refused storing leaves every byte. An exact fit, or one byte left over, is
   room enough. It answers the place at which the edition starts, as finding it then does. The two lie apart in memory.
   Refusals 11, for the store or for the edition, 12 and 8. */
struct tulpavice_place tulpavice_store(uint8_t *store, size_t store_size, const uint8_t *edition, size_t size);

/* Where the edition of that number starts. Refusals 11 and 13. */
struct tulpavice_place tulpavice_find(const uint8_t *store, size_t store_size, uint32_t edition);

/* Lists the numbers of the editions, from the start of a lent list. The numbers past these stay, and a refused listing leaves
   every number. All `room` numbers are lent, also those that are not written. Refusals 11 and 8. */
struct tulpavice_listed tulpavice_list(const uint8_t *store, size_t store_size, uint32_t *out, size_t room);

/* Both sides, PWL and the rows tried, of some readings and two limits, by the edition of that number in a store. Refusals 11,
   4 to 7, 13 and 10. */
struct tulpavice_percentages tulpavice_evaluate(const uint8_t *store, size_t store_size, uint32_t edition,
                                                const int32_t *readings, size_t count, int32_t upper,
                                                uint32_t upper_present, int32_t lower, uint32_t lower_present);

/* The same of a lot. A count above its places is refusal 4. */
struct tulpavice_percentages tulpavice_evaluate_lot(const uint8_t *store, size_t store_size, uint32_t edition,
                                                    struct tulpavice_lot lot);

/* Of the PWLs of three characteristics, a price in cents a ton and a quantity in hundredths of a ton. The pay is what
   would be paid, whatever the verdict. Refusal 9. */
struct tulpavice_payment tulpavice_pay(int64_t vma, int64_t voids, int64_t density, int64_t price, int64_t quantity);

/* The limits of the three characteristics of a mixture (0 IL-4.75, 1 IL-19.0 and 25.0, 2 SMA, 3 all others), from a VMA
   minimum and a voids target. Refusals 5 and 9. */
struct tulpavice_mixture_limits tulpavice_mixture(int64_t mixture, int32_t minimum, int32_t target);

/* The lot whose record fills these bytes. Numbers stand highest byte first, those of four bytes in two's complement:

     bytes 0 and 1   how many bytes follow: 11 + 4n
     byte 2          the version, 1
     byte 3          bit 0 set if an upper limit is present, bit 1 if a lower one is; the others 0
     bytes 4 to 7    the upper limit, 0 if absent
     bytes 8 to 11   the lower limit, 0 if absent
     byte 12         n, how many readings there are
     from 13 on      the readings, four bytes each

   Refusals 1 to 7. */
struct tulpavice_read tulpavice_read(const uint8_t *bytes, size_t size);

/* Writes a lot's record, 13 + 4n bytes, from the start of lent memory, and leaves what lies past it. A refused write
   leaves every byte. All `room` bytes are lent, also those that are not written. Refusals 4 to 8. */
struct tulpavice_written tulpavice_write(struct tulpavice_lot lot, uint8_t *out, size_t room);

/* Cuts a job of so many sublots into lots, from the start of a lent list: two numbers to each lot, the sublot with which
   it starts, counted from 0, and how many it has. Ten make a lot; of those left over at the end seven or fewer join the
   lot before, which then has up to 17, and eight or nine are a lot of their own, as is whatever is left where no lot is
   before it. The numbers past the lots stay, and a refused cut leaves every number. All `room` numbers are lent, also
   those that are not written. Refusals 9 and then 8. */
struct tulpavice_listed tulpavice_cut(size_t sublots, uint32_t *out, size_t room);

/* Checks a pay sheet for the lots of three characteristics, all by one edition of a store, a price in cents a ton and a
   quantity in hundredths of a ton. Accepted is the sheet that the calls above give for them, and no other. The refusals in
   this order: 11; then all of the first lot's, as tulpavice_evaluate_lot gives them, all of the second's, all of the third's;
   then 9 for price or quantity, and then 9 for the sheet. A PWL or a composite that cannot be, such as 10,001, is no refusal
   but differs. */
struct tulpavice_checked tulpavice_check(const uint8_t *store, size_t store_size, uint32_t edition,
                                         struct tulpavice_lot vma, struct tulpavice_lot voids,
                                         struct tulpavice_lot density, int64_t price, int64_t quantity,
                                         struct tulpavice_sheet sheet);

/* Compares two sheets, from the start of a lent list: two numbers to each entry that differs, in their order, the entry
   and the first sheet's number less the second's. The numbers past these stay, and a refused comparison leaves every
   number. All `room` numbers are lent, also those that are not written. Refusals 9, of either sheet, and then 8. */
struct tulpavice_listed tulpavice_compare(struct tulpavice_sheet first, struct tulpavice_sheet second, int64_t *out,
                                          size_t room);

/* The notebook's row, by the edition of that number in a store, of readings that come as bytes, four to each, two's
   complement, highest first, as in a record. Each double is one division of exact doubles, and 0 where the lot is refused.
   Refusals 11, 4 to 7, 13 and 10. */
struct tulpavice_row tulpavice_row(const uint8_t *store, size_t store_size, uint32_t edition, const uint8_t *readings,
                                   size_t size, int32_t upper, uint32_t upper_present, int32_t lower,
                                   uint32_t lower_present);

/* The same, its refusal and each of its doubles by a call of its own: no more is worked out than is asked for. */
struct tulpavice_refusal tulpavice_row_refusal(const uint8_t *store, size_t store_size, uint32_t edition,
                                               const uint8_t *readings, size_t size, int32_t upper,
                                               uint32_t upper_present, int32_t lower, uint32_t lower_present);
double tulpavice_row_mean(const uint8_t *store, size_t store_size, uint32_t edition, const uint8_t *readings,
                          size_t size, int32_t upper, uint32_t upper_present, int32_t lower, uint32_t lower_present);
double tulpavice_row_deviation(const uint8_t *store, size_t store_size, uint32_t edition, const uint8_t *readings,
                               size_t size, int32_t upper, uint32_t upper_present, int32_t lower,
                               uint32_t lower_present);
double tulpavice_row_pwl(const uint8_t *store, size_t store_size, uint32_t edition, const uint8_t *readings, size_t size,
                         int32_t upper, uint32_t upper_present, int32_t lower, uint32_t lower_present);

#ifdef __cplusplus
}
#endif

#endif
