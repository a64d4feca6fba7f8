/* Answers calls of the library, so that another program's answers can be held against them: calls come from standard
   input, one a line, and each is answered by a line, which begins with the name of the call.

     lend HEX                         how many editions the store has; it is the store of all calls below that name an
                                      edition, until another is lent. Before the first there is an empty one
     lot E U UP L LP N r1..rN         the mean, the percentages with the rows tried, and of the row its refusal, mean
                                      and PWL
     deviation E U UP L LP N r1..rN   the deviation, the row's, and the row in one call
     bytes E U UP L LP HEX            the row of readings that come as bytes, by its four calls and then in one
     held E U UP L LP COUNT r0..r16   the percentages of a lot, with the rows tried
     pay VMA VOIDS DENSITY PRICE QUANTITY
     mixture NUMBER MINIMUM TARGET
     read HEX                         the lot; if it was accepted, its record written again
     write U UP L LP COUNT r0..r16 ROOM
                                      what was written, with the lent memory and a guard on each side of it; if it was
                                      accepted, the lot read again
     cut SUBLOTS ROOM                 how many lots the job has, with the lent list and a guard on each side of it
     check E LOT LOT LOT PRICE QUANTITY SHEET
                                      what is found of a sheet; a LOT is U UP L LP COUNT r0..r16, a SHEET its six entries
     compare SHEET SHEET ROOM         how many entries differ, with the lent list and a guard on each side of it
     table NUMBER ROOM                Table 106-1 as an edition, with the lent memory and a guard on each side of it
     sequence HEX STEP STEP ...       what each step answers over one buffer, which has these bytes before the first; at
                                      the end the buffer and a guard on each side of it. A STEP is one of
         store HEX                        the place of the edition, and the buffer as at the end
         find NUMBER                      the place of the edition
         list ROOM                        how many editions there are, with the lent list and a guard on each side of it

   E is the number of an edition. U and L are the limits, UP and LP their presences. HEX is bytes in hexadecimal, or - for
   NULL. ROOM counts the bytes that are lent, or the numbers of a list. Numbers are decimal; a double is given by its bits
   and memory byte by byte, in hexadecimal. */
#include <errno.h>
#include <stdio.h>
#include <stdlib.h>
#include <string.h>

#include "tulpavice.h"

/* In bytes or numbers, as the memory that is lent holds them. */
enum { GUARD = 8, MOST_ROOM = 2000, MOST_MEMORY = GUARD + MOST_ROOM + GUARD };

/* In bytes. A buffer has room for nine editions, however long they are. */
enum { MOST_SHOWN = sizeof(int64_t) * MOST_MEMORY, MOST_BUFFER = MOST_SHOWN - 2 * GUARD };

static char *line; /* the call */
static size_t line_room;
static char *rest; /* what of it is still to be read */
static unsigned long line_number;

/* It grows, and is never cleared. */
struct memory {
    void *start;
    size_t size;
};

static struct memory lent;       /* readings or bytes */
static struct memory store_lent; /* the store's bytes, which stay from call to call */

static const uint8_t *store;
static size_t store_size;
static uint32_t edition; /* that the call names */

static void not_understood(void)
{
    fprintf(stderr, "line %lu is not understood: %.100s\n", line_number, line);
    exit(2);
}

static void *grown(void *memory, size_t size)
{
    void *more = realloc(memory, size);
    if (!more) {
        fprintf(stderr, "no memory for line %lu\n", line_number);
        exit(2);
    }
    return more;
}

static int next_line(void)
{
    size_t length = 0;
    line_number++;
    for (;;) {
        if (line_room - length < 2)
            line = grown(line, line_room = 2 * line_room + 4096);
        line[length] = 0;
        if (!fgets(line + length, (int)(line_room - length), stdin))
            break;
        length += strlen(line + length);
        if (length > 0 && line[length - 1] == '\n') {
            line[length - 1] = 0;
            break;
        }
    }
    rest = line;
    return length > 0;
}

static int64_t number(int64_t least, int64_t most)
{
    char *end;
    errno = 0;
    long long value = strtoll(rest, &end, 10);
    if (end == rest || errno || value < least || value > most)
        not_understood();
    rest = end;
    return value;
}

static int32_t number_i32(void) { return (int32_t)number(INT32_MIN, INT32_MAX); }
static uint32_t number_u32(void) { return (uint32_t)number(0, UINT32_MAX); }
static int64_t number_i64(void) { return number(INT64_MIN, INT64_MAX); }

/* Any size, also one above every signed number. */
static size_t number_size(void)
{
    char *end;
    rest += strspn(rest, " ");
    errno = 0;
    size_t value = strtoull(rest, &end, 10);
    if (end == rest || *rest == '-' || errno)
        not_understood();
    rest = end;
    return value;
}

/* Memory for this many items; NULL for none. */
static void *lend(struct memory *memory, size_t count, size_t size)
{
    if (count * size > memory->size)
        memory->start = grown(memory->start, memory->size = count * size);
    return count ? memory->start : NULL;
}

static int nibble(char digit)
{
    if (digit >= '0' && digit <= '9')
        return digit - '0';
    if (digit >= 'a' && digit <= 'f')
        return digit - 'a' + 10;
    not_understood();
    return 0;
}

static const uint8_t *hex(struct memory *memory, size_t *size)
{
    rest += strspn(rest, " ");
    size_t digits = strcspn(rest, " ");
    if (digits == 1 && *rest == '-') {
        rest++;
        *size = 0;
        return NULL;
    }
    if (digits == 0 || digits % 2)
        not_understood();
    *size = digits / 2;
    uint8_t *bytes = lend(memory, *size, 1);
    for (size_t i = 0; i < *size; i++, rest += 2)
        bytes[i] = (uint8_t)(nibble(rest[0]) << 4 | nibble(rest[1]));
    return bytes;
}

/* Takes the next word, if it is this one. */
static int take_word(const char *word)
{
    size_t blanks = strspn(rest, " "), length = strlen(word);
    if (strcspn(rest + blanks, " ") != length || memcmp(rest + blanks, word, length) != 0)
        return 0;
    rest += blanks + length;
    return 1;
}

/* The limits of a lot, which stand before all else of it. */
static struct tulpavice_lot limits(void)
{
    struct tulpavice_lot lot = {0, 0, 0, 0, 0, {0}};
    lot.upper = number_i32();
    lot.upper_present = number_u32();
    lot.lower = number_i32();
    lot.lower_present = number_u32();
    return lot;
}

/* The edition that the call names, and limits. */
static struct tulpavice_lot limits_by_edition(void)
{
    edition = number_u32();
    return limits();
}

static struct tulpavice_lot whole_lot(void)
{
    struct tulpavice_lot lot = limits();
    lot.count = number_u32();
    for (int i = 0; i < TULPAVICE_MOST; i++)
        lot.readings[i] = number_i32();
    return lot;
}

static struct tulpavice_sheet whole_sheet(void)
{
    struct tulpavice_sheet sheet;
    sheet.vma = number_i64();
    sheet.voids = number_i64();
    sheet.density = number_i64();
    sheet.composite = number_i64();
    sheet.verdict = number_i64();
    sheet.pay = number_i64();
    return sheet;
}

/* The readings as plain numbers, and after them the same as bytes. */
static const int32_t *readings(size_t *count, const uint8_t **as_bytes)
{
    *count = (size_t)number(0, 1000000);
    int32_t *numbers = lend(&lent, 2 * *count, sizeof *numbers);
    uint8_t *bytes = *count ? (uint8_t *)(numbers + *count) : NULL;
    for (size_t i = 0; i < *count; i++) {
        numbers[i] = number_i32();
        uint32_t bits = (uint32_t)numbers[i];
        for (int j = 0; j < 4; j++)
            bytes[4 * i + j] = (uint8_t)(bits >> (24 - 8 * j));
    }
    *as_bytes = bytes;
    return numbers;
}

static void print(int64_t value)
{
    char text[24];
    size_t at = sizeof text;
    uint64_t left = value < 0 ? -(uint64_t)value : (uint64_t)value;
    do
        text[--at] = (char)('0' + left % 10);
    while (left /= 10);
    if (value < 0)
        text[--at] = '-';
    text[--at] = ' ';
    fwrite(text + at, 1, sizeof text - at, stdout);
}

static void print_bytes(const uint8_t *bytes, size_t size)
{
    char text[1 + 2 * MOST_SHOWN];
    text[0] = ' ';
    for (size_t i = 0; i < size; i++) {
        text[1 + 2 * i] = "0123456789abcdef"[bytes[i] >> 4];
        text[2 + 2 * i] = "0123456789abcdef"[bytes[i] & 15];
    }
    fwrite(text, 1, 1 + 2 * size, stdout);
}

static void print_double(double value)
{
    uint64_t bits;
    memcpy(&bits, &value, sizeof bits);
    uint8_t bytes[8];
    for (int i = 0; i < 8; i++)
        bytes[i] = (uint8_t)(bits >> (56 - 8 * i));
    print_bytes(bytes, sizeof bytes);
}

static void print_percentages(struct tulpavice_percentages answer)
{
    print(answer.refusal.number);
    print(answer.upper);
    print(answer.lower);
    print(answer.pwl);
    print(answer.tried_upper);
    print(answer.tried_lower);
}

static void print_row(struct tulpavice_row answer)
{
    print(answer.refusal.number);
    print_double(answer.mean);
    print_double(answer.deviation);
    print_double(answer.pwl);
}

static void print_read(struct tulpavice_read answer)
{
    print(answer.refusal.number);
    print(answer.lot.upper);
    print(answer.lot.upper_present);
    print(answer.lot.lower);
    print(answer.lot.lower_present);
    print(answer.lot.count);
    for (int i = 0; i < TULPAVICE_MOST; i++)
        print(answer.lot.readings[i]);
}

static void print_place(struct tulpavice_place answer)
{
    print(answer.refusal.number);
    print((int64_t)answer.start);
}

/* With the bytes that were lent to be written, and a guard on each side of them. */
static void print_written(struct tulpavice_written answer, const uint8_t *memory, size_t room)
{
    print(answer.refusal.number);
    print((int64_t)answer.size);
    print_bytes(memory, GUARD + room + GUARD);
}

/* With the list that was lent, and a guard on each side of it: so many bytes in all. */
static void print_listed(struct tulpavice_listed answer, const void *memory, size_t size)
{
    print(answer.refusal.number);
    print((int64_t)answer.items);
    print_bytes(memory, size);
}

static void answer_lend(void)
{
    uint32_t numbers[TULPAVICE_MOST_EDITIONS];
    store = hex(&store_lent, &store_size);
    struct tulpavice_listed answer = tulpavice_list(store, store_size, numbers, TULPAVICE_MOST_EDITIONS);
    print(answer.refusal.number);
    print((int64_t)answer.items);
}

/* What stands around the readings in every call that asks for a percentage of them: the edition in the store, and limits. */
#define BY_EDITION(CALL, READINGS, COUNT, L) \
    CALL(store, store_size, edition, READINGS, COUNT, L.upper, L.upper_present, L.lower, L.lower_present)

static void answer_lot(void)
{
    struct tulpavice_lot l = limits_by_edition();
    size_t count;
    const uint8_t *bytes;
    const int32_t *numbers = readings(&count, &bytes);
    struct tulpavice_mean mean = tulpavice_mean(numbers, count);
    print(mean.refusal.number);
    print(mean.total);
    print(mean.count);
    print_percentages(BY_EDITION(tulpavice_evaluate, numbers, count, l));
    print(BY_EDITION(tulpavice_row_refusal, bytes, 4 * count, l).number);
    print_double(BY_EDITION(tulpavice_row_mean, bytes, 4 * count, l));
    print_double(BY_EDITION(tulpavice_row_pwl, bytes, 4 * count, l));
}

static void answer_deviation(void)
{
    struct tulpavice_lot l = limits_by_edition();
    size_t count;
    const uint8_t *bytes;
    const int32_t *numbers = readings(&count, &bytes);
    struct tulpavice_deviation answer = tulpavice_deviation(numbers, count);
    print(answer.refusal.number);
    print(answer.deviation);
    print_double(BY_EDITION(tulpavice_row_deviation, bytes, 4 * count, l));
    print_row(BY_EDITION(tulpavice_row, bytes, 4 * count, l));
}

static void answer_bytes(void)
{
    struct tulpavice_lot l = limits_by_edition();
    size_t size;
    const uint8_t *bytes = hex(&lent, &size);
    print(BY_EDITION(tulpavice_row_refusal, bytes, size, l).number);
    print_double(BY_EDITION(tulpavice_row_mean, bytes, size, l));
    print_double(BY_EDITION(tulpavice_row_deviation, bytes, size, l));
    print_double(BY_EDITION(tulpavice_row_pwl, bytes, size, l));
    print_row(BY_EDITION(tulpavice_row, bytes, size, l));
}

static void answer_held(void)
{
    edition = number_u32();
    print_percentages(tulpavice_evaluate_lot(store, store_size, edition, whole_lot()));
}

static void answer_pay(void)
{
    int64_t given[5];
    for (int i = 0; i < 5; i++)
        given[i] = number_i64();
    struct tulpavice_payment answer = tulpavice_pay(given[0], given[1], given[2], given[3], given[4]);
    print(answer.refusal.number);
    print(answer.composite);
    print(answer.vma);
    print(answer.voids);
    print(answer.density);
    print(answer.lot);
    print(answer.pay);
}

static void answer_mixture(void)
{
    int64_t mixture = number_i64();
    int32_t minimum = number_i32();
    int32_t target = number_i32();
    struct tulpavice_mixture_limits answer = tulpavice_mixture(mixture, minimum, target);
    print(answer.refusal.number);
    print(answer.vma_lower);
    print(answer.vma_upper);
    print(answer.voids_lower);
    print(answer.voids_upper);
    print(answer.density_lower);
    print(answer.density_upper);
}

/* A size that the library answers is not trusted with this program's memory. */
static size_t at_most(size_t size, size_t most) { return size < most ? size : most; }

static void answer_read(void)
{
    size_t size;
    const uint8_t *bytes = hex(&lent, &size);
    struct tulpavice_read answer = tulpavice_read(bytes, size);
    print_read(answer);
    if (answer.refusal.number == 0) {
        uint8_t again[TULPAVICE_MOST_BYTES] = {0};
        struct tulpavice_written written = tulpavice_write(answer.lot, again, sizeof again);
        print(written.refusal.number);
        print((int64_t)written.size);
        print_bytes(again, at_most(written.size, sizeof again));
    }
}

/* What stands in memory before it is lent to be written. */
static void fill(void *memory, size_t size)
{
    uint8_t *bytes = memory;
    for (size_t i = 0; i < size; i++)
        bytes[i] = (uint8_t)(171 + 37 * i);
}

static void answer_write(void)
{
    struct tulpavice_lot lot = whole_lot();
    size_t room = (size_t)number(0, MOST_ROOM);
    uint8_t memory[MOST_MEMORY];
    fill(memory, GUARD + room + GUARD);
    struct tulpavice_written answer = tulpavice_write(lot, room ? memory + GUARD : NULL, room);
    print_written(answer, memory, room);
    if (answer.refusal.number == 0)
        print_read(tulpavice_read(memory + GUARD, at_most(answer.size, room)));
}

static void answer_cut(void)
{
    size_t sublots = number_size();
    size_t room = (size_t)number(0, MOST_ROOM);
    uint32_t memory[MOST_MEMORY];
    size_t size = (GUARD + room + GUARD) * sizeof *memory;
    fill(memory, size);
    print_listed(tulpavice_cut(sublots, room ? memory + GUARD : NULL, room), memory, size);
}

static void answer_check(void)
{
    edition = number_u32();
    struct tulpavice_lot vma = whole_lot();
    struct tulpavice_lot voids = whole_lot();
    struct tulpavice_lot density = whole_lot();
    int64_t price = number_i64();
    int64_t quantity = number_i64();
    struct tulpavice_sheet sheet = whole_sheet();
    struct tulpavice_checked answer =
        tulpavice_check(store, store_size, edition, vma, voids, density, price, quantity, sheet);
    print(answer.refusal.number);
    print(answer.accepted);
    print(answer.entry);
    print(answer.sheet);
    print(answer.ours);
}

static void answer_compare(void)
{
    struct tulpavice_sheet first = whole_sheet();
    struct tulpavice_sheet second = whole_sheet();
    size_t room = (size_t)number(0, MOST_ROOM);
    int64_t memory[MOST_MEMORY];
    size_t size = (GUARD + room + GUARD) * sizeof *memory;
    fill(memory, size);
    print_listed(tulpavice_compare(first, second, room ? memory + GUARD : NULL, room), memory, size);
}

static void answer_table(void)
{
    uint16_t named = (uint16_t)number(0, UINT16_MAX);
    size_t room = (size_t)number(0, MOST_ROOM);
    uint8_t memory[MOST_MEMORY];
    fill(memory, GUARD + room + GUARD);
    print_written(tulpavice_table_106_1(named, room ? memory + GUARD : NULL, room), memory, room);
}

static void step_list(const uint8_t *buffer, size_t size)
{
    size_t room = (size_t)number(0, MOST_ROOM);
    uint32_t memory[MOST_MEMORY];
    size_t all = (GUARD + room + GUARD) * sizeof *memory;
    fill(memory, all);
    print_listed(tulpavice_list(buffer, size, room ? memory + GUARD : NULL, room), memory, all);
}

static void answer_sequence(void)
{
    static uint8_t memory[MOST_SHOWN];
    size_t size, entry_size;
    const uint8_t *bytes = hex(&lent, &size);
    if (size > MOST_BUFFER)
        not_understood();
    size_t all = GUARD + size + GUARD;
    uint8_t *buffer = size ? memory + GUARD : NULL;
    fill(memory, all);
    if (size)
        memcpy(buffer, bytes, size);
    while (*rest) {
        if (take_word("store")) {
            bytes = hex(&lent, &entry_size);
            print_place(tulpavice_store(buffer, size, bytes, entry_size));
            print_bytes(memory, all);
        } else if (take_word("find"))
            print_place(tulpavice_find(buffer, size, number_u32()));
        else if (take_word("list"))
            step_list(buffer, size);
        else
            not_understood();
    }
    print_bytes(memory, all);
}

static const struct {
    const char *name;
    void (*answer)(void);
} calls[] = {
    {"lend", answer_lend},
    {"lot", answer_lot},
    {"deviation", answer_deviation},
    {"bytes", answer_bytes},
    {"held", answer_held},
    {"pay", answer_pay},
    {"mixture", answer_mixture},
    {"read", answer_read},
    {"write", answer_write},
    {"cut", answer_cut},
    {"check", answer_check},
    {"compare", answer_compare},
    {"table", answer_table},
    {"sequence", answer_sequence},
};

static void answer_line(void)
{
    for (size_t i = 0; i < sizeof calls / sizeof *calls; i++) {
        if (take_word(calls[i].name)) {
            fputs(calls[i].name, stdout);
            calls[i].answer();
            if (*rest)
                not_understood();
            putchar('\n');
            return;
        }
    }
    not_understood();
}

int main(void)
{
    /* a call that does not return is then the first without an answer */
    setvbuf(stdout, NULL, _IOLBF, 1 << 16);
    while (next_line())
        answer_line();
    return fflush(stdout) == 0 && !ferror(stdout) && !ferror(stdin) ? 0 : 2;
}
