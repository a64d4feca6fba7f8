/* sheet.h says what a sheet is. Which numbers are in range, what the rules give and where a sheet differs from that is
   for the library to say. */
#include "sheet.h"

/* The lines of a sheet: the lots first, in the library's order. */
enum { VMA, VOIDS, DENSITY, LOTS, PRICE = LOTS, QUANTITY, PWL, COMPOSITE, VERDICT, PAY, LINES };

/* The name of each, and how it is told that there is none. */
static const struct {
    const char *name, *missing;
} NAMES[LINES] = {
    {"vma", "the lot of VMA is missing"},
    {"voids", "the lot of voids is missing"},
    {"density", "the lot of density is missing"},
    {"price", "the price is missing"},
    {"quantity", "the quantity is missing"},
    {"pwl", "the PWLs are missing"},
    {"composite", "the composite is missing"},
    {"verdict", "the verdict is missing"},
    {"pay", "the pay is missing"},
};

/* The numbers of the lines that are no lot: two of the job, and then the entries in the library's order. */
enum { PRICE_A_TON, TONS, ENTRIES, NUMBERS = ENTRIES + TULPAVICE_ENTRIES };

/* Where each stands, its name, and how it is told that the library does not take it. */
static const struct {
    int line, decimals;
    const char *name, *refused;
} KINDS[NUMBERS] = {
    {PRICE, 2, "price", "is not from 0 to 100,000 dollars a ton"},
    {QUANTITY, 2, "quantity", "is not from 0 to 1,000,000 tons"},
    {PWL, 2, "PWL of VMA", "is not from 0 to 10,000,000,000,000 percent"},
    {PWL, 2, "PWL of voids", "is not from 0 to 10,000,000,000,000 percent"},
    {PWL, 2, "PWL of density", "is not from 0 to 10,000,000,000,000 percent"},
    {COMPOSITE, 3, "composite", "is not from 0 to 1,000,000,000,000"},
    {VERDICT, 0, "verdict", "is neither accepted nor rejected"},
    {PAY, 2, "pay", "is not from 0 to 10,000,000,000,000 dollars"},
};

struct sheet {
    unsigned long lines[LINES]; /* where each stands in the file, and 0 for one that is missing */
    struct lot_line lots[LOTS];
    int64_t numbers[NUMBERS];
    struct word words[NUMBERS]; /* the numbers as they are written */
};

/* ---- Reading ---- */

/* Tells what is wrong with a line, by a number's name, by a word, or by both. */
static enum status bad(const struct input *in, const char *name, const struct word *word, const char *wrong)
{
    if (ferror(in->file)) /* a line cut short is not what was meant */
        return TROUBLE;
    tell_line(in->line);
    if (name)
        fprintf(stderr, "the %s ", name);
    if (word) {
        tell_word(word);
        fputs(" ", stderr);
    }
    fprintf(stderr, "%s\n", wrong);
    return BAD;
}

/* A word that is no number. */
static struct word next_word(struct input *in)
{
    struct word word;
    start_word(in, &word);
    end_word(in);
    return word;
}

/* Both answer what is wrong, or NULL. */
static const char *read_verdict(struct input *in, int at, struct sheet *sheet)
{
    struct word *word = &sheet->words[at];
    *word = next_word(in);
    sheet->numbers[at] = is_word(word, verdict(1));
    return sheet->numbers[at] || is_word(word, verdict(0)) ? NULL : KINDS[at].refused;
}

static const char *read_plain(struct input *in, int at, struct sheet *sheet)
{
    start_word(in, &sheet->words[at]);
    const char *wrong = read_number(in, KINDS[at].decimals, INT64_MAX, &sheet->numbers[at]);
    end_word(in);
    return wrong;
}

static enum status read_numbers(struct input *in, int line, struct sheet *sheet)
{
    for (int at = 0; at < NUMBERS; at++) {
        if (KINDS[at].line != line)
            continue;
        if (at_line_end(in))
            return bad(in, KINDS[at].name, NULL, "is missing");
        const char *wrong = (line == VERDICT ? read_verdict : read_plain)(in, at, sheet);
        if (wrong)
            return bad(in, KINDS[at].name, &sheet->words[at], wrong);
    }
    if (at_line_end(in))
        return GOOD;
    struct word more = next_word(in);
    return bad(in, NULL, &more, "is a word too many");
}

static enum status read_line(struct input *in, struct sheet *sheet)
{
    struct word name = next_word(in);
    int line = 0;
    while (line < LINES && !is_word(&name, NAMES[line].name))
        line++;
    if (line == LINES)
        return bad(in, NULL, &name, "is not a name that a sheet has; --help shows them");
    if (sheet->lines[line])
        return bad(in, NULL, &name, "comes a second time");
    sheet->lines[line] = in->line;
    return line < LOTS ? read_lot(in, &sheet->lots[line]) : read_numbers(in, line, sheet);
}

/* Stops behind the first line that is bad. */
static enum status read_lines(FILE *file, struct sheet *sheet)
{
    struct input in = input_of(file);
    enum status status = GOOD;
    for (; status == GOOD && in.next != EOF; end_line(&in))
        status = start_line(&in) ? read_line(&in, sheet) : pass_over(&in);
    return ferror(file) ? TROUBLE : status;
}

static enum status read_sheet(FILE *file, struct sheet *sheet)
{
    enum status status = read_lines(file, sheet);
    for (int line = 0; status == GOOD && line < LINES; line++)
        if (!sheet->lines[line]) {
            fprintf(stderr, "%s: %s\n", program, NAMES[line].missing);
            status = BAD;
        }
    return status;
}

/* ---- Asking the library ---- */

static struct tulpavice_lot lot_of(const struct lot *lot)
{
    struct tulpavice_lot held = {
        lot->upper, lot->upper_present, lot->lower, lot->lower_present, (uint32_t)lot->count, {0}};
    for (size_t i = 0; i < lot->count && i < TULPAVICE_MOST; i++)
        held.readings[i] = lot->readings[i];
    return held;
}

static struct tulpavice_sheet sheet_of(const int64_t *entries)
{
    struct tulpavice_sheet held = {entries[0], entries[1], entries[2], entries[3], entries[4], entries[5]};
    return held;
}

static struct tulpavice_percentages evaluate(const struct store *s, const struct tulpavice_lot *lot)
{
    return tulpavice_evaluate_lot(s->bytes, s->size, s->edition, *lot);
}

/* The entries that the rules give. Nothing is refused here of what was checked. */
static void work_out(const struct store *store, const struct tulpavice_lot *lots, const int64_t *numbers,
                     int64_t *entries)
{
    for (int i = 0; i < LOTS; i++)
        entries[i] = evaluate(store, &lots[i]).pwl;
    struct tulpavice_payment paid =
        tulpavice_pay(entries[0], entries[1], entries[2], numbers[PRICE_A_TON], numbers[TONS]);
    entries[3] = paid.composite;
    entries[4] = paid.lot;
    entries[5] = paid.pay;
}

/* Whether a number is refused by itself: it is asked about with 0 for all others. */
static int is_refused(int at, int64_t number)
{
    int64_t numbers[NUMBERS] = {0};
    numbers[at] = number;
    struct tulpavice_sheet sheet = sheet_of(numbers + ENTRIES);
    return tulpavice_pay(0, 0, 0, numbers[PRICE_A_TON], numbers[TONS]).refusal.number ||
           tulpavice_compare(sheet, sheet, NULL, 0).refusal.number;
}

/* To blame is the first that is refused by itself, in the library's order. */
static void tell_refused(const struct sheet *sheet, const struct store *store, const struct tulpavice_lot *lots,
                         uint32_t refusal)
{
    int lot = 0, at = 0;
    while (lot < LOTS && !evaluate(store, &lots[lot]).refusal.number)
        lot++;
    if (lot < LOTS) {
        tell_line(sheet->lines[lot]);
        tell_refusal(&sheet->lots[lot], store, refusal);
        return;
    }
    while (at + 1 < NUMBERS && !is_refused(at, sheet->numbers[at]))
        at++;
    tell_line(sheet->lines[KINDS[at].line]);
    fprintf(stderr, "refusal %d, the %s ", (int)refusal, KINDS[at].name);
    tell_word(&sheet->words[at]);
    fprintf(stderr, " %s\n", KINDS[at].refused);
}

/* ---- Showing ---- */

/* Of a number that is not below 0; a verdict has a word. */
static void print_plain(int at, int64_t number)
{
    int unit = KINDS[at].decimals == 3 ? 1000 : 100;
    if (KINDS[at].line == VERDICT)
        printf("%s", verdict(number));
    else
        printf("%lld.%0*d", (long long)(number / unit), KINDS[at].decimals, (int)(number % unit));
}

/* The same for people, who are shown money as money. */
static void print_number(int at, int64_t number)
{
    if (KINDS[at].line == PAY)
        print_dollars(number);
    else
        print_plain(at, number);
}

/* An entry that differs, and by how much the sheet's number is above ours, or below. */
struct difference {
    int at;
    int64_t theirs, ours, more;
};

static int64_t magnitude(int64_t number) { return number < 0 ? -number : number; }

/* Two verdicts are no more or less than each other. */
static void show_in_words(const struct difference *d)
{
    printf("%-16s the sheet has ", KINDS[d->at].name);
    print_number(d->at, d->theirs);
    printf(", the rules give ");
    print_number(d->at, d->ours);
    if (KINDS[d->at].line != VERDICT) {
        printf(": ");
        print_number(d->at, magnitude(d->more));
        printf(d->more < 0 ? " too low" : " too high");
    }
    printf("\n");
}

/* A verdict's difference is the library's: 1 where the sheet alone rejects, and -1 where it alone accepts. */
static void show_for_programs(const struct difference *d)
{
    printf("%s\t", KINDS[d->at].name);
    print_plain(d->at, d->theirs);
    printf("\t");
    print_plain(d->at, d->ours);
    printf(d->more < 0 ? "\t-" : "\t");
    if (KINDS[d->at].line == VERDICT)
        printf("%d", (int)magnitude(d->more));
    else
        print_plain(d->at, magnitude(d->more));
    printf("\n");
}

static void show_differences(const int64_t *theirs, const int64_t *ours, int tabs)
{
    int64_t list[2 * TULPAVICE_ENTRIES];
    struct tulpavice_listed found = tulpavice_compare(sheet_of(theirs), sheet_of(ours), list, 2 * TULPAVICE_ENTRIES);
    for (size_t i = 0; i < found.items; i++) {
        int entry = (int)list[2 * i];
        struct difference d = {ENTRIES + entry, theirs[entry], ours[entry], list[2 * i + 1]};
        (tabs ? show_for_programs : show_in_words)(&d);
    }
}

static enum status answer_sheet(const struct sheet *sheet, const struct store *store, int tabs)
{
    const int64_t *numbers = sheet->numbers, *theirs = numbers + ENTRIES;
    int64_t ours[TULPAVICE_ENTRIES];
    struct tulpavice_lot lots[LOTS];
    for (int i = 0; i < LOTS; i++)
        lots[i] = lot_of(&sheet->lots[i].lot);
    struct tulpavice_checked checked =
        tulpavice_check(store->bytes, store->size, store->edition, lots[VMA], lots[VOIDS], lots[DENSITY],
                        numbers[PRICE_A_TON], numbers[TONS], sheet_of(theirs));
    if (checked.refusal.number) {
        tell_refused(sheet, store, lots, checked.refusal.number);
        return BAD;
    }
    if (tabs)
        printf("entry\tsheet\trules\tdifference\n");
    else if (checked.accepted)
        printf("The sheet is right: its six entries are what the rules give.\n");
    else
        printf("The sheet is wrong, first in its %s.\n", KINDS[ENTRIES + checked.entry].name);
    work_out(store, lots, numbers, ours);
    show_differences(theirs, ours, tabs);
    return checked.accepted ? GOOD : BAD;
}

enum status check_sheet(FILE *file, const struct store *store, int tabs)
{
    struct sheet sheet = {0};
    enum status status = read_sheet(file, &sheet);
    return status == GOOD ? answer_sheet(&sheet, store, tabs) : status;
}
