/* The notebook: a program over the library's header alone. It shows the worked example of document 000, answers the lots
   of a file, a line for each, checks a pay sheet (sheet.h), both by an edition of the table (store.h), cuts a job into
   lots, or writes Table 106-1 as an edition.

   words.h says how a file is read and what a lot is. A line that is not a lot, or whose lot the library refuses, is
   bad: it is told on standard error, and the next is read. */
#include "sheet.h"
#include "store.h"
#include "tulpavice.h"
#include "words.h"

#include <stdio.h>
#include <string.h>

static void show_usage(void)
{
    int width = (int)strlen(program);
    printf("usage: %s                  shows a worked example\n", program);
    printf("       %s [--tabs] [EDITION] FILE\n", program);
    printf("       %*s                  answers the lots of a file, or of standard\n", width, "");
    printf("       %*s                  input if FILE is -\n", width, "");
    printf("       %s [--tabs] [EDITION] --check FILE\n", program);
    printf("       %*s                  checks a pay sheet\n", width, "");
    printf("       %s [--tabs] --cut SUBLOTS\n", program);
    printf("       %*s                  cuts a job of so many sublots into lots\n", width, "");
    printf("       %s --write-table NUMBER\n", program);
    printf("       %*s                  writes Table 106-1 as a store of one edition\n", width, "");
    printf("       %s --help           shows this\n", program);
    printf("       %s --version        shows which version this is\n\n", program);
    printf("EDITION is: --store STORE --edition NUMBER\n\n");
}

/* The sheet can be pasted into a file: it is the worked example's. */
static void show_sheet_help(void)
{
    printf("A pay sheet is a file, or standard input if FILE is -, of nine lines in any\n"
           "order, such as these:\n\n"
           "    vma       12.30 16.00 13.0 12.5 13.0 13.3 12.9 12.4 13.4 13.0 12.6 12.8\n"
           "    voids     2.65 5.35 4.2 4.5 3.3 5.0 5.4 2.5 3.8 4.1 4.3 4.5\n"
           "    density   91.50 97.00 91.5 93.0 92.9 93.5 93.0 94.0 92.8 93.5 91.0 92.7\n"
           "    price     80.00\n"
           "    quantity  8000\n"
           "    pwl       97.51 91.28 92.56\n"
           "    composite 0.998\n"
           "    verdict   accepted\n"
           "    pay       638720.00\n\n"
           "The first three are lots. The price is in dollars a ton, the quantity in tons,\n"
           "the PWLs are those of VMA, voids and density in percent, and the pay is in\n"
           "dollars, without $ and commas: all with up to two decimals. The composite has\n"
           "up to three; the verdict is accepted or rejected. The six entries from pwl to\n"
           "pay are worked out anew, and each that differs is shown, as it is on the sheet\n"
           "and as the rules give it. With --tabs these lines, and no others, stand under\n"
           "a header. Of a sheet that cannot be checked the first fault is told on standard\n"
           "error.\n\n");
}

static void show_store_help(void)
{
    printf("PWLs are looked up in Table 106-1. With --store and --edition it is the edition\n"
           "of that number out of a store: a file of up to %d editions of the table, whose\n"
           "bytes the manual page describes. --write-table 7 writes one to standard output,\n"
           "with Table 106-1 as edition 7. A store that is none, or lacks the edition, is\n"
           "told on standard error, and nothing is answered.\n\n",
           TULPAVICE_MOST_EDITIONS);
}

/* The first line can be pasted into a shell: it has the program's folder too. */
static void show_help(const char *called)
{
    printf("echo 2.65 5.35 4.2 4.5 3.3 5.0 5.4 2.5 3.8 4.1 4.3 4.5 | %s -\n", called);
    printf("    is answered by: line   1   mean    4.160   deviation   0.825   PWL  91.28\n\n");
    show_usage();
    printf("A lot is one line: LOWER UPPER READING READING ..., with 2 to %d readings.\n"
           "A number is from -500 to 500, with up to three decimals; a minus alone is an\n"
           "absent limit. Blank lines, and lines that start with #, are passed over. A\n"
           "lot is answered with its line's number, mean, deviation and percent within\n"
           "limits (PWL); with --tabs these stand under a header, with a tab between\n"
           "them. A bad line is told on standard error, with its number, the reason and\n"
           "the word that is wrong, and the next is read.\n\n",
           TULPAVICE_MOST);
    show_sheet_help();
    show_store_help();
    printf("A job of up to %d sublots is cut into lots of ten. Seven or fewer that are\n"
           "left over at its end join the lot before; eight or nine are a lot of their\n"
           "own. A joined lot has 11 to %d readings, for which Table 106-1 has no column:\n"
           "by it there is no PWL for the lot, and its line is bad.\n\n"
           "Exit status: 0 no line was bad, or the sheet is right; 1 a line was bad, the\n"
           "sheet is wrong or cannot be checked, the job was too long, or the store is none\n"
           "or lacks the edition; 2 wrong usage or a file that fails.\n",
           TULPAVICE_MOST_SUBLOTS, TULPAVICE_MOST);
}

struct row {
    uint32_t refusal;
    double mean, deviation, pwl;
};

static struct row row_of(const struct store *s, const struct lot *l)
{
    uint8_t bytes[4 * PLACES];
    size_t size = 0;
    struct row row;
    for (size_t i = 0; i < l->count; i++)
        for (int shift = 24; shift >= 0; shift -= 8)
            bytes[size++] = (uint8_t)((uint32_t)l->readings[i] >> shift);
    row.refusal = tulpavice_row_refusal(s->bytes, s->size, s->edition, bytes, size, l->upper, l->upper_present, l->lower,
                                        l->lower_present).number;
    row.mean = tulpavice_row_mean(s->bytes, s->size, s->edition, bytes, size, l->upper, l->upper_present, l->lower,
                                  l->lower_present);
    row.deviation = tulpavice_row_deviation(s->bytes, s->size, s->edition, bytes, size, l->upper, l->upper_present,
                                            l->lower, l->lower_present);
    row.pwl = tulpavice_row_pwl(s->bytes, s->size, s->edition, bytes, size, l->upper, l->upper_present, l->lower,
                                l->lower_present);
    return row;
}

/* ---- The worked example ---- */

enum { CHARACTERISTICS = 3, SUBLOTS = 10, OTHER_MIXTURES = 3, CENTS_A_TON = 8000, HUNDREDTHS_OF_A_TON = 800000 };

static const char *const NAMES[CHARACTERISTICS] = {"VMA", "Voids", "Density"};
static const char *const SOURCES[CHARACTERISTICS] = {"minimum 13.0", "target 4.0", "mixture"};

static void show_readings(const struct lot *lots)
{
    printf("Sublot ");
    for (int i = 0; i < SUBLOTS; i++)
        printf("%6d", i + 1);
    for (int c = 0; c < CHARACTERISTICS; c++) {
        printf("\n%-7s", NAMES[c]);
        for (int i = 0; i < SUBLOTS; i++)
            printf("%6.1f", lots[c].readings[i] / 1000.0);
    }
    printf("\n\n");
}

static void show_rows(const struct store *store, const struct lot *lots, const uint32_t *rejected)
{
    printf("         Limits from    Lower   Upper     Mean  Deviation    PWL  Verdict\n");
    for (int c = 0; c < CHARACTERISTICS; c++) {
        struct row row = row_of(store, &lots[c]);
        printf("%-9s%-13s%7.2f%8.2f%9.3f%11.3f%7.2f  %s\n", NAMES[c], SOURCES[c], lots[c].lower / 1000.0,
               lots[c].upper / 1000.0, row.mean, row.deviation, row.pwl, verdict(rejected[c]));
    }
    printf("\n");
}

static void show_payment(const struct tulpavice_payment *paid)
{
    printf("Composite  %d.%03d\n", (int)(paid->composite / 1000), (int)(paid->composite % 1000));
    printf("Lot        %s\n", verdict(paid->lot));
    printf("Pay        ");
    print_dollars(paid->pay);
    printf(" for ");
    print_grouped(HUNDREDTHS_OF_A_TON / 100);
    printf(" tons at ");
    print_dollars(CENTS_A_TON);
    printf(" a ton (document 01's)\n");
}

/* Pay takes each PWL in whole hundredths, from direct evaluation: no double is turned back into a whole number. None of
   these numbers is refused. */
static void show_example(void)
{
    struct store s = table_106_1();
    struct tulpavice_mixture_limits m = tulpavice_mixture(OTHER_MIXTURES, 13000, 4000);
    const struct lot lots[CHARACTERISTICS] = {
        {m.vma_lower, 1, m.vma_upper, 1, SUBLOTS,
         {13000, 12500, 13000, 13300, 12900, 12400, 13400, 13000, 12600, 12800}},
        {m.voids_lower, 1, m.voids_upper, 1, SUBLOTS,
         {4200, 4500, 3300, 5000, 5400, 2500, 3800, 4100, 4300, 4500}},
        {m.density_lower, 1, m.density_upper, 1, SUBLOTS,
         {91500, 93000, 92900, 93500, 93000, 94000, 92800, 93500, 91000, 92700}},
    };
    int64_t pwl[CHARACTERISTICS];
    for (int c = 0; c < CHARACTERISTICS; c++)
        pwl[c] = tulpavice_evaluate(s.bytes, s.size, s.edition, lots[c].readings, SUBLOTS, lots[c].upper, 1,
                                    lots[c].lower, 1).pwl;
    struct tulpavice_payment paid = tulpavice_pay(pwl[0], pwl[1], pwl[2], CENTS_A_TON, HUNDREDTHS_OF_A_TON);
    const uint32_t rejected[CHARACTERISTICS] = {paid.vma, paid.voids, paid.density};
    printf("Percent within limits (PWL): Illinois DOT's worked example, all in percent.\n\n");
    show_readings(lots);
    show_rows(&s, lots, rejected);
    show_payment(&paid);
    printf("\nThe example's own paper (document 000) has a table of whole percents: by it the\n"
           "PWLs are 98, 92 and 93, the composite is 1.001, and 10,000 tons at $35.00 are\n"
           "paid $350,350.\n");
}

/* ---- The lots of a file ---- */

static void show_row(unsigned long line, const struct row *row, int tabs)
{
    printf(tabs ? "%lu\t%.3f\t%.3f\t%.2f\n" : "line %3lu   mean %8.3f   deviation %7.3f   PWL %6.2f\n", line, row->mean,
           row->deviation, row->pwl);
}

static enum status answer_line(struct input *in, const struct store *store, int tabs)
{
    struct lot_line line = {0};
    enum status status = read_lot(in, &line);
    if (status != GOOD)
        return status;
    struct row row = row_of(store, &line.lot);
    if (!row.refusal) {
        show_row(in->line, &row, tabs);
        return GOOD;
    }
    tell_line(in->line);
    tell_refusal(&line, store, row.refusal);
    return BAD;
}

static enum status answer_lots(FILE *file, const struct store *store, int tabs)
{
    struct input in = input_of(file);
    enum status status = GOOD;
    if (tabs)
        printf("line\tmean\tdeviation\tPWL\n");
    for (; in.next != EOF; end_line(&in))
        if ((start_line(&in) ? answer_line(&in, store, tabs) : pass_over(&in)) != GOOD)
            status = BAD;
    return ferror(file) ? TROUBLE : status;
}

/* A file is answered as lots, or as a sheet. */
static enum status answer_file(const char *path, enum status (*answer_it)(FILE *, const struct store *, int),
                               const struct store *store, int tabs)
{
    int standard = strcmp(path, "-") == 0;
    FILE *file = standard ? stdin : open_file(path);
    if (!file)
        return TROUBLE;
    enum status status = answer_it(file, store, tabs);
    if (status == TROUBLE)
        tell_unread(standard ? "standard input" : path);
    if (!standard)
        fclose(file);
    return status;
}

/* ---- What the words say ---- */

static enum status wrong_usage(const char *word, const char *why)
{
    fprintf(stderr, "%s: \"%s\" %s; --help shows how %s is used\n", program, word, why, program);
    return TROUBLE;
}

static int is(const char *word, const char *text) { return strcmp(word, text) == 0; }

/* Digits alone. A number too large for its type stays at the type's end, which is as much above what is taken. */
static int read_whole(const char *word, size_t *whole)
{
    *whole = 0;
    for (const char *at = word; *at; at++) {
        if (*at < '0' || *at > '9')
            return 0;
        size_t digit = (size_t)(*at - '0');
        *whole = *whole > (SIZE_MAX - digit) / 10 ? SIZE_MAX : 10 * *whole + digit;
    }
    return *word != 0;
}

/* ---- A job, cut into lots ---- */

/* The library counts sublots from 0, and people from 1. */
static void show_lot(size_t lot, uint32_t start, uint32_t count, int tabs)
{
    printf(tabs ? "%lu\t%lu\t%lu\t%lu\n" : "lot %3lu   sublots %4lu to %4lu   %2lu in all\n", (unsigned long)lot + 1,
           (unsigned long)start + 1, (unsigned long)start + count, (unsigned long)count);
}

static enum status answer_job(const char *word, int tabs)
{
    uint32_t lots[2 * TULPAVICE_MOST_LOTS];
    size_t sublots;
    if (!read_whole(word, &sublots))
        return wrong_usage(word, "is not a number of sublots");
    struct tulpavice_listed cut = tulpavice_cut(sublots, lots, sizeof lots / sizeof *lots);
    if (cut.refusal.number) {
        fprintf(stderr, "%s: refusal %d, a job has up to %d sublots\n", program, (int)cut.refusal.number,
                TULPAVICE_MOST_SUBLOTS);
        return BAD;
    }
    if (tabs)
        printf("lot\tfirst\tlast\tsublots\n");
    for (size_t i = 0; i < cut.items; i++)
        show_lot(i, lots[2 * i], lots[2 * i + 1], tabs);
    return GOOD;
}

/* ---- Editions ---- */

static enum status answer_table(const char *word)
{
    size_t number;
    if (!read_whole(word, &number) || number > UINT16_MAX)
        return wrong_usage(word, "is not a whole number from 0 to 65535");
    write_table((uint16_t)number);
    return GOOD;
}

/* ---- What is asked for ---- */

/* What begins with a minus, and is more, is an option, known or not; a file of such a name has a path, as ./-x. */
static int is_option(const char *word) { return word[0] == '-' && word[1]; }

static const char NOT_HERE[] = "is not understood here";
static const char A_FILE[] = "needs a file, or - for standard input";

/* Takes the word that the one before it needs. The words end in NULL. */
static enum status take_word(char ***words, const char *needs, const char **taken)
{
    char **at = *words;
    if (!at[1])
        return wrong_usage(at[0], needs);
    if (is_option(at[1]))
        return wrong_usage(at[1], NOT_HERE);
    *taken = at[1];
    *words = at + 1;
    return GOOD;
}

struct options {
    int tabs;
    const char *store, *edition;
    uint32_t number; /* that the word for an edition says */
};

/* Any order will do, but each once, and all before what is asked for. */
static enum status take_options(char ***words, struct options *o)
{
    enum status status = GOOD;
    for (; status == GOOD && **words; ++*words)
        if (!o->tabs && is(**words, "--tabs"))
            o->tabs = 1;
        else if (!o->store && is(**words, "--store"))
            status = take_word(words, "needs a file", &o->store);
        else if (!o->edition && is(**words, "--edition"))
            status = take_word(words, "needs a number", &o->edition);
        else
            break;
    return status;
}

/* The library takes any number of 32 bits, and says whether the store has such an edition. */
static enum status check_options(struct options *o)
{
    size_t number = 0;
    if (o->store && !o->edition)
        return wrong_usage("--store", "needs --edition beside it");
    if (o->edition && !o->store)
        return wrong_usage("--edition", "needs --store beside it");
    if (o->store && is(o->store, "-"))
        return wrong_usage(o->store, "is standard input, and a store comes from a file");
    if (o->edition && (!read_whole(o->edition, &number) || number > UINT32_MAX))
        return wrong_usage(o->edition, "is not a whole number from 0 to 4294967295");
    o->number = (uint32_t)number;
    return GOOD;
}

/* What can be asked for: lots, where no word before them says otherwise. */
enum asked { LOTS, SHEET, JOB, TABLE };

static const char *const NEEDS[] = {A_FILE, A_FILE, "needs a number of sublots", "needs a number for the edition"};

/* No percentage is asked for where a job is cut or the table written: a store is then not understood. */
static enum asked asked_by(const char *word, const struct options *o)
{
    if (is(word, "--check"))
        return SHEET;
    if (is(word, "--cut") && !o->store)
        return JOB;
    if (is(word, "--write-table") && !o->store && !o->tabs)
        return TABLE;
    return LOTS;
}

static enum status answer_asked(enum asked asked, const char *word, const struct options *o)
{
    struct store store;
    enum status status = GOOD;
    if (asked == JOB)
        return answer_job(word, o->tabs);
    if (asked == TABLE)
        return answer_table(word);
    if (o->store)
        status = read_store(o->store, o->number, &store);
    else
        store = table_106_1();
    return status == GOOD ? answer_file(word, asked == SHEET ? check_sheet : answer_lots, &store, o->tabs) : status;
}

static enum status answer_words(char **words)
{
    struct options o = {0, NULL, NULL, 0};
    enum status status = take_options(&words, &o);
    if (status == GOOD)
        status = check_options(&o);
    if (status != GOOD)
        return status;
    if (!*words)
        return o.store ? wrong_usage("--store", "needs a file of lots besides, or - for standard input")
                       : wrong_usage("--tabs", A_FILE);
    const char *word = *words;
    enum asked asked = asked_by(word, &o);
    if (asked != LOTS)
        status = take_word(&words, NEEDS[asked], &word);
    else if (is_option(word))
        status = wrong_usage(word, NOT_HERE);
    if (status == GOOD && words[1])
        status = wrong_usage(words[1], "is a word too many");
    return status == GOOD ? answer_asked(asked, word, &o) : status;
}

static enum status answer(int argc, char **argv)
{
    if (argc < 2)
        show_example();
    else if (argc == 2 && is(argv[1], "--help"))
        show_help(argv[0]);
    else if (argc == 2 && is(argv[1], "--version"))
        printf("%s (Tulpavice) %s\n", program, TULPAVICE_VERSION);
    else
        return answer_words(argv + 1);
    return GOOD;
}

int main(int argc, char **argv)
{
    const char *folder = argc > 0 ? strrchr(argv[0], '/') : NULL;
    if (argc > 0)
        program = folder ? folder + 1 : argv[0];
    enum status status = answer(argc, argv);
    if (fflush(stdout) == 0 && !ferror(stdout))
        return status;
    fprintf(stderr, "%s: the answers cannot be written\n", program);
    return TROUBLE;
}
