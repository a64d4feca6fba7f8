/* words.h says what these are for. */
#include "words.h"

#include "store.h"

#include <errno.h>
#include <string.h>

const char *program = "notebook";

/* ---- Files ---- */

FILE *open_file(const char *path)
{
    FILE *file = fopen(path, "r");
    if (!file)
        fprintf(stderr, "%s: %s cannot be opened: %s\n", program, path, strerror(errno));
    return file;
}

void tell_unread(const char *name) { fprintf(stderr, "%s: %s cannot be read\n", program, name); }

/* ---- Words ---- */

int is_word(const struct word *word, const char *text)
{
    size_t length = strlen(text);
    return word->length == length && length <= TOLD && memcmp(word->start, text, length) == 0;
}

/* A carriage return at the end of a line is no part of it. Elsewhere it is no blank: a file whose lines end in nothing
   else would be one line, and be answered as one lot. */
static int next_of(FILE *file)
{
    int next = getc(file);
    if (next == '\r') {
        int after = getc(file);
        if (after == '\n' || after == EOF)
            return after;
        ungetc(after, file);
    }
    return next;
}

struct input input_of(FILE *file)
{
    struct input in = {file, next_of(file), 1, NULL};
    return in;
}

static int take(struct input *in)
{
    int taken = in->next;
    if (in->word) {
        if (in->word->length < TOLD)
            in->word->start[in->word->length] = (char)taken;
        in->word->length++;
    }
    in->next = next_of(in->file);
    return taken;
}

static int at_blank(const struct input *in) { return in->next == ' ' || in->next == '\t'; }

static int at_digit(const struct input *in) { return in->next >= '0' && in->next <= '9'; }

int at_line_end(const struct input *in) { return in->next == '\n' || in->next == EOF; }

static int at_word_end(const struct input *in) { return at_blank(in) || at_line_end(in); }

static void take_blanks(struct input *in)
{
    while (at_blank(in))
        take(in);
}

int start_line(struct input *in)
{
    take_blanks(in);
    return in->next != '#' && !at_line_end(in);
}

enum status pass_over(struct input *in)
{
    int returned = 0;
    while (!at_line_end(in))
        returned |= take(in) == '\r';
    if (!returned)
        return GOOD;
    tell_line(in->line);
    fputs("a carriage return within a comment\n", stderr);
    return BAD;
}

void end_line(struct input *in)
{
    while (!at_line_end(in))
        take(in);
    if (in->next == '\n')
        take(in);
    in->line++;
}

void start_word(struct input *in, struct word *word)
{
    word->length = 0;
    in->word = word;
}

void end_word(struct input *in)
{
    while (!at_word_end(in))
        take(in);
    in->word = NULL;
    take_blanks(in);
}

static const char NOT_A_NUMBER[] = "is not a number";

/* A number that would be too large stays at the most, which is as much out of the library's range. */
static int64_t with_digit(int64_t number, int digit, int64_t most)
{
    return number > (most - digit) / 10 ? most : 10 * number + digit;
}

/* By whole numbers alone, so that no decimal is rounded. */
const char *read_number(struct input *in, int decimals, int64_t most, int64_t *read)
{
    int negative = in->next == '-';
    int64_t number = 0;
    if (negative)
        take(in);
    if (!at_digit(in))
        return NOT_A_NUMBER;
    while (at_digit(in))
        number = with_digit(number, take(in) - '0', most);
    if (in->next == '.') {
        take(in);
        if (!at_digit(in))
            return NOT_A_NUMBER;
    }
    for (int i = 0; i < decimals; i++)
        number = with_digit(number, at_digit(in) ? take(in) - '0' : 0, most);
    while (in->next == '0')
        take(in);
    if (at_digit(in))
        return decimals == 2 ? "has more than two decimals" : "has more than three decimals";
    *read = negative ? -number : number;
    return at_word_end(in) ? NULL : NOT_A_NUMBER;
}

/* Answers go first: what is said keeps its order where both streams go to one place. */
void tell_line(unsigned long line)
{
    fflush(stdout);
    fprintf(stderr, "%s: line %lu: ", program, line);
}

/* A byte that is no letter, digit or sign of ASCII could do anything to a terminal, and is told by its number. */
void tell_word(const struct word *word)
{
    fputs("\"", stderr);
    for (size_t i = 0; i < word->length && i < TOLD; i++) {
        unsigned char byte = (unsigned char)word->start[i];
        fprintf(stderr, byte > ' ' && byte < 127 ? "%c" : "\\x%02x", byte);
    }
    fputs(word->length > TOLD ? "...\"" : "\"", stderr);
}

/* ---- Lots ---- */

/* Where a word of a lot is kept. */
static size_t kept_at(size_t at) { return at < WORDS ? at : WORDS; }

/* The word that comes next. Answers what is wrong, or NULL, as read_words does. */
static const char *read_word(struct input *in, struct lot_line *line)
{
    struct lot *lot = &line->lot;
    size_t at = line->count++;
    struct word *word = &line->words[kept_at(at)];
    int64_t number = 0;
    start_word(in, word);
    const char *wrong = read_number(in, 3, INT32_MAX, &number);
    end_word(in);
    int absent = at < FIRST_READING && is_word(word, "-");
    if (wrong && !absent)
        return wrong;
    if (at == LOWER) {
        lot->lower = (int32_t)number;
        lot->lower_present = !absent;
    } else if (at == UPPER) {
        lot->upper = (int32_t)number;
        lot->upper_present = !absent;
    } else if (lot->count < PLACES)
        lot->readings[lot->count++] = (int32_t)number;
    return NULL;
}

/* Stops at the end of the line, or behind the first word that is wrong. */
static const char *read_words(struct input *in, struct lot_line *line)
{
    const char *wrong = NULL;
    while (!wrong && !at_line_end(in))
        wrong = read_word(in, line);
    return wrong;
}

static void tell_place(const struct lot_line *line, size_t at)
{
    if (at < FIRST_READING)
        fputs(at == LOWER ? "the lower limit " : "the upper limit ", stderr);
    else
        fprintf(stderr, "reading %lu ", (unsigned long)(at - FIRST_READING + 1));
    tell_word(&line->words[kept_at(at)]);
}

enum status read_lot(struct input *in, struct lot_line *line)
{
    const char *wrong = read_words(in, line);
    int missing = !wrong && line->count < FIRST_READING;
    if (ferror(in->file)) /* a line cut short is not the lot that was meant */
        return TROUBLE;
    if (!wrong && !missing)
        return GOOD;
    tell_line(in->line);
    if (missing)
        fputs(line->count == LOWER ? "the lower limit is missing\n" : "the upper limit is missing\n", stderr);
    else {
        tell_place(line, line->count - 1);
        fprintf(stderr, " %s\n", wrong);
    }
    return BAD;
}

/* Which numbers are in range is for the library to say: it takes one of them twice, or refuses it. */
static int out_of_range(int32_t number)
{
    const int32_t twice[] = {number, number};
    return tulpavice_mean(twice, 2).refusal.number == 5;
}

/* Of a lot with a number out of range: the word of the first, the upper limit before the lower. */
static size_t first_out_of_range(const struct lot *lot)
{
    size_t i = 0;
    if (lot->upper_present && out_of_range(lot->upper))
        return UPPER;
    if (lot->lower_present && out_of_range(lot->lower))
        return LOWER;
    while (i + 1 < lot->count && !out_of_range(lot->readings[i]))
        i++;
    return FIRST_READING + i;
}

/* Which table has no column, for whoever chose one. */
static void tell_table(const struct store *store)
{
    if (store->path)
        fprintf(stderr, "edition %lu", (unsigned long)store->edition);
    else
        fputs("the table", stderr);
}

void tell_refusal(const struct lot_line *line, const struct store *store, uint32_t refusal)
{
    fprintf(stderr, "refusal %d, ", (int)refusal);
    switch (refusal) {
    case 4:
        fprintf(stderr, "a lot has 2 to %d readings, and this has %lu", TULPAVICE_MOST,
                (unsigned long)(line->count - FIRST_READING));
        break;
    case 5:
        tell_place(line, first_out_of_range(&line->lot));
        fputs(" is out of range", stderr);
        break;
    case 6:
        fputs("both limits are absent", stderr);
        break;
    case 7:
        tell_place(line, LOWER);
        fputs(" is above ", stderr);
        tell_place(line, UPPER);
        break;
    case 10:
        tell_table(store);
        fprintf(stderr, " has no column for %lu readings, so there is no PWL", (unsigned long)line->lot.count);
        break;
    default:
        fputs("the header says why", stderr);
    }
    fputs("\n", stderr);
}

/* ---- What is shown ---- */

const char *verdict(int64_t rejected) { return rejected ? "rejected" : "accepted"; }

void print_grouped(int64_t whole)
{
    if (whole >= 1000)
        print_grouped(whole / 1000);
    printf(whole >= 1000 ? ",%03d" : "%d", (int)(whole % 1000));
}

void print_dollars(int64_t cents)
{
    printf("$");
    print_grouped(cents / 100);
    printf(".%02d", (int)(cents % 100));
}
