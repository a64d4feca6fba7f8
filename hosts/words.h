/* What the notebook reads, characters, words, numbers and lots, and how it tells what is wrong with them.

   A file is read a character at a time: no line is too long to be held, since none is held. A line is words with blanks
   or tabs between them. It ends in a line feed, with a carriage return before it or without. Blank lines, and lines
   that start with #, are passed over. A number is a minus if it is negative, digits, and where wanted a point and up to
   two or three decimals; zeros past these do no harm. A lot is the words

       LOWER UPPER READING READING ...        such as        2.65 5.35 4.2 4.5 3.3 5.0

   with up to three decimals each. A minus alone stands for an absent limit. */
#ifndef WORDS_H
#define WORDS_H

#include "tulpavice.h"

#include <stdio.h>

struct store; /* store.h */

/* The program's name, as it was called, without its folder. */
extern const char *program;

/* How the program ends. */
enum status { GOOD, BAD, TROUBLE };

/* ---- Files ---- */

/* Tells a file that cannot be opened, and answers NULL for it. */
FILE *open_file(const char *path);

void tell_unread(const char *name);

/* ---- Words ---- */

/* As much of a word as is told where it is wrong, and how long it is. */
enum { TOLD = 24 };
struct word {
    char start[TOLD];
    size_t length;
};

int is_word(const struct word *word, const char *text);

struct input {
    FILE *file;
    int next;
    unsigned long line;
    struct word *word; /* which what is taken belongs to */
};

struct input input_of(FILE *file);

int at_line_end(const struct input *in);

/* Takes the blanks before a line's first word, and says whether there is one, and no comment. */
int start_line(struct input *in);

/* Takes a line that has no word. */
enum status pass_over(struct input *in);

/* Takes what is left of a line, and its end. */
void end_line(struct input *in);

/* What is taken between these two is the word. It is taken to its end even where it is wrong, since it is told whole,
   and so are the blanks behind it. */
void start_word(struct input *in, struct word *word);
void end_word(struct input *in);

/* A number in units of its last decimal, of which it has two or three. One above `most` stays there. Answers what is
   wrong, or NULL. */
const char *read_number(struct input *in, int decimals, int64_t most, int64_t *read);

/* Begins what is told of a line. */
void tell_line(unsigned long line);

void tell_word(const struct word *word);

/* ---- Lots ---- */

/* There is a place for one reading more than a lot can have: for it the library refuses the lot, whatever follows. */
enum { PLACES = TULPAVICE_MOST + 1 };

/* The words of a lot come in this order, and then the other readings. */
enum { LOWER, UPPER, FIRST_READING, WORDS = FIRST_READING + PLACES };

struct lot {
    int32_t lower;
    uint32_t lower_present;
    int32_t upper;
    uint32_t upper_present;
    size_t count;
    int32_t readings[PLACES];
};

/* A lot, and its words, of which those after the last reading that has a place share one. */
struct lot_line {
    struct lot lot;
    size_t count;
    struct word words[WORDS + 1];
};

/* Reads what is left of a line as a lot, into one that is all zero, and tells a line that is none. */
enum status read_lot(struct input *in, struct lot_line *line);

/* Tells a refusal that the library has for the lot, by the edition of a store. */
void tell_refusal(const struct lot_line *line, const struct store *store, uint32_t refusal);

/* ---- What is shown ---- */

const char *verdict(int64_t rejected);

/* Neither is below 0. A comma stands before each three digits. */
void print_grouped(int64_t whole);
void print_dollars(int64_t cents);

#endif
