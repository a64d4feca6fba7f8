/* The store of editions that the notebook lends whoever looks up a percentage, and the edition that it names: Table 106-1 in
   a store of its own, or an edition out of a file. tulpavice.h says what bytes a store is. */
#ifndef STORE_H
#define STORE_H

#include "words.h"

struct store {
    const char *path; /* NULL for the one that is no file's */
    const uint8_t *bytes;
    size_t size;
    uint32_t edition;
};

/* There is room for one: what is called last of these three has it. */
struct store table_106_1(void);

/* Tells a file that cannot be read (TROUBLE), and one that is no store or has no such edition (BAD), once and before anything
   is answered: whatever was asked, it would be refused. */
enum status read_store(const char *path, uint32_t edition, struct store *store);

/* Writes Table 106-1 to standard output, as an edition of that number: a store of one edition. */
void write_table(uint16_t number);

#endif
