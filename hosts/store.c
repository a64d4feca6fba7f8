/* store.h says what these are for. What is a store, and which editions it has, is for the library to say. */
#include "store.h"

/* The largest store has 8 editions of 1,735 bytes. What follows its end is not read, and may be more; but a file of any size
   would be another's. */
enum { MOST_IN_FILE = 1 << 20 };

static uint8_t bytes[MOST_IN_FILE];

struct store table_106_1(void)
{
    struct store store = {NULL, bytes, TULPAVICE_TABLE_106_1_BYTES, 0};
    tulpavice_table_106_1((uint16_t)store.edition, bytes, store.size);
    return store;
}

void write_table(uint16_t number)
{
    struct tulpavice_written written = tulpavice_table_106_1(number, bytes, sizeof bytes);
    fwrite(bytes, 1, written.size, stdout);
}

static enum status take_file(const char *path, size_t *size)
{
    FILE *file = open_file(path);
    if (!file)
        return TROUBLE;
    *size = fread(bytes, 1, sizeof bytes, file);
    int more = getc(file) != EOF, failed = ferror(file);
    fclose(file);
    if (failed)
        tell_unread(path);
    else if (more)
        fprintf(stderr, "%s: %s has more than %d bytes, and no store needs so many\n", program, path, MOST_IN_FILE);
    return failed || more ? TROUBLE : GOOD;
}

/* Of bytes that are no store: where the entry stands that is to blame. Up to there they are one. */
static size_t wrong_entry(const struct store *s)
{
    size_t at = 0;
    while (at + 2 <= s->size) {
        size_t next = at + 2 + ((size_t)s->bytes[at] << 8 | s->bytes[at + 1]);
        if (next > s->size || tulpavice_find(s->bytes, next, s->edition).refusal.number == 11)
            break;
        at = next;
    }
    return at;
}

static void tell_editions(const struct store *s)
{
    uint32_t numbers[TULPAVICE_MOST_EDITIONS];
    size_t count = tulpavice_list(s->bytes, s->size, numbers, TULPAVICE_MOST_EDITIONS).items;
    fprintf(stderr, "it has no edition %lu; it has", (unsigned long)s->edition);
    for (size_t i = 0; i < count; i++)
        fprintf(stderr, i ? ", %lu" : " %lu", (unsigned long)numbers[i]);
    fputs(count ? "" : " none", stderr);
}

enum status read_store(const char *path, uint32_t edition, struct store *store)
{
    struct store read = {path, bytes, 0, edition};
    if (take_file(path, &read.size) != GOOD)
        return TROUBLE;
    *store = read;
    uint32_t refusal = tulpavice_find(read.bytes, read.size, edition).refusal.number;
    if (!refusal)
        return GOOD;
    fprintf(stderr, "%s: %s: refusal %d, ", program, path, (int)refusal);
    if (refusal == 13)
        tell_editions(&read);
    else
        fprintf(stderr, "it is not up to %d editions with rising numbers: the entry at byte %lu is wrong",
                TULPAVICE_MOST_EDITIONS, (unsigned long)wrong_entry(&read));
    fputs("\n", stderr);
    return BAD;
}
