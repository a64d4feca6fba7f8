/* The library beside plain C.

     bench                        checks that both answer alike, then times them
     bench kinds                  names the kinds of work
     bench count KIND WHO CALLS   does so many calls of one kind and nothing else, for whoever counts instructions;
                                  WHO is library, plain or nothing

   Only ratios are worth reading. The two are timed in turns, so short that the machine's pace seldom changes between
   them, over so many inputs that branches cannot be foreseen from the last time; each round gives one ratio. */
#define _POSIX_C_SOURCE 200809L

#include <inttypes.h>
#include <stdbool.h>
#include <stdio.h>
#include <stdlib.h>
#include <string.h>
#include <time.h>

#include "kinds.h"

enum { ROUNDS = 801, INPUTS_COUNTED = 128 };

static struct inputs inputs;

static bool same(const struct kind *kind, size_t i)
{
    int64_t ours[MOST_NUMBERS], theirs[MOST_NUMBERS];
    size_t n = kind->answer(&library, &inputs, i, ours);
    kind->answer(&plain, &inputs, i, theirs);
    if (memcmp(ours, theirs, n * sizeof *ours) == 0)
        return true;
    printf("%s: library and plain differ on ", kind->name);
    kind->show(&inputs, i);
    printf("\n");
    return false;
}

static void check(void)
{
    for (size_t k = 0; k < KINDS; k++) {
        for (size_t i = 0; i < inputs.number; i++) {
            if (!same(&kinds[k], i))
                exit(1);
        }
    }
    printf("Library and plain C answer alike on %zu inputs of each kind.\n", inputs.number);
}

/* Nanoseconds of one turn, and the sum of its answers. */
static double turn(const struct kind *kind, const struct calculator *who, size_t round, uint64_t *sum)
{
    struct timespec start, end;
    size_t from = round * kind->calls_a_turn % inputs.number;
    clock_gettime(CLOCK_MONOTONIC, &start);
    *sum = kind->run(who, &inputs, from, kind->calls_a_turn);
    clock_gettime(CLOCK_MONOTONIC, &end);
    return 1e9 * (double)(end.tv_sec - start.tv_sec) + (double)(end.tv_nsec - start.tv_nsec);
}

static int ascending(const void *a, const void *b)
{
    double x = *(const double *)a, y = *(const double *)b;
    return (x > y) - (x < y);
}

/* The two take turns at going first. */
static void time_kind(const struct kind *kind)
{
    double ours[ROUNDS], theirs[ROUNDS], ratios[ROUNDS];
    for (size_t r = 0; r < ROUNDS; r++) {
        uint64_t our_sum, their_sum;
        if (r % 2 == 1)
            theirs[r] = turn(kind, &plain, r, &their_sum);
        ours[r] = turn(kind, &library, r, &our_sum);
        if (r % 2 == 0)
            theirs[r] = turn(kind, &plain, r, &their_sum);
        if (our_sum != their_sum) {
            printf("%s: library and plain sum up to %" PRIu64 " and %" PRIu64 "\n", kind->name, our_sum, their_sum);
            exit(1);
        }
        ratios[r] = ours[r] / theirs[r];
    }
    qsort(ours, ROUNDS, sizeof *ours, ascending);
    qsort(theirs, ROUNDS, sizeof *theirs, ascending);
    qsort(ratios, ROUNDS, sizeof *ratios, ascending);
    printf("%-13s %7.2f %8.2f %5.2f to %4.2f %8.2f %12.0f %7.0f\n", kind->name, ratios[ROUNDS / 2], ratios[0],
           ratios[ROUNDS / 4], ratios[3 * ROUNDS / 4], ratios[ROUNDS - 1], ours[ROUNDS / 2] / kind->calls_a_turn,
           theirs[ROUNDS / 2] / kind->calls_a_turn);
}

static int time_all(void)
{
    make_inputs(&inputs, MOST_INPUTS);
    check();
    printf("\nTime, library / plain C, over %d rounds; ns a call are medians, for orientation only.\n", ROUNDS);
    printf("%-13s %7s %8s %13s %8s %12s %7s\n", "work", "median", "lowest", "quartiles", "highest", "library ns",
           "plain");
    for (size_t k = 0; k < KINDS; k++)
        time_kind(&kinds[k]);
    return 0;
}

static int name_kinds(void)
{
    for (size_t k = 0; k < KINDS; k++)
        printf("%s\n", kinds[k].name);
    return 0;
}

static int count(const char *kind, const char *name, const char *calls)
{
    const struct calculator *calculators[] = {&library, &plain, &nothing};
    make_inputs(&inputs, INPUTS_COUNTED);
    for (size_t k = 0; k < KINDS; k++) {
        for (size_t c = 0; c < 3; c++) {
            if (strcmp(kinds[k].name, kind) == 0 && strcmp(calculators[c]->name, name) == 0) {
                printf("%" PRIu64 "\n", kinds[k].run(calculators[c], &inputs, 0, strtoul(calls, NULL, 10)));
                return 0;
            }
        }
    }
    return 2;
}

int main(int argc, char **argv)
{
    if (argc == 1)
        return time_all();
    if (argc == 2 && strcmp(argv[1], "kinds") == 0)
        return name_kinds();
    if (argc == 5 && strcmp(argv[1], "count") == 0)
        return count(argv[2], argv[3], argv[4]);
    fprintf(stderr, "bench [kinds | count KIND library|plain|nothing CALLS]\n");
    return 2;
}
