/* A pay sheet, checked against the rules. It comes as a file of nine lines, in any order, each with its name first; this
   is the worked example's:

       vma       12.30 16.00 13.0 12.5 13.0 13.3 12.9 12.4 13.4 13.0 12.6 12.8      a lot, as words.h has it
       voids     2.65 5.35 4.2 4.5 3.3 5.0 5.4 2.5 3.8 4.1 4.3 4.5
       density   91.50 97.00 91.5 93.0 92.9 93.5 93.0 94.0 92.8 93.5 91.0 92.7
       price     80.00                    dollars a ton
       quantity  8000                     tons
       pwl       97.51 91.28 92.56        of VMA, voids and density, in percent
       composite 0.998
       verdict   accepted                 or rejected
       pay       638720.00                dollars

   Numbers have up to two decimals; those of lots, and the composite, three. */
#ifndef SHEET_H
#define SHEET_H

#include "store.h"

/* Shows whether the sheet of a file is right (GOOD) by the edition of a store, and where it differs from what the rules give.
   Of a file that is no sheet, or one that the library refuses, it tells the first fault alone, since a sheet is one thing. */
enum status check_sheet(FILE *file, const struct store *store, int tabs);

#endif
