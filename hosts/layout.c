/* Where each number stands in the structs that pass between C and the library, in bytes. The library has them so from
   the structs of crates/rules/src/host.rt, which the audit holds against these lines; the compiler holds the header's
   against them, and no program is compiled here before it has. */
#include "tulpavice.h"

#define SIZE(name, bytes) _Static_assert(sizeof(struct tulpavice_##name) == (bytes), "the size of " #name)
#define AT(name, field, bytes) _Static_assert(offsetof(struct tulpavice_##name, field) == (bytes), #name "." #field)

SIZE(refusal, 4);
AT(refusal, number, 0);

SIZE(lot, 88);
AT(lot, upper, 0);
AT(lot, upper_present, 4);
AT(lot, lower, 8);
AT(lot, lower_present, 12);
AT(lot, count, 16);
AT(lot, readings, 20);

SIZE(mean, 12);
AT(mean, refusal, 0);
AT(mean, total, 4);
AT(mean, count, 8);

SIZE(deviation, 8);
AT(deviation, refusal, 0);
AT(deviation, deviation, 4);

SIZE(percentages, 40);
AT(percentages, refusal, 0);
AT(percentages, upper, 8);
AT(percentages, lower, 16);
AT(percentages, pwl, 24);
AT(percentages, tried_upper, 32);
AT(percentages, tried_lower, 36);

SIZE(payment, 40);
AT(payment, refusal, 0);
AT(payment, composite, 8);
AT(payment, vma, 16);
AT(payment, voids, 20);
AT(payment, density, 24);
AT(payment, lot, 28);
AT(payment, pay, 32);

SIZE(mixture_limits, 28);
AT(mixture_limits, refusal, 0);
AT(mixture_limits, vma_lower, 4);
AT(mixture_limits, vma_upper, 8);
AT(mixture_limits, voids_lower, 12);
AT(mixture_limits, voids_upper, 16);
AT(mixture_limits, density_lower, 20);
AT(mixture_limits, density_upper, 24);

SIZE(read, 92);
AT(read, refusal, 0);
AT(read, lot, 4);

SIZE(written, 16);
AT(written, refusal, 0);
AT(written, size, 8);

SIZE(listed, 16);
AT(listed, refusal, 0);
AT(listed, items, 8);

SIZE(place, 16);
AT(place, refusal, 0);
AT(place, start, 8);

SIZE(sheet, 48);
AT(sheet, vma, 0);
AT(sheet, voids, 8);
AT(sheet, density, 16);
AT(sheet, composite, 24);
AT(sheet, verdict, 32);
AT(sheet, pay, 40);

SIZE(checked, 32);
AT(checked, refusal, 0);
AT(checked, accepted, 4);
AT(checked, entry, 8);
AT(checked, sheet, 16);
AT(checked, ours, 24);

SIZE(row, 32);
AT(row, refusal, 0);
AT(row, mean, 8);
AT(row, deviation, 16);
AT(row, pwl, 24);
