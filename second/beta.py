"""Holds Table 106-1 against the beta distribution of document 003: python3 second/beta.py

The percentage is 100 less 100 times the beta distribution, both parameters n/2 - 1, up to 1/2 - Q root(n)/(2(n - 1)).
Our copy of document 003 has a half before that fraction as well as the 2 under it. One of the two is too many: with
both, the column n=4 would reach 100 at an index of 3.00, not 1.50. Column n=2 is empirical, by the table's own note,
and left out.
"""
import math

from papers import TABLE

LEAST = 0.01  # in percent: the table's last printed place


def cosines(power, sine):
    """The integral of cos^power from 0 to the angle that has this sine, by parts."""
    if power == 0:
        return math.asin(sine)
    if power == 1:
        return sine
    cosine = math.sqrt(1 - sine * sine)
    return (sine * cosine ** (power - 1) + (power - 1) * cosines(power - 2, sine)) / power


def percentage(count, index, under=1):
    """By document 003's formula, for an index of 0 or more; under is what else stands under the fraction.

    With 1 - 2X as the sine of an angle the density is the cosine to the power n - 3, so the integral has a closed form.
    Doubles give it to some 1e-13 of a percent.
    """
    sine = min(1.0, index * math.sqrt(count) / ((count - 1) * under))
    return 50 + 50 * cosines(count - 3, sine) / cosines(count - 3, 1.0)


def held(under=1):
    """Every entry, with what the formula gives and how far off it is."""
    for count in range(3, 11):
        for row, entry in enumerate(TABLE[count]):
            formula = percentage(count, row / 20, under)
            yield count, row, entry, formula, abs(float(entry) - formula)


def main():
    every = list(held())
    differing = [entry for entry in every if entry[-1] > LEAST]
    for count, row, entry, formula, _ in differing:
        print(f"n={count} index {row / 20:.2f}: the table has {entry}, the formula gives {formula:.4f}")
    print(f"more than {LEAST} off, for n=3 to 10: {len(differing)} of {len(every)} entries")
    print(f"the others are off by {max(entry[-1] for entry in every if entry[-1] <= LEAST):.4f} at the most")
    print(f"with the half and the 2 both, as document 003 is printed, {sum(entry[-1] > LEAST for entry in held(2))} would be")


if __name__ == "__main__":
    main()
