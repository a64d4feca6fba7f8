"""Lots for the library and the second program to be asked about: accepted ones, at and next to every midpoint, and refused ones.

A lot here is a tuple: the upper limit, its presence, the lower limit, its presence, and the list of readings. The same
seed gives the same lots.
"""
import itertools
import math

import papers
from papers import LAST, MOST, RANGE

INT32 = -(2**31), 2**31 - 1
COUNTS = range(2, MOST + 1)
COLUMNS = tuple(papers.TABLE)  # the counts that have one in Table 106-1
JOINED = tuple(count for count in COUNTS if count not in COLUMNS)
ROWS = range(1, LAST + 1)

# Presences, some of which a narrower number would lose; numbers that stand where none is read; numbers out of range.
PRESENT = 1, 1, 1, 1, 2, 0x100, 0x1_0000, 0x8000_0000, 0xFFFF_FFFF
UNREAD = 0, 0, 1, -1, RANGE, RANGE + 1, -RANGE - 1, *INT32
OUTSIDE = RANGE + 1, -RANGE - 1, RANGE + 2, 2**24, -(2**24), *INT32

# The bounds of readings and limits, and their neighbours.
EDGES = -RANGE, -RANGE + 1, -1, 0, 1, RANGE - 1, RANGE


# Lots that are accepted; a percentage is to be had of them if their count has a column in the edition that is named.


def desk():
    """The desk examples of document 01, and document 000's own."""
    voids = [4200, 4500, 3300, 5000, 5400, 2500, 3800, 4100, 4300, 4500]
    vma = [13000, 12500, 13000, 13300, 12900, 12400, 13400, 13000, 12600, 12800]
    density = [91500, 93000, 92900, 93500, 93000, 94000, 92800, 93500, 91000, 92700]
    return [
        (4000, 1, 0, 0, [4000, 4000]),
        (3999, 1, 0, 0, [4000, 4000]),
        (2000, 1, 0, 0, [1000, 3000]),
        (2000, 1, 2000, 1, [1000, 3000]),
        (21, 1, 0, 0, [0, 0, 0, 80]),
        (19, 1, 0, 0, [0, 0, 0, 80]),
        (20, 1, 0, 0, [0, 0, 0, 80]),
        (21, 1, 19, 1, [0, 0, 0, 80]),
        (1, 1, 0, 0, [0, 1]),
        (0, 1, 0, 0, [-RANGE, RANGE]),
        (5350, 1, 2650, 1, voids),
        (16000, 1, 12300, 1, vma),
        (97000, 1, 91500, 1, density),
    ]


def limited(rng, lower, upper, readings):
    """The lot with both limits, or with one of them."""
    draw = rng.random()
    if draw < 0.6:
        return upper, rng.choice(PRESENT), lower, rng.choice(PRESENT), readings
    if draw < 0.8:
        return upper, rng.choice(PRESENT), rng.choice(UNREAD), 0, readings
    return rng.choice(UNREAD), 0, lower, rng.choice(PRESENT), readings


def characteristic(rng):
    """A middle, a spread and limits such as document 000 has them for voids, VMA and density."""
    kind = rng.randrange(3)
    if kind == 0:
        target = rng.randrange(3000, 5001, 100)
        return target + rng.randrange(-600, 601), rng.randrange(200, 1500), target - 1350, target + 1350
    if kind == 1:
        minimum = rng.randrange(11000, 17001, 500)
        return minimum + rng.randrange(-500, 2000), rng.randrange(100, 1200), minimum - 700, minimum + 3000
    lower, upper = rng.choice(((92500, 97000), (92200, 97000), (93000, 98000), (91500, 97000)))
    return rng.randrange(91000, 97000), rng.randrange(300, 3000), lower, upper


def realistic(rng, times, counts=COLUMNS):
    for _ in range(times):
        middle, spread, lower, upper = characteristic(rng)
        grain = rng.choice((100, 10, 1))  # tests are reported to a tenth, a hundredth or a thousandth
        readings = [round(rng.gauss(middle, spread) / grain) * grain for _ in range(rng.choice(counts))]
        yield limited(rng, lower, upper, readings)


def uniform(rng, times, widest, counts=COLUMNS):
    """Readings and limits that are whole numbers between -widest and widest."""
    for _ in range(times):
        readings = rng.choices(range(-widest, widest + 1), k=rng.choice(counts))
        lower, upper = sorted((rng.randint(-widest, widest), rng.randint(-widest, widest)))
        yield limited(rng, lower, upper, readings)


def small(rng, times, counts=COLUMNS):
    for widest in 1, 2, 4, 10, 60:
        yield from uniform(rng, times // 5, widest, counts)


def equal(rng, times, counts=COLUMNS):
    for _ in range(times):
        reading = rng.choice((*EDGES, rng.randint(-RANGE, RANGE)))
        near = [max(-RANGE, min(RANGE, reading + off)) for off in (-1000, -1, 0, 1, 1000)]
        lower, upper = sorted((rng.choice(near), rng.choice(near)))
        yield limited(rng, lower, upper, [reading] * rng.choice(counts))


def extreme(rng, times, counts=COLUMNS):
    for _ in range(times):
        readings = rng.choices(EDGES, k=rng.choice(counts))
        lower, upper = sorted(rng.choices(EDGES, k=2))
        yield limited(rng, lower, upper, readings)


def joined(rng, times):
    """Lots of more than ten readings, so many of each make."""
    makes = realistic, small, equal, extreme
    wide = uniform(rng, times, RANGE, JOINED)
    return itertools.chain(wide, *(make(rng, times, JOINED) for make in makes))


def farthest_apart(counts):
    """Readings at both ends of the range in turn, which have the largest deviation of their count."""
    for count in counts:
        yield RANGE, 1, -RANGE, 1, ([-RANGE, RANGE] * count)[:count]


# Lots at the midpoint between two rows, where the index is exactly (2k-1)/40 for row k, and next to it.


def spread_of(readings):
    """Document 01's V."""
    return len(readings) * sum(reading * reading for reading in readings) - sum(readings) ** 2


def rational(rng, count):
    """Small readings with a deviation that is a fraction, and count times that deviation.

    Of two there are none. Of six, eight, ten and fourteen there are none up to 4, and wider ones are rarer."""
    while True:
        readings = rng.choices(range(7), k=count)
        spread = spread_of(readings)
        square, remainder = divmod(count * spread, count - 1)
        root = math.isqrt(square)
        if spread and not remainder and root * root == square:
            return readings, root


def one_sided(rng, upper, readings):
    """The lot with this upper limit, in half the cases with a lower one not above it; and its mirror image."""
    lower = max(-RANGE, upper - rng.choice((0, 1, 100, 3000)))
    lower_present = rng.choice((0, 1))
    yield upper, rng.choice(PRESENT), lower, lower_present, readings
    yield -lower, lower_present, -upper, rng.choice(PRESENT), [-reading for reading in readings]


def ties(rng, times, counts=COLUMNS[1:]):
    for count, row, _ in itertools.product(counts, ROWS, range(times)):
        readings, root = rational(rng, count)
        for odd in 2 * row - 1, 1 - 2 * row:
            # over 40 * count, the limit at which the index is odd/40; the readings are scaled to make it whole
            limit = 40 * sum(readings) + odd * root
            scale = 40 * count // math.gcd(40 * count, limit) * rng.randint(1, 20)
            shift = rng.choice((0, rng.randint(-100_000, 100_000)))
            tied = scale * limit // (40 * count) + shift
            for upper in tied - 1, tied, tied + 1:
                yield from one_sided(rng, upper, [scale * reading + shift for reading in readings])


def near_ties(rng, times, counts=COLUMNS):
    """Any readings, with the two limits between which the row changes."""
    for count, row, sign, _ in itertools.product(counts, ROWS, (1, -1), range(times)):
        widest = rng.choice((10, 1000, 100_000))
        readings = [rng.randint(-widest, widest) for _ in range(count - 1)] + [widest + 1]
        change = papers.mean(readings) + sign * (2 * row - 1) * papers.deviation(tuple(readings)) / 40
        for upper in math.floor(change), math.floor(change) + 1:
            yield from one_sided(rng, upper, readings)


def closest_misses(rng):
    """Two readings cannot tie. These come closest: 40 * distance is nearly root 2 * (2k-1) * their difference."""
    for row in ROWS:
        square = 2 * (2 * row - 1) ** 2
        for distance, difference in convergents(square, 40, 100_000):
            # the limit is whole if distance and difference are both even or both odd
            factor = 1 if (distance - difference) % 2 == 0 else 2
            readings = [0, factor * difference]
            for sign in 1, -1:
                upper = factor * (difference + sign * distance) // 2
                yield from one_sided(rng, upper, readings)


def convergents(square, over, most):
    """The continued fraction of root(square)/over, square not being one: numerators and denominators up to most."""
    # (root + offset)/divisor is what is left to expand, and divisor divides square - offset^2 if all is scaled by over
    square, offset, divisor = square * over * over, 0, over * over
    older, newer = (0, 1), (1, 0)
    while True:
        whole = (math.isqrt(square) + offset) // divisor
        older, newer = newer, (whole * newer[0] + older[0], whole * newer[1] + older[1])
        if newer[1] > most:
            return
        yield newer
        offset = whole * divisor - offset
        divisor = (square - offset * offset) // divisor


def hairs(rng):
    """Nine readings whose index misses a midpoint by less than a double can show, above it and below."""
    # at some rows there are none so near, as where 5 divides 2k-1
    for row, below in itertools.product((14, 17, 26, 29, 32, 35, 41, 44, 50), (0, 1)):
        odd = 2 * row - 1
        # far apart, but so that the range holds the readings and the limit
        distance, spread = nearly_tied(rng, odd, below, 9 * odd * 900_000 // (40 + max(40, odd)))
        readings = spread_out(-distance % 9, spread)
        upper = (sum(readings) + distance) // 9
        shift = -(min(readings) + max(*readings, upper)) // 2
        readings = [reading + shift for reading in readings]
        yield from one_sided(rng, upper + shift, readings)
        yield from one_sided(rng, -upper - shift, [-reading for reading in readings])


def nearly_tied(rng, odd, below, most):
    """Document 01's D and V for nine readings, with 1600(n-1)D^2 and (2k-1)^2 nV apart by less than a 10^16th part.

    There are such readings if 9 divides V + T^2, T being D short of a multiple of 9, and the quotient, which is the sum
    of squares, is even or odd as T is.
    """
    while True:
        distance = rng.randrange(most * 3 // 4, most)
        square = 1600 * 8 * distance**2
        spread = square // (odd * odd * 9) + below
        total = -distance % 9
        fits = (spread + total * total - 9 * total) % 18 == 0
        if fits and 0 < abs(square - odd * odd * 9 * spread) < square // 10**16:
            return distance, spread


def spread_out(total, spread):
    """Nine readings with this sum, 0 to 8, and this V: four pairs, each drawn apart until the squares are right."""
    squares = (spread + total * total) // 9 - total * total
    half = math.isqrt(squares // 8)
    pairs = zip((-half, -half, half, half), four_squares(squares // 2 - 4 * half * half))
    return [total, *(middle + off for middle, apart in pairs for off in (apart, -apart))]


def four_squares(number):
    for first in range(math.isqrt(number), -1, -1):
        for second in range(math.isqrt(number - first**2), -1, -1):
            rest = number - first**2 - second**2
            for third in range(math.isqrt(rest), -1, -1):
                fourth = math.isqrt(rest - third**2)
                if third**2 + fourth**2 == rest:
                    return first, second, third, fourth


# Out of what readings are drawn whose deviation is half of an odd number. Only these counts have such: V is n(n-1)/4
# times an odd square, n divides V + T^2, and the quotient, which is the sum of squares, is even or odd as T is. Of
# sixteen and seventeen they are rare but where most readings are equal.
HALVED = {4: range(7), 9: range(7), 16: (*[0] * 8, 1, -1), 17: (*[0] * 8, 1, -1)}


def halved(rng, count):
    while True:
        readings = rng.choices(HALVED[count], k=count)
        square, remainder = divmod(4 * spread_of(readings), count * (count - 1))
        root = math.isqrt(square)
        if root % 2 == 1 and not remainder and root * root == square:
            return readings


def halves(rng, times):
    """Readings with a deviation exactly half way between two thousandths."""
    for count in rng.choices(tuple(HALVED), k=times):
        scale = rng.randrange(1, 60, 2)
        yield from one_sided(rng, 0, [scale * reading for reading in halved(rng, count)])


# Lots that are refused, by every set of reasons.

SIZES = 0, 1, MOST + 1, MOST + 2, 32, 255, 256 + 4


def counted(rng):
    """Every count from 0 to some that no lot has, readings equal and not, and limits of every presence."""
    counts = *range(MOST + 4), *SIZES[-2:]
    for count, apart, upper_present, lower_present in itertools.product(counts, (0, 900), (0, 1), (0, 1)):
        yield 1000, upper_present, -1000, lower_present, [rng.randint(-apart, apart) for _ in range(count)]


def subsets(numbers):
    return itertools.chain.from_iterable(itertools.combinations(numbers, size) for size in range(len(numbers) + 1))


def some(rng, reasons, sizes):
    """Readings, now and then equal: as many as Table 106-1 has no column for where 10 is a reason, of these sizes where 4 is."""
    count = rng.choice(sizes if 4 in reasons else JOINED if 10 in reasons else COLUMNS)
    apart = rng.choice((0, 3000, 3000, 3000))
    middle = rng.randint(-3000, 3000)
    return rng.choices(range(middle - apart, middle + apart + 1), k=count)


def presences(rng, reasons):
    """Of both limits, or, where they need not lie crossed, of one of them."""
    if 6 in reasons:
        return 0, 0
    upper, lower = rng.choices(PRESENT, k=2)
    return (upper, lower) if 7 in reasons else rng.choice(((upper, lower), (upper, lower), (upper, 0), (0, lower)))


def spoiled(rng, reasons, readings):
    """A lot that gives each of these refusals of 5 to 7 its reason, where the others leave it room."""
    lower, upper = sorted((rng.randint(-3000, 3000), rng.randint(-3000, 3000)))
    if 7 in reasons:
        lower = upper + rng.choice((1, 1, 2, 1000))
    if 5 in reasons:
        place = rng.randrange(len(readings) + 2)
        if place < len(readings):
            readings[place] = rng.choice(OUTSIDE)
        elif place == len(readings):
            upper = rng.choice(OUTSIDE)
        else:
            lower = rng.choice(OUTSIDE)
    upper_present, lower_present = presences(rng, reasons)
    return upper, upper_present, lower, lower_present, readings


def refused(rng, times):
    for reasons, _ in itertools.product(subsets((4, 5, 6, 7, 10)), range(times)):
        yield spoiled(rng, reasons, some(rng, reasons, SIZES))
