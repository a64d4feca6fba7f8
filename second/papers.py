"""The calculator a second time, as the papers write it: mean, deviation and quality index in wide decimals.

The library works with whole numbers squared. Here the mean is a quotient, the deviation a root and the index the
limit's distance from that mean over that deviation; that index is rounded to its row, and what a handheld tries is
counted by halving a list of the rows; pay is reckoned in percent, dollars and tons, a job is dealt out into lots
sublot by sublot, and of two pay sheets all differences are looked for, also where the first alone is asked for. Of a
store a plain list of editions is kept, and everything is answered from that list. Run by itself it answers calls from
standard input, a line each, as hosts/answers.c does over the library.

Why 60 digits decide an exact tie. An index is looked up for at most seventeen readings. With n of them its square is a
fraction whose denominator divides n * (n * (sum of squares) - (sum)^2), which is at most 1.3e15. Two fractions that
differ, one over that and one over 1600, differ by at least 1/(1600 * 1.3e15) = 4.8e-19. So an index below 2.7 that is
not exactly a midpoint (2k-1)/40 is more than 8e-20 away from it. The error of working with 60 digits is under 1e-40:
sums of at most seventeen squares of at most 1e12, and a deviation, where there is one, of at least 0.2. Rounding to 30
decimals therefore puts a tie exactly on its midpoint and moves no other index across one.

A deviation is rounded to a whole thousandth. Four times its square is a fraction whose denominator divides
n * (n - 1), which is at most 272, and four times the square of what lies half way between two thousandths is whole. So
the squares themselves, if they differ, differ by at least 1/(4 * 272), and a deviation, which is below 1e6, is either
exactly half way or more than 4e-10 off.
"""
import collections
import decimal
import functools
import itertools
import pathlib
import struct
import sys
from collections.abc import Sequence
from decimal import ROUND_HALF_UP, Decimal
from typing import NamedTuple

decimal.getcontext().prec = 60
SNAP = Decimal(1).scaleb(-30)
HALF = Decimal("0.5")

RANGE = 500_000
MOST = 17


class Lot(NamedTuple):
    """Limits (None for absent), how many readings there are said to be, and those of them that have a place."""

    upper: int | None
    lower: int | None
    count: int
    readings: Sequence[int]


def lot_of(upper, upper_present, lower, lower_present, count, readings):
    return Lot(upper if upper_present else None, lower if lower_present else None, count, readings[:count])


# Table 106-1 of document 004, as document 02 corrects it, in percent: a list of 54 entries for each number of readings.


def columns():
    lines = pathlib.Path(__file__).parent.parent.joinpath("data", "table-106-1.tsv").read_text().splitlines()
    rows = [[Decimal(cell) for cell in line.split("\t")[1:]] for line in lines[1:]]
    return {count: list(column) for count, column in enumerate(zip(*rows), start=2)}


TABLE = columns()
LAST = 53


# Document 02: editions of the table, and the store that holds them.

EDITION_HEAD = struct.Struct(">HBHBB")  # bytes that follow, version, number, first n, last n
COLUMN = struct.Struct(f">{LAST + 1}H")
FIRST_ENTRY, LAST_ENTRY = 5_000, 10_000
MOST_EDITIONS = 8


class Edition(NamedTuple):
    """A number, and for each n from the first to the last a column of 54 entries in hundredths of a percent."""

    number: int
    columns: dict[int, tuple[int, ...]]


def pack_edition(edition):
    counts, body = list(edition.columns), b"".join(COLUMN.pack(*column) for column in edition.columns.values())
    return EDITION_HEAD.pack(5 + len(body), 1, edition.number, counts[0], counts[-1]) + body


def size_of(edition):
    return EDITION_HEAD.size + COLUMN.size * len(edition.columns)


def unpack_edition(entry):
    """The edition that fills these bytes, or None where they are not accepted.

    Whole columns are taken for first n, for the next and so on up to last n, as far as there are any. The rest is right,
    length, version and size, where the edition of just these columns has the same bytes."""
    if len(entry) < EDITION_HEAD.size:
        return None
    _, _, number, first, last = EDITION_HEAD.unpack_from(entry)
    body = entry[EDITION_HEAD.size :]
    whole = COLUMN.iter_unpack(body[: len(body) // COLUMN.size * COLUMN.size])
    edition = Edition(number, dict(zip(range(first, last + 1), whole)))
    accepted = edition.columns and all(2 <= count <= MOST and sound(column) for count, column in edition.columns.items())
    return edition if accepted and pack_edition(edition) == entry else None


def sound(column):
    return (column[0], column[-1]) == (FIRST_ENTRY, LAST_ENTRY) and list(column) == sorted(column)


def unpack_store(buffer):
    """The editions up to the end of a store, or None where the buffer is none."""
    editions = []
    while len(buffer) >= 2 and (follow := int.from_bytes(buffer[:2], "big")):
        editions.append(unpack_edition(buffer[: 2 + follow]))
        buffer = buffer[2 + follow :]
    if None in editions or len(editions) > MOST_EDITIONS:
        return None
    numbers = [edition.number for edition in editions]
    return editions if numbers == sorted(set(numbers)) else None


class Store:
    """A lent buffer and, beside it, the plain list of its editions, by which all is answered; None where it is no store."""

    def __init__(self, buffer=b""):
        self.lend(buffer)

    def lend(self, buffer):
        self.buffer, self.editions = bytearray(buffer), unpack_store(buffer)

    def numbers(self):
        return [edition.number for edition in self.editions]

    def columns(self, named):
        """Those of the edition that is named, or None where there is none."""
        return next((edition.columns for edition in self.editions if edition.number == named), None)

    def starts(self):
        """Where each edition starts, and at last where they end."""
        return [0, *itertools.accumulate(map(size_of, self.editions))]

    def start(self, named):
        return self.starts()[self.numbers().index(named)]

    def add(self, edition):
        """One edition more, and an end after it where there is room for one."""
        start = self.starts()[-1]
        self.editions.append(edition)
        end = self.starts()[-1]
        self.buffer[start:end] = pack_edition(edition)
        if len(self.buffer) >= end + 2:
            self.buffer[end : end + 2] = bytes(2)


TABLE_106_1 = {count: tuple(int(100 * entry) for entry in column) for count, column in TABLE.items()}


# Documents 003 and 004: from readings to percent within limits.


def mean(readings):
    return Decimal(sum(readings)) / len(readings)


# a call asks for it several times
@functools.lru_cache(maxsize=1)
def deviation(readings):
    middle = mean(readings)
    squares = sum((reading - middle) * (reading - middle) for reading in readings)
    return (squares / (len(readings) - 1)).sqrt()


MIDPOINTS = [row - HALF for row in range(LAST + 1)]  # between each row and the one before


def halved(twentieths):
    """The row at which halving all rows ends, for an index of so many twentieths, and how many are tried (document 02).

    Of the rows that are left the first of their upper half is tried, which is the middle of document 02. It is admitted
    where the index is not below the midpoint between it and the row before."""
    rows, tried = range(LAST + 1), 0
    while len(rows) > 1:
        half = len(rows) // 2
        rows = rows[half:] if twentieths >= MIDPOINTS[rows[half]] else rows[:half]
        tried += 1
    return rows[0], tried


# Each row that was looked up, whether inside the limit, and by how many tries.
LOOKED_UP = set()


def side(column, distance, spread):
    """The percentage on one side, whose limit lies this far outside the mean, and how many rows a handheld tries."""
    if spread == 0:
        return (100 if distance >= 0 else 0), 0
    index = distance / spread
    twentieths = (abs(index) * 20).quantize(SNAP)
    row = min(int(twentieths + HALF), LAST)
    end, tried = halved(twentieths)
    assert end == row, f"halving ends at row {end}, and the nearest is {row}"
    LOOKED_UP.add((row, index >= 0, tried))
    entry = Decimal(column[row]) / 100
    return (entry if index >= 0 else 100 - entry), tried


# what an absent limit has: the whole side, and no row tried
NO_LIMIT = 100, 0


def evaluate(lot, columns):
    """Upper, lower and PWL, in hundredths of a percent, and the rows tried for the upper and for the lower."""
    column, middle, spread = columns[lot.count], mean(lot.readings), deviation(lot.readings)
    upper, upper_tried = NO_LIMIT if lot.upper is None else side(column, lot.upper - middle, spread)
    lower, lower_tried = NO_LIMIT if lot.lower is None else side(column, middle - lot.lower, spread)
    return [*(int(percent * 100) for percent in (upper, lower, upper + lower - 100)), upper_tried, lower_tried]


def rounded_deviation(readings):
    return int(deviation(readings).quantize(SNAP).to_integral_value(ROUND_HALF_UP))


# Document 000: lots, pay, and limits by mixture.

WHOLE_LOT = 10
MOST_REMAINING = 7
MOST_SUBLOTS = 4096


# a job is asked about with several lists in turn
@functools.lru_cache(maxsize=1)
def lots_of(sublots):
    """Of each lot of a job the first sublot and how many it has."""
    lots = []
    for sublot in range(sublots):
        if not lots or len(lots[-1]) == WHOLE_LOT:
            lots.append([])
        lots[-1].append(sublot)
    # the end of production
    if len(lots) > 1 and len(lots[-1]) <= MOST_REMAINING:
        remaining = lots.pop()
        lots[-1].extend(remaining)
    return [(lot[0], len(lot)) for lot in lots]


WEIGHTS = Decimal("0.3"), Decimal("0.3"), Decimal("0.4")
REJECTABLE = 50

VMA_BELOW, VMA_ABOVE = Decimal("0.7"), Decimal("3.0")
VOIDS_AROUND = Decimal("1.35")
DENSITIES = [
    (Decimal("92.5"), Decimal("97.0")),  # IL-4.75
    (Decimal("92.2"), Decimal("97.0")),  # IL-19.0 and 25.0
    (Decimal("93.0"), Decimal("98.0")),  # SMA
    (Decimal("91.5"), Decimal("97.0")),  # all others
]


def payment(vma, voids, density, price, quantity):
    """Composite in thousandths, the three verdicts and the lot's, and the pay in cents."""
    percents = [Decimal(hundredths) / 100 for hundredths in (vma, voids, density)]
    factors = [53 + HALF * percent for percent in percents]
    weighted = sum(weight * factor for weight, factor in zip(WEIGHTS, factors))
    composite = (weighted / 100).quantize(Decimal("0.001"), ROUND_HALF_UP)
    dollars = (Decimal(price) / 100) * (Decimal(quantity) / 100) * composite
    cents = dollars.quantize(Decimal("0.01"), ROUND_HALF_UP) * 100
    verdicts = [int(percent < REJECTABLE) for percent in percents]
    return [int(composite * 1000), *verdicts, max(verdicts), int(cents)]


ENTRIES = 6
MOST_ENTRY = 10**15


# a lot is held in several sheets
@functools.lru_cache(maxsize=None)
def pwl(lot, column):
    return evaluate(lot, {lot.count: column})[2]


def our_sheet(lots, columns, price, quantity):
    """The pay sheet of three lots: their PWLs, the composite, the lot's verdict and the pay."""
    percents = [pwl(lot, columns[lot.count]) for lot in lots]
    composite, *_, verdict, pay = payment(*percents, price, quantity)
    return [*percents, composite, verdict, pay]


def differences(first, second):
    """Of each entry in which two sheets differ its place and both numbers."""
    return [(entry, *both) for entry, both in enumerate(zip(first, second)) if len(set(both)) == 2]


def offset_limits(minimum, target):
    """The limits of VMA and of voids, in percent."""
    minimum, target = Decimal(minimum) / 1000, Decimal(target) / 1000
    return [minimum - VMA_BELOW, minimum + VMA_ABOVE, target - VOIDS_AROUND, target + VOIDS_AROUND]


def mixture_limits(mixture, minimum, target):
    return [int(limit * 1000) for limit in (*offset_limits(minimum, target), *DENSITIES[mixture])]


# The lot record.

HEAD = struct.Struct(">HBBiiB")  # bytes that follow, version, flags, upper, lower, count


def pack(lot):
    flags = (lot.upper is not None) + 2 * (lot.lower is not None)
    head = HEAD.pack(11 + 4 * lot.count, 1, flags, lot.upper or 0, lot.lower or 0, lot.count)
    return head + struct.pack(f">{lot.count}i", *lot.readings)


def unpack(record):
    _, _, flags, upper, lower, count = HEAD.unpack_from(record)
    return lot_of(upper, flags & 1, lower, flags & 2, count, big_endian(record[HEAD.size :]))


def big_endian(readings):
    return tuple(int.from_bytes(readings[at : at + 4], "big", signed=True) for at in range(0, len(readings), 4))


# Refusals: of each entry the numbers it can meet with what they are given for, in the order they are looked for.


def refusal(tests, *given):
    for number, applies in tests:
        if applies(*given):
            return number
    return 0


def outside(lot):
    numbers = [*lot.readings, *(limit for limit in (lot.upper, lot.lower) if limit is not None)]
    return max(numbers) > RANGE or min(numbers) < -RANGE


def stray_flags(record):
    _, _, flags, upper, lower, _ = HEAD.unpack_from(record)
    return flags > 3 or (not flags & 1 and upper != 0) or (not flags & 2 and lower != 0)


LOT = [
    (4, lambda lot: not 2 <= lot.count <= MOST),
    (5, outside),
    (6, lambda lot: lot.upper is None and lot.lower is None),
    (7, lambda lot: lot.upper is not None and lot.lower is not None and lot.lower > lot.upper),
]
READINGS = LOT[:2]  # for a lot without limits
ROOM = [(8, lambda data, room: room < len(data))]
UNSOUND = [(11, lambda store, *_: store.editions is None)]
UNKNOWN = [(13, lambda store, named, *_: store.columns(named) is None)]
STORING = [
    *UNSOUND,
    (11, lambda _, edition: edition is None),
    (12, lambda store, edition: edition.number <= max(store.numbers(), default=-1)),
    (8, lambda store, edition: len(store.editions) == MOST_EDITIONS),
    (8, lambda store, edition: store.starts()[-1] + size_of(edition) > len(store.buffer)),
]
FINDING = [*UNSOUND, *UNKNOWN]
LISTING = [*UNSOUND, (8, lambda store, room: room < len(store.editions))]
PERCENTAGE = [*UNKNOWN, (10, lambda store, named, lot: lot.count not in store.columns(named))]
RECORD = [
    (1, lambda record: len(record) < HEAD.size or int.from_bytes(record[:2], "big") != len(record) - 2),
    (2, lambda record: record[2] != 1),
    (3, stray_flags),
    (4, lambda record: not 2 <= record[12] <= MOST or int.from_bytes(record[:2], "big") != 11 + 4 * record[12]),
]
PAY_MOST = 10_000, 10_000, 10_000, 10_000_000, 100_000_000
PAY = [(9, lambda *given: any(number < 0 or number > most for number, most in zip(given, PAY_MOST)))]
MIXTURE = [
    (5, lambda _, minimum, target: any(abs(limit) > RANGE // 1000 for limit in offset_limits(minimum, target))),
    (9, lambda mixture, *_: not 0 <= mixture <= 3),
]
JOB = [
    (9, lambda sublots, _: sublots > MOST_SUBLOTS),
    (8, lambda sublots, room: room < 2 * len(lots_of(sublots))),
]
SHEET = [(9, lambda sheet: not (0 <= min(sheet) and max(sheet) <= MOST_ENTRY and sheet[4] in (0, 1)))]
LISTED = [(8, lambda first, second, room: room < 2 * len(differences(first, second)))]


# The store that was lent last, and how often a lot was evaluated by an edition of how many, from which n to which.
LENT = Store()
EVALUATED = collections.Counter()


def lookup_refusal(named, lot):
    """Where a percentage is asked for by an edition."""
    return refusal(UNSOUND, LENT) or refusal(LOT, lot) or refusal(PERCENTAGE, LENT, named, lot)


# The answer lines. Each double of the notebook's row is one division, and is compared by its bits.


def double(numerator, denominator):
    return struct.pack(">d", float(numerator) / float(denominator)).hex()


NOUGHT = double(0, 1)


def spaced(*words):
    return " ".join(map(str, words))


# No bytes are a minus.


def to_hex(data):
    return data.hex() or "-"


def from_hex(word):
    return bytes.fromhex(word.replace("-", ""))


def in_places(lot):
    """A lot as it stands in memory after reading: an absent limit and a place without a reading are 0."""
    limits = [lot.upper or 0, int(lot.upper is not None), lot.lower or 0, int(lot.lower is not None)]
    return [*limits, lot.count, *lot.readings, *[0] * (MOST - lot.count)]


def answer_lend(buffer):
    LENT.lend(buffer)
    refused = refusal(UNSOUND, LENT)
    return spaced(refused, 0 if refused else len(LENT.editions))


def percentages(named, lot):
    """Of a lot, by the edition that is named: its refusal, both sides, PWL and the rows tried."""
    refused = lookup_refusal(named, lot)
    if refused:
        return [refused, *[0] * 5]
    columns = LENT.columns(named)
    EVALUATED[len(LENT.editions), min(columns), max(columns)] += 1
    return [0, *evaluate(lot, columns)]


def answer_lot(named, upper, upper_present, lower, lower_present, count, *readings):
    lot = lot_of(upper, upper_present, lower, lower_present, count, readings)
    unread = refusal(READINGS, Lot(None, None, count, readings))
    mean_answer = spaced(unread, 0, 0) if unread else spaced(0, sum(readings), count)
    refused, *sides = percentages(named, lot)
    doubles = (NOUGHT, NOUGHT) if refused else (double(sum(readings), 1000 * count), double(sides[2], 100))
    return f"{mean_answer} {spaced(refused, *sides)} {spaced(refused, *doubles)}"


def row(named, lot):
    """The notebook's row: its refusal and three doubles."""
    refused = lookup_refusal(named, lot)
    if refused:
        return [refused, NOUGHT, NOUGHT, NOUGHT]
    pwl = evaluate(lot, LENT.columns(named))[2]
    quotients = (sum(lot.readings), 1000 * lot.count), (rounded_deviation(lot.readings), 1000), (pwl, 100)
    return [0, *(double(*quotient) for quotient in quotients)]


def answer_deviation(named, upper, upper_present, lower, lower_present, count, *readings):
    unread = refusal(READINGS, Lot(None, None, count, readings))
    whole_row = row(named, lot_of(upper, upper_present, lower, lower_present, count, readings))
    return spaced(unread, 0 if unread else rounded_deviation(readings), whole_row[2], *whole_row)


def answer_bytes(named, upper, upper_present, lower, lower_present, data):
    # a size that is no multiple of four fits no number of readings, as 0 does
    count = 0 if len(data) % 4 else len(data) // 4
    whole_row = row(named, lot_of(upper, upper_present, lower, lower_present, count, big_endian(data)))
    return spaced(*whole_row, *whole_row)


def answer_held(named, upper, upper_present, lower, lower_present, count, *places):
    return spaced(*percentages(named, lot_of(upper, upper_present, lower, lower_present, count, places)))


def answer_pay(*given):
    refused = refusal(PAY, *given)
    return spaced(refused, *([0] * 6 if refused else payment(*given)))


def answer_mixture(*given):
    refused = refusal(MIXTURE, *given)
    return spaced(refused, *([0] * 6 if refused else mixture_limits(*given)))


def answer_read(record):
    refused = refusal(RECORD, record) or refusal(LOT[1:], unpack(record))
    if refused:
        return spaced(refused, *in_places(Lot(None, None, 0, [])))
    # written again, an accepted record is the same bytes
    return f"{spaced(0, *in_places(unpack(record)))} 0 {len(record)} {record.hex()}"


# What lent memory and a guard on each side of it, so many bytes or numbers, hold before they are written.
GUARD = 8
PATTERN = bytes((171 + 37 * place) % 256 for place in range(16384))


def lent_bytes(refused, room, data):
    """A refusal, how many bytes were written, and the memory after it."""
    memory = PATTERN[: GUARD + room + GUARD]
    if refused:
        return f"{refused} 0 {memory.hex()}"
    memory = memory[:GUARD] + data + memory[GUARD + len(data) :]
    return f"0 {len(data)} {memory.hex()}"


def answer_write(upper, upper_present, lower, lower_present, count, *places_and_room):
    *places, room = places_and_room
    lot = lot_of(upper, upper_present, lower, lower_present, count, places)
    refused = refusal(LOT, lot)
    record = b"" if refused else pack(lot)
    refused = refused or refusal(ROOM, record, room)
    # what was written is read again as the same lot
    again = "" if refused else f" {spaced(0, *in_places(lot))}"
    return lent_bytes(refused, room, record) + again


def answer_table(number, room):
    entry = pack_edition(Edition(number, TABLE_106_1))
    return lent_bytes(refusal(ROOM, entry, room), room, entry)


def lent_list(refused, width, room, items):
    """A refusal, how many items were listed, and the memory after it: the numbers of each, of so many bytes, lowest first."""
    memory = PATTERN[: width * (GUARD + room + GUARD)]
    if refused:
        return f"{refused} 0 {memory.hex()}"
    listed = b"".join(number.to_bytes(width, "little", signed=True) for item in items for number in item)
    memory = memory[: width * GUARD] + listed + memory[width * GUARD + len(listed) :]
    return f"0 {len(items)} {memory.hex()}"


def answer_cut(sublots, room):
    refused = refusal(JOB, sublots, room)
    return lent_list(refused, 4, room, [] if refused else lots_of(sublots))


LIMITS = 5  # numbers before the places of a lot: its limits, their presences and its count


def answer_check(named, *given):
    lots = []
    for _ in range(3):
        lots.append(lot_of(*given[:LIMITS], given[LIMITS : LIMITS + MOST]))
        given = given[LIMITS + MOST :]
    price, quantity, *sheet = given
    refused = next(filter(None, (lookup_refusal(named, lot) for lot in lots)), 0)
    refused = refused or refusal(PAY, 0, 0, 0, price, quantity) or refusal(SHEET, sheet)
    if refused:
        return spaced(refused, 0, 0, 0, 0)
    wrong = differences(sheet, our_sheet(lots, LENT.columns(named), price, quantity))
    return spaced(0, 0, *wrong[0]) if wrong else spaced(0, 1, 0, 0, 0)


def answer_compare(*given):
    first, second, room = given[:ENTRIES], given[ENTRIES:-1], given[-1]
    refused = refusal(SHEET, first) or refusal(SHEET, second) or refusal(LISTED, first, second, room)
    return lent_list(refused, 8, room, [(entry, one - other) for entry, one, other in differences(first, second)])


# Steps over a buffer: each changes the list beside it, or is answered from that list.


def guarded(store):
    memory = PATTERN[: GUARD + len(store.buffer) + GUARD]
    return (memory[:GUARD] + store.buffer + memory[-GUARD:]).hex()


def step_store(store, word):
    edition = unpack_edition(from_hex(word))
    refused = refusal(STORING, store, edition)
    if not refused:
        store.add(edition)
    return spaced(refused, 0 if refused else store.start(edition.number), guarded(store))


def step_find(store, word):
    refused = refusal(FINDING, store, int(word))
    return spaced(refused, 0 if refused else store.start(int(word)))


def step_list(store, word):
    refused = refusal(LISTING, store, int(word))
    return lent_list(refused, 4, int(word), [] if refused else [(number,) for number in store.numbers()])


STEPS = {"store": step_store, "find": step_find, "list": step_list}
STEPPED = collections.Counter()


def answer_sequence(buffer, *words):
    store = Store(from_hex(buffer))
    steps = list(zip(words[::2], words[1::2]))
    STEPPED.update(step for step, _ in steps)
    return spaced(*(STEPS[step](store, word) for step, word in steps), guarded(store))


ANSWERS = {
    "lend": answer_lend,
    "lot": answer_lot,
    "deviation": answer_deviation,
    "bytes": answer_bytes,
    "held": answer_held,
    "pay": answer_pay,
    "mixture": answer_mixture,
    "read": answer_read,
    "write": answer_write,
    "cut": answer_cut,
    "check": answer_check,
    "compare": answer_compare,
    "table": answer_table,
    "sequence": answer_sequence,
}


def answer(call):
    kind, *words = call.split()
    if kind == "sequence":
        given = words
    elif kind in ("lend", "bytes", "read"):
        given = *map(int, words[:-1]), from_hex(words[-1])
    else:
        given = map(int, words)
    return f"{kind} {ANSWERS[kind](*given)}"


if __name__ == "__main__":
    for call in sys.stdin:
        print(answer(call))
