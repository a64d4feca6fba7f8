"""The calls that the library and the second program both answer, a text line each (hosts/answers.c says how they read).

The same seed gives the same lines.
"""
import itertools
import math
import random

import papers
import sequences
import stores
from lots import (
    closest_misses, COLUMNS, counted, COUNTS, desk, equal, extreme, farthest_apart, hairs, halves, INT32, JOINED,
    joined, limited, near_ties, realistic, refused, SIZES, small, some, spoiled, subsets, ties, uniform, UNREAD,
)
from papers import (
    differences, ENTRIES, HEAD, lot_of, lots_of, MOST, MOST_EDITIONS, MOST_ENTRY, MOST_SUBLOTS, our_sheet, pack, RANGE,
    spaced as line, to_hex,
)
from stores import PRINTED, with_byte

INT64 = -(2**63), 2**63 - 1

# Counts that no lot has, though its places do; a narrower number would take some of them for four.
UNHELD = 0, 1, MOST + 1, MOST + 2, 255, 256 + 4, 2**16 + 4, 2**31 + 4, 2**32 - 1


def lot_line(kind, named, upper, upper_present, lower, lower_present, readings):
    return line(kind, named, upper, upper_present, lower, lower_present, len(readings), *readings)


def held_line(rng, named, lot):
    return line("held", named, *in_memory(rng, lot))


def bytes_line(named, lot, data):
    return line("bytes", named, *lot[:4], to_hex(data))


def spelled(readings):
    return b"".join(reading.to_bytes(4, "big", signed=True) for reading in readings)


def placed(rng, readings):
    """All places of a lot, those after its readings filled with what is not to be read."""
    return readings[:MOST] + rng.choices(UNREAD, k=max(0, MOST - len(readings)))


def in_memory(rng, lot):
    return *lot[:4], len(lot[4]), *placed(rng, lot[4])


# The stores that a percentage is looked up in. One that is lent stays so until the next.


def lend_line(buffer):
    return line("lend", to_hex(buffer))


def fitting(rng, made, lot):
    """The number of an edition that has a column for the lot, where there is one; now and then any."""
    having = [edition.number for edition in made if len(lot[4]) in edition.columns]
    return rng.choice(having) if having and rng.random() < 0.97 else stores.unsure(rng, made)


def some_editions(rng):
    """One to eight, and now and then Table 106-1 among them."""
    made = stores.editions(rng, rng.randint(1, MOST_EDITIONS))
    return stores.with_printed(rng, made) if rng.random() < 0.15 else made


def counts_of(made):
    return sorted({count for edition in made for count in edition.columns})


def lent_lots(rng, times):
    """Editions, and 75 lots that have a column in one of them, so many times."""
    for _ in range(times):
        made = some_editions(rng)
        having = counts_of(made)
        makes = realistic(rng, 40, having), small(rng, 20, having), equal(rng, 3, having), extreme(rng, 6, having)
        yield made, itertools.chain(*makes, uniform(rng, 6, RANGE, having))


def refusing(rng):
    """Lines that lend a store, and what names an edition: Table 106-1; one that is not there; one of a damaged store, or none."""
    number, whole = PRINTED.number, stores.some_store(rng, [PRINTED])
    yield lend_line(whole), lambda: number
    yield lend_line(whole), lambda: rng.choice((0, number - 1, number + 1, number + 2**16, 2**32 - 1))
    yield lend_line(stores.damaged(rng, whole, [0])), lambda: rng.choice((number, number, number + 1))


# Calls on lots.


def lots(rng):
    yield lend_line(stores.store([PRINTED]))
    accepted = (
        desk(),
        realistic(rng, 8_000),
        small(rng, 4_000),
        uniform(rng, 1_000, RANGE),
        equal(rng, 1_000),
        extreme(rng, 1_000),
        ties(rng, 4),
        near_ties(rng, 4),
        closest_misses(rng),
        hairs(rng),
    )
    for lot in itertools.chain(*accepted, joined(rng, 500), counted(rng)):
        yield lot_line("lot", PRINTED.number, *lot)
    # as many readings as a narrower count would take for four
    yield lot_line("lot", PRINTED.number, 100, 1, 0, 1, [1, 2, 3, 4] * (2**14 + 1))
    widest = stores.edition(rng, 17, COUNTS)
    yield lend_line(stores.some_store(rng, [widest]))
    for lot in itertools.chain(ties(rng, 1, JOINED), near_ties(rng, 1, JOINED), farthest_apart(COUNTS)):
        yield lot_line("lot", widest.number, *lot)
    for made, lots in lent_lots(rng, 2_600):
        yield lend_line(stores.some_store(rng, made))
        for lot in lots:
            yield lot_line("lot", fitting(rng, made, lot), *lot)
    for lent, named in refusing(rng):
        yield lent
        for lot in refused(rng, 200):
            yield lot_line("lot", named(), *lot)


def deviations(rng):
    """A deviation takes the library the longer the larger it is, so all but a few are kept small."""
    usual = itertools.chain(realistic(rng, 20_000), realistic(rng, 7_000, JOINED))
    modest = (lot for lot in usual if max(lot[4]) - min(lot[4]) < 3000)
    narrow = itertools.chain(small(rng, 15_000), small(rng, 5_000, JOINED), halves(rng, 2_500))
    wide = itertools.chain(uniform(rng, 10, RANGE), extreme(rng, 10))
    wide_joined = itertools.chain(uniform(rng, 7, RANGE, JOINED), extreme(rng, 7, JOINED), farthest_apart(JOINED))
    # a joined lot has a percentage by the one and none by the other
    made = [PRINTED, stores.edition(rng, 2_000, COUNTS)]
    yield lend_line(stores.some_store(rng, made))
    for *limits, readings in itertools.chain(desk(), narrow, modest, wide, wide_joined, counted(rng)):
        named = rng.choice(made).number
        yield lot_line("deviation", named, *limits, readings)
        if readings and readings[0] < RANGE:
            yield lot_line("deviation", named, *limits, [readings[0] + 1, *readings[1:]])
    for lent, named in refusing(rng):
        yield lent
        for lot in refused(rng, 67):
            yield lot_line("deviation", named(), *lot)


def rows(rng):
    """Readings as bytes, of any size."""
    sizes = *range(4 * MOST + 10), *(4 * count for count in COUNTS), 4 * 255, 4 * 258
    made = [PRINTED, stores.edition(rng, 2_000, COUNTS)]
    yield lend_line(stores.some_store(rng, made))
    for _ in range(10_000):
        size = rng.choice(sizes)
        start = rng.choice((b"\0\0\0", b"\0\0\1", b"\xff\xff\xff", b"\0\7\xa1", b"\xff\xf8\x5e"))
        data = b"".join(start + rng.randbytes(1) for _ in range(size // 4)) + rng.randbytes(size % 4)
        yield bytes_line(rng.choice(made).number, limited(rng, -1000, 1000, None), data)
    for lot in itertools.chain(extreme(rng, 20, JOINED), counted(rng)):
        yield bytes_line(rng.choice(made).number, lot, spelled(lot[4]))
    for _ in range(100):
        made = some_editions(rng)
        yield lend_line(stores.some_store(rng, made))
        for lot in uniform(rng, 55, 900, counts_of(made)):
            yield bytes_line(fitting(rng, made, lot), lot, spelled(lot[4]))
    for lent, named in refusing(rng):
        yield lent
        for reasons, _ in itertools.product(subsets((4, 5, 6, 7, 10)), range(17)):
            lot = spoiled(rng, reasons, some(rng, reasons, (*SIZES, *COUNTS)))
            # a count that a lot can have is refused for bytes that are missing
            short = rng.choice((1, 2, 3)) if 4 in reasons and len(lot[4]) in COUNTS else 0
            data = spelled(lot[4])
            yield bytes_line(named(), lot, data[: len(data) - short])


def held(rng):
    yield lend_line(stores.store([PRINTED]))
    for lot in itertools.chain(desk(), ties(rng, 1), joined(rng, 600), counted(rng)):
        yield held_line(rng, PRINTED.number, lot)
    for made, lots in lent_lots(rng, 400):
        yield lend_line(stores.some_store(rng, made))
        for lot in lots:
            yield held_line(rng, fitting(rng, made, lot), lot)
    for lent, named in refusing(rng):
        yield lent
        for reasons, _ in itertools.product(subsets((4, 5, 6, 7, 10)), range(67)):
            lot = spoiled(rng, reasons, some(rng, reasons, COUNTS))
            count = rng.choice(UNHELD) if 4 in reasons else len(lot[4])
            yield line("held", named(), *lot[:4], count, *placed(rng, lot[4]))


def first_lot(rng, buffer):
    """A lot that the first edition of some bytes has a column for, where they start with one; or one that is refused."""
    count = buffer[5] if len(buffer) > 5 and buffer[5] in COUNTS else 4
    reasons = rng.choice(((), (), (), (4,), (5,), (6,), (7,)))
    readings = [rng.randint(-3000, 3000) for _ in range(count)]
    return spoiled(rng, reasons, readings * 9 if 4 in reasons else readings)


def lookups(rng):
    """Stores that are damaged, and sound ones that are near to them, with every call that asks for a percentage."""
    for buffer in stores.damaged_stores(rng):
        yield lend_line(buffer)
        named, lot = stores.first_number(buffer), first_lot(rng, buffer)
        yield lot_line("lot", named, *lot)
        yield held_line(rng, named, lot)
        yield bytes_line(named, lot, spelled(lot[4]))
        yield check_line(named, three_lots(rng, [lot] * 3), *priced(rng), [0] * ENTRIES)
    whole = stores.some_store(rng, stores.editions(rng, 3, 2))
    for buffer in stores.each_byte_changed(whole):
        yield lend_line(buffer)
        yield lot_line("lot", stores.first_number(rng.choice((whole, buffer))), *first_lot(rng, whole))


# Records.


def record(lot):
    upper, upper_present, lower, lower_present, readings = lot
    return pack(lot_of(upper, upper_present, lower, lower_present, len(readings), readings))


def edited(rng):
    """Records with one byte changed: in the head to every value, anywhere to many."""
    for flags, count in itertools.product((1, 2, 3), (2, MOST)):
        data = flagged(rng, flags, count)
        for place, value in itertools.product(range(HEAD.size), range(256)):
            yield with_byte(data, place, value)
    for flags, count, _ in itertools.product((1, 2, 3), (*COLUMNS, JOINED[0], JOINED[-1]), range(2)):
        data = flagged(rng, flags, count)
        for place, bit in itertools.product(range(len(data)), range(8)):
            yield with_byte(data, place, data[place] ^ 1 << bit)
        for place, value in itertools.product(range(len(data)), (0x00, 0x01, 0x02, 0x07, 0x08, 0x7F, 0x80, 0xF8, 0xFF)):
            yield with_byte(data, place, value)


def flagged(rng, flags, count):
    readings = [rng.randint(-3000, 3000) for _ in range(count)]
    lower, upper = sorted((rng.randint(-3000, 3000), rng.randint(-3000, 3000)))
    return record((upper, flags & 1, lower, flags & 2, readings))


def resized(rng):
    """Records cut short and made longer, their length left as it was or made to fit; and longer than any lot's."""
    for flags, count in itertools.product((1, 2, 3), COUNTS):
        data = flagged(rng, flags, count)
        for size in range(len(data) + 9):
            changed = (data + rng.randbytes(9))[:size]
            yield changed
            yield max(size - 2, 0).to_bytes(2, "big")[:size] + changed[2:]
    yield from (flagged(rng, flags, count) for flags in (1, 2, 3) for count in (MOST, MOST + 1, MOST + 2, 255))
    # a length that is right but for a multiple of 2^16
    yield flagged(rng, 3, 4) + bytes(2**16)


def runs():
    """Whole runs: one byte over and over, and document 01's printed record of D5, of every size; its bytes that say most, at every value; every count."""
    d5 = bytes.fromhex("001B01010000001500000000040000000000000000000000000000000050")
    longer = d5.ljust(HEAD.size + 4 * MOST + 8, b"\0")
    for size in range(len(longer) + 1):
        yield from (bytes(size), b"\xff" * size, longer[:size])
        # the length made to fit: of the record, of one of version 2, and of one with a third flag
        for changed in longer, with_byte(longer, 2, 2), with_byte(longer, 3, 5):
            yield max(size - 2, 0).to_bytes(2, "big")[:size] + changed[2:size]
    for place, value in itertools.product((0, 1, 2, 3, 12), range(256)):
        yield with_byte(d5, place, value)
    for count in range(256):
        yield HEAD.pack(11 + 4 * count, 1, 1, 0, 0, count) + bytes(4 * count)


def spoiled_record(rng, reasons):
    """A record that gives each of these refusals of 1 to 7 its reason, where the others leave it room."""
    data = bytearray(record(spoiled(rng, reasons, some(rng, reasons, COUNTS))))
    if 4 in reasons:
        data[12] = rng.choice((0, 1, MOST + 1, 255, data[12] + 1, data[12] - 1))
    if 3 in reasons:
        zeros = [place for place, flag in ((4, 1), (8, 2)) if not data[3] & flag]
        if zeros and rng.random() < 0.5:
            data[rng.choice(zeros) + rng.randrange(4)] = rng.choice((1, 0x80, 0xFF))
        else:
            data[3] |= 1 << rng.randrange(2, 8)
    if 2 in reasons:
        data[2] = rng.choice((0, 2, 0x81, 255))
    if 1 in reasons:
        data[:2] = rng.choice((0, 12, data[1] - 1, data[1] + 1, data[1] + 4, data[1] << 8)).to_bytes(2, "big")
    return bytes(data)


def reads(rng):
    accepted = desk(), realistic(rng, 30_000), small(rng, 15_000), uniform(rng, 3_000, RANGE), extreme(rng, 12_000)
    valid = map(record, itertools.chain(*accepted, joined(rng, 1_500)))
    # 10 is no refusal of a record: a longer lot is read as any other
    reasons = (spoiled_record(rng, reasons) for reasons in subsets((1, 2, 3, 4, 5, 6, 7, 10)) for _ in range(40))
    for data in itertools.chain(valid, edited(rng), resized(rng), runs(), reasons):
        yield line("read", to_hex(data))


def writes(rng):
    accepted = desk(), realistic(rng, 50_000), small(rng, 25_000), uniform(rng, 5_000, RANGE), extreme(rng, 15_000)
    for lot in itertools.chain(*accepted, joined(rng, 2_000), counted(rng)):
        need = HEAD.size + 4 * len(lot[4])
        room = rng.choice((need, need, need, need, need + 1, need + 4, need + 30, need - 1))
        yield line("write", *lot[:4], len(lot[4]), *placed(rng, lot[4]), room)
    # 10 is no refusal of writing either
    for reasons, _ in itertools.product(subsets((4, 5, 6, 7, 8, 10)), range(250)):
        lot = spoiled(rng, reasons, some(rng, reasons, COUNTS))
        need = HEAD.size + 4 * len(lot[4])
        room = rng.choice((0, 1, 12, 13, need - 4, need - 1) if 8 in reasons else (need, need + 1, need + 60))
        yield line("write", *lot[:4], rng.choice(UNHELD) if 4 in reasons else len(lot[4]), *placed(rng, lot[4]), room)


# Jobs.

# A narrower number would take some of these for a job that can be cut.
UNCUT = MOST_SUBLOTS + 1, 2**16, 2**32, 2**32 + 5, 2**63, 2**64 - 1


def cuts(rng):
    """Every job that can be cut and some that cannot, with lists too short, fitting and longer."""
    for sublots in range(MOST_SUBLOTS + 105):
        need = 2 * len(lots_of(sublots))
        for room in sorted({0, 1, need - 1, need, need + 1, need + rng.randint(2, 40)} - {-1}):
            yield line("cut", sublots, room)
    for sublots, room in itertools.product(UNCUT, (0, 1, 2, 3, 817, 818, 819, 2000)):
        yield line("cut", sublots, room)


# Pay.

HUNDRED = 10_000
MOST_PRICE = 10_000_000
MOST_QUANTITY = 100_000_000


def around(most):
    """Both bounds with their neighbours, and the ends of what can be passed."""
    return INT64[0], -1, 0, 1, most - 1, most, most + 1, INT64[1]


def half_composite(rng):
    """PWLs whose composite lies exactly half way between two thousandths: 3a + 3b + 4c is 100 more than some 200."""
    vma = rng.randint(0, HUNDRED)
    voids = rng.randrange(-vma % 4, HUNDRED + 1, 4)
    return vma, voids, (100 - 3 * (vma + voids)) // 4 % 50 + 50 * rng.randrange(HUNDRED // 50)


def pay_with(rng, part):
    """PWLs, a price and a quantity whose pay is so many 100,000ths of a cent more than a whole one."""
    while True:
        percents = [rng.randint(0, HUNDRED) for _ in range(3)]
        quantity = rng.randrange(1, MOST_QUANTITY)
        if part % math.gcd(quantity, 100_000):
            continue
        factor = papers.payment(*percents, 0, 0)[0] * quantity
        common = math.gcd(factor, 100_000)
        if part % common == 0:
            modulus = 100_000 // common
            price = part // common * pow(factor // common, -1, modulus) % modulus
            return *percents, rng.randrange(price, MOST_PRICE, modulus), quantity


def pays(rng):
    bounds = [around(HUNDRED)] * 3 + [around(MOST_PRICE), around(MOST_QUANTITY)]
    yield from (line("pay", *given) for given in itertools.product(*bounds))
    near = 4_998, 4_999, 5_000, 5_001
    for percents in itertools.product(near, near, near):
        yield line("pay", *percents, 8_000, 800_000)
    for _ in range(20_000):
        vma, voids, density = half_composite(rng)
        price, quantity = rng.randrange(MOST_PRICE), rng.randrange(MOST_QUANTITY)
        yield line("pay", vma, voids, density, price, quantity)
        # the nearest that PWLs in hundredths come to the half, on either side of it
        if 0 < vma < HUNDRED and 0 < density < HUNDRED:
            yield line("pay", vma - 1, voids, density + 1, price, quantity)
            yield line("pay", vma + 1, voids, density - 1, price, quantity)
    for _ in range(20_000):
        for part in 49_999, 50_000, 50_001:
            yield line("pay", *pay_with(rng, part))
    for _ in range(65_100):
        percents = [rng.choice((rng.randint(0, HUNDRED), rng.randint(4_900, 5_100))) for _ in range(3)]
        price = rng.choice((rng.randrange(3_000, 15_000), rng.randint(0, MOST_PRICE)))
        quantity = rng.choice((rng.randrange(0, 3_000_000), rng.randint(0, MOST_QUANTITY)))
        yield line("pay", *percents, price, quantity)


# Pay sheets.


def sheet_lots(rng):
    """Lots of every count, most of them as they come from a job; few, so that each is in many sheets."""
    extremes = equal(rng, 200, COUNTS), extreme(rng, 200, COUNTS), uniform(rng, 200, RANGE, COUNTS)
    return [*desk(), *realistic(rng, 1_500, COUNTS), *small(rng, 300, COUNTS), *itertools.chain(*extremes)]


def having_column(pool, edition):
    return [lot for lot in pool if len(lot[4]) in edition.columns]


def priced(rng):
    usual = rng.randrange(3_000, 15_000), rng.randrange(3_000_000)
    return rng.choice((usual, usual, (rng.randint(0, MOST_PRICE), rng.randint(0, MOST_QUANTITY))))


def right_sheet(lots, edition, price, quantity):
    return our_sheet([lot_of(*lot[:4], len(lot[4]), tuple(lot[4])) for lot in lots], edition.columns, price, quantity)


def changed(rng, sheet, entries):
    """The sheet with these entries changed, mostly by one unit; a verdict to the other one."""
    changed = list(sheet)
    for entry in entries:
        off = rng.choice((-1, 1, -1, 1, -100, 100, rng.randint(1, 10**9)))
        changed[entry] = 1 - changed[entry] if entry == 4 else changed[entry] + off
    return changed


# Numbers that an entry is taken with, and that it is not; a verdict is taken with fewer.
ENTRY_BOUNDS = INT64[0], -1, 0, 1, 2, HUNDRED + 1, MOST_ENTRY - 1, MOST_ENTRY, MOST_ENTRY + 1, INT64[1]


def unfit(rng, sheet):
    entry = rng.randrange(ENTRIES)
    bad = (INT64[0], -1, 2, MOST_ENTRY, INT64[1]) if entry == 4 else (INT64[0], -1, MOST_ENTRY + 1, INT64[1])
    return [*sheet[:entry], rng.choice(bad), *sheet[entry + 1 :]]


def bad_priced(rng):
    if rng.random() < 0.5:
        return rng.choice((INT64[0], -1, MOST_PRICE + 1, INT64[1])), rng.randint(0, MOST_QUANTITY)
    return rng.randint(0, MOST_PRICE), rng.choice((INT64[0], -1, MOST_QUANTITY + 1, INT64[1]))


def three_lots(rng, lots):
    """The words of the lots, which several sheets have in common."""
    return " ".join(str(number) for lot in lots for number in in_memory(rng, lot))


def check_line(named, lots, price, quantity, sheet):
    return line("check", named, lots, price, quantity, *sheet)


def checks(rng):
    pool = sheet_lots(rng)
    for times in range(380):
        # by Table 106-1, and by one of some others
        made = some_editions(rng) if times % 2 else [PRINTED]
        by = rng.choice(made)
        yield lend_line(stores.some_store(rng, made))
        yield from sheets_checked(rng, having_column(pool, by), by, 25)
    yield lend_line(stores.store([PRINTED]))
    pool = having_column(pool, PRINTED)
    for entry, number, _ in itertools.product(range(ENTRIES), ENTRY_BOUNDS, range(10)):
        lots, (price, quantity) = rng.choices(pool, k=3), priced(rng)
        sheet = right_sheet(lots, PRINTED, price, quantity)
        for start in sheet, changed(rng, sheet, [rng.randrange(ENTRIES)]):
            wrong = [*start[:entry], number, *start[entry + 1 :]]
            yield check_line(PRINTED.number, three_lots(rng, lots), price, quantity, wrong)
    for price, quantity in itertools.product(around(MOST_PRICE), around(MOST_QUANTITY)):
        lots = rng.choices(pool, k=3)
        sheet = right_sheet(lots, PRINTED, 8_000, 800_000)
        yield check_line(PRINTED.number, three_lots(rng, lots), price, quantity, sheet)
        yield check_line(PRINTED.number, three_lots(rng, lots), price, quantity, unfit(rng, sheet))
    for lent, named in refusing(rng):
        yield lent
        yield from refused_checks(rng, named, pool)


def sheets_checked(rng, pool, by, times):
    """Sheets by an edition: right, and with any of their entries wrong."""
    for _ in range(times):
        lots, (price, quantity) = rng.choices(pool, k=3), priced(rng)
        sheet, held = right_sheet(lots, by, price, quantity), three_lots(rng, lots)
        yield check_line(by.number, held, price, quantity, sheet)
        for entry in range(ENTRIES):
            yield check_line(by.number, held, price, quantity, changed(rng, sheet, [entry]))
        for several in 2, 2, rng.randint(3, ENTRIES):
            wrong = changed(rng, sheet, rng.sample(range(ENTRIES), several))
            yield check_line(by.number, held, price, quantity, wrong)
        # of the lots in another order, so that what is wrong lies in the lots
        yield check_line(by.number, three_lots(rng, lots[::-1]), price, quantity, sheet)


def refused_checks(rng, named, pool):
    """Each lot refused for each reason or for none, and with it prices and sheets that are refused and that are not."""
    reasons = (), (4,), (5,), (6,), (7,), (10,), (4, 5), (5, 7), (7, 10)
    for given in itertools.product(reasons, repeat=3):
        for bad_price, bad_sheet in itertools.product((False, True), repeat=2):
            lots = [spoiled(rng, why, some(rng, why, SIZES)) if why else rng.choice(pool) for why in given]
            price, quantity = bad_priced(rng) if bad_price else priced(rng)
            sheet = [0] * ENTRIES if any(given) or bad_price else right_sheet(lots, PRINTED, price, quantity)
            yield check_line(named(), three_lots(rng, lots), price, quantity, unfit(rng, sheet) if bad_sheet else sheet)


def some_sheet(rng):
    most = rng.choice((2, HUNDRED, 10**6, MOST_ENTRY))
    return [rng.randrange(2) if entry == 4 else rng.randint(0, most) for entry in range(ENTRIES)]


def compares(rng):
    """Sheets that differ in any of their entries, with lists too short, fitting and longer; and sheets that are refused."""
    for entries, _ in itertools.product(subsets(range(ENTRIES)), range(352)):
        first = some_sheet(rng)
        second = [abs(entry) for entry in changed(rng, first, entries)]
        need = 2 * len(differences(first, second))
        for room in {0, rng.choice((1, need + 3)), max(0, need - 1), need, need + rng.choice((1, 2, 6))}:
            yield line("compare", *first, *second, room)
    for entry, number, other in itertools.product(range(ENTRIES), ENTRY_BOUNDS, ENTRY_BOUNDS):
        sheet = some_sheet(rng)
        for before, after in (number, other), (number, sheet[entry]), (sheet[entry], other):
            pair = [[*sheet[:entry], one, *sheet[entry + 1 :]] for one in (before, after)]
            for room in 0, 1, 2, 12:
                yield line("compare", *pair[0], *pair[1], room)
    for room, _ in itertools.product((0, 1, 2, 11, 12, 13), range(50)):
        good, bad, worse = some_sheet(rng), unfit(rng, some_sheet(rng)), unfit(rng, some_sheet(rng))
        for pair in (good, bad), (bad, good), (bad, worse), (bad, bad):
            yield line("compare", *pair[0], *pair[1], room)


# Limits by mixture.

MIXTURES = INT64[0], -(2**32), -1, 0, 1, 2, 3, 4, 5, 2**32, 2**32 + 1, INT64[1]


def mixtures(rng):
    # where one of the four limits that depend on them just leaves the range
    leaves = [
        bound + off + one
        for bound, off in ((-RANGE, 700), (RANGE, -3000), (-RANGE, 1350), (RANGE, -1350), (-RANGE, 0), (RANGE, 0))
        for one in (-1, 0, 1)
    ]
    numbers = [*INT32, INT32[0] + 699, INT32[0] + 1350, INT32[1] - 3000, -1, 0, 4000, 13000, *leaves]
    for given in itertools.product(MIXTURES, numbers, numbers):
        yield line("mixture", *given)
    for _ in range(195_000):
        mixture = rng.choice((0, 1, 2, 3, rng.choice(MIXTURES)))
        widest = rng.choice((20_000, 20_000, RANGE, RANGE, 2**31 - 1))
        yield line("mixture", mixture, rng.randint(-widest, widest), rng.randint(-widest, widest))


def calls(seed):
    rng = random.Random(seed)
    on_lots = lots, deviations, rows, held, lookups
    for kind in sequences.tables, *on_lots, reads, writes, cuts, pays, mixtures, checks, compares, sequences.sequences:
        yield from kind(rng)
