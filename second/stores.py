"""Editions of the table and stores of them for the library and the second program to be asked about: sound ones of every shape, and damaged ones.

An edition is made as the second program has it, and damaged as bytes. The same seed gives the same bytes.
"""
import itertools
import struct

from lots import COUNTS
from papers import COLUMN, Edition, EDITION_HEAD, FIRST_ENTRY, LAST, LAST_ENTRY, MOST, MOST_EDITIONS, pack_edition, TABLE_106_1

MOST_NUMBER = 2**16 - 1

# Numbers at the ends of what one byte holds, and two.
EDGE_NUMBERS = 0, 1, 254, 255, 256, 257, 2**15 - 1, 2**15, MOST_NUMBER - 1, MOST_NUMBER

# Table 106-1 as document 02 corrects it, under a number whose bytes are neither equal nor zero.
PRINTED = Edition(1061, TABLE_106_1)


# Editions and stores that are accepted.


def column(rng):
    """Entries that never fall: all apart or nearly so, few apart, or all equal but for one jump."""
    every = range(FIRST_ENTRY, LAST_ENTRY + 1)
    among = rng.choice((every, every, every, (FIRST_ENTRY, 7_000, 7_001, LAST_ENTRY), every[:1], every[-1:]))
    return FIRST_ENTRY, *sorted(rng.choices(among, k=LAST - 1)), LAST_ENTRY


def counts(rng, most=len(COUNTS)):
    """Those from a first n to a last, at most so many, and few more often than many."""
    many = min(rng.randint(1, most) for _ in range(3))
    first = rng.randint(COUNTS[0], MOST + 1 - many)
    return range(first, first + many)


def edition(rng, number, counts):
    return Edition(number, {count: column(rng) for count in counts})


def numbers(rng, many):
    """Rising: side by side at either end of what two bytes hold, or apart."""
    every = range(MOST_NUMBER + 1)
    among = rng.choice((every[:many], every[-many:], every[: 4 * many], every, EDGE_NUMBERS))
    return sorted(rng.sample(among, many))


def editions(rng, many, most=len(COUNTS)):
    """So many, of at most so many columns each."""
    return [edition(rng, number, counts(rng, most)) for number in numbers(rng, many)]


def with_printed(rng, made):
    """Table 106-1 in the place of one of them."""
    place = rng.randrange(len(made))
    return [*made[:place], Edition(made[place].number, TABLE_106_1), *made[place + 1 :]]


def end(rng, size):
    """Bytes that end a store, so many of them: what is behind a length of zero is not read."""
    return rng.randbytes(size) if size < 2 else bytes(2) + rng.choice((bytes(size - 2), rng.randbytes(size - 2)))


def store(made, behind=b""):
    return b"".join(map(pack_edition, made)) + behind


def starts(made):
    """Where each edition of a store starts."""
    return [len(store(made[:place])) for place in range(len(made))]


def some_store(rng, made):
    return store(made, end(rng, rng.choice((0, 1, 2, 3, rng.randrange(40)))))


def unsure(rng, made):
    """The number of one of these editions, or of none: beside one, or above what two bytes hold."""
    number = rng.choice(made).number
    return rng.choice((number, abs(number - 1), number + 1, number + 2**16, number + 2**31, 2**32 - 1, rng.randrange(2**16)))


def first_number(buffer):
    """The number of the first edition of some bytes, or what stands in its place."""
    return int.from_bytes(buffer[3:5], "big")


# Entries and stores that are damaged.


def with_byte(data, place, value):
    return data[:place] + bytes([value]) + data[place + 1 :]


def each_byte_changed(data):
    """In every place, to every number that has one bit turned, and to some others."""
    for place, old in enumerate(data):
        for value in sorted({0, 1, 0x7F, 0xFF, *(old ^ 1 << bit for bit in range(8))} - {old}):
            yield with_byte(data, place, value)


def spelled(number, first, last, columns, version=1, follow=None):
    """An entry, right or not; its length fits its size where no other is named."""
    body = b"".join(COLUMN.pack(*column) for column in columns)
    head = EDITION_HEAD.pack(5 + len(body) if follow is None else follow, version, number, first, last)
    return head + body


LEVEL = FIRST_ENTRY, *[7_000] * (LAST - 1), LAST_ENTRY


def broken_columns():
    """One rule broken by as little as can be: the start, the end, or an entry that is one below the one before."""
    for row, entry in (0, 4_999), (0, 5_001), (0, 0), (LAST, 9_999), (LAST, 10_001), (LAST, MOST_NUMBER):
        yield *LEVEL[:row], entry, *LEVEL[row + 1 :]
    for row in range(1, LAST):
        below = 4_999 if row == 1 else 6_999
        yield *LEVEL[:row], below, *LEVEL[row + 1 :]
    yield *LEVEL[: LAST - 1], 10_001, LAST_ENTRY


def damaged_entries(rng, number):
    """Entries that fill their bytes and are not accepted, but for the few of a shape that is; each other has one thing wrong."""
    sound = pack_edition(edition(rng, number, range(4, 6)))
    for first, last in itertools.product((0, 1, 2, 3, 16, 17, 18, 255), repeat=2):
        # as many columns as they ask for, and one
        for many in sorted({1, min(max(last + 1 - first, 1), 19)}):
            yield spelled(number, first, last, [LEVEL] * many)
    for broken, place in itertools.product(broken_columns(), range(3)):
        yield spelled(number, 4, 6, [LEVEL] * place + [broken] + [LEVEL] * (2 - place))
    for version in 0, 2, 0x81, 0xFF:
        yield spelled(number, 4, 5, [LEVEL] * 2, version=version)
    for off in -108, -2, -1, 1, 2, 108:
        yield spelled(number, 4, 5, [LEVEL] * 2, follow=5 + 2 * COLUMN.size + off)
    # the bytes of the length exchanged
    yield sound[1::-1] + sound[2:]
    for size in (*range(10), 114, 115, 116, *range(len(sound) - 3, len(sound) + 4)):
        resized = (sound + rng.randbytes(3))[:size]
        yield resized
        yield struct.pack(">H", max(size - 2, 0))[:size] + resized[2:]


def damaged(rng, data, starts):
    """A store in which one of the editions, which start there, is not accepted: by its length, version, first n, last n or start."""
    place = rng.choice(starts) + rng.choice((0, 1, 2, 5, 6, 7, 8))
    return with_byte(data, place, data[place] ^ 1 << rng.randrange(4))


def damaged_stores(rng):
    """Too many editions, numbers that do not rise, entries that are cut short or not accepted, and bytes left over; sound ones too."""
    for many, size in itertools.product(range(MOST_EDITIONS + 2), range(4)):
        yield store(editions(rng, many, 2), end(rng, size))
    for many, _ in itertools.product(range(2, MOST_EDITIONS + 1), range(4)):
        made = editions(rng, many, 1)
        place = rng.randrange(1, many)
        before = made[place - 1].number
        # equal numbers, the same edition twice, and numbers that fall
        for wrong in made[place]._replace(number=before), made[place - 1], made[place]._replace(number=max(before - 1, 0)):
            yield store([*made[:place], wrong, *made[place + 1 :]], end(rng, 2))
        yield store([*made[: place - 1], made[place], made[place - 1], *made[place + 1 :]], end(rng, 2))
    pair = editions(rng, 2, 1)
    whole = store(pair, bytes(2))
    yield from (whole[:size] for size in range(len(whole)))
    for size, first in itertools.product((1, 2, 3), range(256)):
        yield store(pair, bytes([first]) + rng.randbytes(size - 1))
        yield store(pair, bytes([0, first])[:size] + rng.randbytes(1)[: size - 2])
    for entry in damaged_entries(rng, 300):
        made = edition(rng, 200, range(2, 3)), edition(rng, 400, range(17, 18))
        for around in (made[:0], made[:0]), (made[:1], made[:0]), (made[:1], made[1:]):
            yield store(around[0]) + entry + store(around[1], end(rng, 2))
