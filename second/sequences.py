"""Calls that write Table 106-1 as an edition, and that store, find and list editions, step after step over one buffer."""
import itertools

from lots import COUNTS, subsets
from papers import MOST_EDITIONS, pack_edition, spaced as line, to_hex
from stores import (
    counts, damaged, damaged_entries, damaged_stores, each_byte_changed, EDGE_NUMBERS, edition, editions, end, first_number,
    MOST_NUMBER, numbers, starts, store, unsure,
)


def tables(rng):
    rooms = *range(10), 977, 978, 979, 980, 981, 1_100, 2_000
    for number, room in itertools.product((*EDGE_NUMBERS, rng.randrange(MOST_NUMBER)), rooms):
        yield line("table", number, room)


def sequence_line(buffer, *steps):
    return line("sequence", to_hex(buffer), *itertools.chain(*steps))


def storing(entry):
    return "store", to_hex(entry)


def another_step(rng, made, at):
    """Beside the next edition: one is found or listed, or one is stored that is damaged or not above the others."""
    kind = rng.randrange(4)
    if kind == 0:
        return "find", rng.choice((rng.choice(made).number, unsure(rng, made)))
    if kind == 1:
        return "list", rng.choice((at, at, max(at - 1, 0), at + 1, rng.randrange(12)))
    if kind == 2:
        return storing(damaged(rng, pack_edition(made[at]), [0]))
    return storing(pack_edition(made[at]._replace(number=rng.choice(made[:at] or made).number)))


def walk(rng, pool):
    """Editions with the columns of some, stored one after the other behind those that are there, with room for all of them or not."""
    made = [rng.choice(pool)._replace(number=number) for number in numbers(rng, rng.randint(1, MOST_EDITIONS + 1))]
    first = rng.choice((0, 0, rng.randrange(len(made))))
    need = len(store(made[first:]))
    room = rng.choice((need, need + rng.randrange(4), need + 100, need - 1, rng.randrange(need)))
    steps = []
    for at in range(first, len(made)):
        while rng.random() < 0.4:
            steps.append(another_step(rng, made, at))
        steps.append(storing(pack_edition(made[at])))
    while rng.random() < 0.7:
        steps.append(another_step(rng, made, len(made) - 1))
    return sequence_line(store(made[:first], end(rng, room)), *steps)


def asked_of(rng, buffer, many, new):
    """Some buffer: its editions listed and found, and one more stored."""
    finds = ("find", first_number(buffer)), ("find", rng.choice((new.number, 0, first_number(buffer) + 2**16)))
    lists = ("list", many), ("list", max(many - 1, 0))
    return sequence_line(buffer, *finds, *lists, storing(pack_edition(new)), finds[1], ("list", MOST_EDITIONS))


def refused_storings(rng, times):
    """Every set of reasons: a damaged store, a damaged edition, a number that does not rise, a ninth edition, no room."""
    for reasons, _ in itertools.product(subsets(("store", "edition", "number", "ninth", "room")), range(times)):
        many = MOST_EDITIONS if "ninth" in reasons else rng.randint(1, MOST_EDITIONS - 1)
        *held, new = editions(rng, many + 1, 2)
        if "number" in reasons:
            new = new._replace(number=rng.choice((held[-1].number, held[0].number, 0)))
        entry = pack_edition(new)
        room = rng.choice((0, 1, 2, len(entry) - 1)) if "room" in reasons else len(entry) + rng.choice((0, 1, 2, 3, 40))
        buffer = store(held, end(rng, room))
        if "edition" in reasons:
            entry = damaged(rng, entry, [0])
        if "store" in reasons:
            buffer = damaged(rng, buffer, starts(held))
        steps = ("list", rng.choice((many, many - 1))), ("find", rng.choice((held[0].number, held[-1].number + 1)))
        yield sequence_line(buffer, storing(entry), *steps)


def sequences(rng):
    narrow, wide = ([edition(rng, 0, counts(rng, most)) for _ in range(300)] for most in (2, len(COUNTS)))
    for _ in range(20_000):
        yield walk(rng, narrow if rng.random() < 0.97 else wide)
    whole = store(editions(rng, 3, 2), bytes(2) + rng.randbytes(130))
    news = [edition(rng, number, range(5, 6)) for number in (0, 201, 350, 500, MOST_NUMBER)]
    for buffer in itertools.chain(damaged_stores(rng), each_byte_changed(whole)):
        yield asked_of(rng, buffer, 3, rng.choice(news))
    sound, held = pack_edition(edition(rng, 300, range(9, 11))), edition(rng, 200, range(2, 3))
    for entry in itertools.chain(each_byte_changed(sound), damaged_entries(rng, 300), damaged_entries(rng, 200)):
        buffer = store(rng.choice(([], [held])), end(rng, len(entry) + rng.randrange(4)))
        yield sequence_line(buffer, storing(entry), ("list", MOST_EDITIONS))
    yield from refused_storings(rng, 40)
