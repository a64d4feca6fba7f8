"""Runs the library beside the second program: python3 second/compare.py [--seed N] [--stop] COMMAND...

COMMAND answers calls over the library, as hosts/answers.c does. It is fed every call of second/calls.py, and each
answer is held against that of second/papers.py. Succeeds if none differs, there were enough calls of each kind, enough
lots were evaluated by other editions than Table 106-1's, and each row of a table was found inside a limit and outside, by
one number of tries. With --stop it ends at the first that differs.
"""
import argparse
import collections
import os
import subprocess
import sys
import tempfile

import calls
import papers

# What each kind of call is reported as, and how many there have to be.
KINDS = {
    "lot": ("lots", 200_000),
    "deviation": ("deviations", 30_000),
    "bytes": ("rows of bytes", 10_000),
    "held": ("lots held", 30_000),
    "read": ("records read", 100_000),
    "write": ("records written", 100_000),
    "cut": ("jobs cut", 20_000),
    "pay": ("pay inputs", 200_000),
    "check": ("pay sheets checked", 100_000),
    "compare": ("pay sheets compared", 100_000),
    "mixture": ("mixture lookups", 200_000),
    "lend": ("stores lent", 5_000),
    "table": ("tables written", 100),
    "sequence": ("sequences over a store", 20_000),
}
# How many lots have to be evaluated by editions of another shape than Table 106-1's.
BY_OTHERS = 200_000
SHOWN = 5
CLIPPED = 400


def clipped(text):
    return text if len(text) <= CLIPPED else f"{text[:CLIPPED]}... ({len(text):,} characters)"


def show(lent, call, library, second):
    """Both answers, the store that was lent last, and the first difference where it is too far on to be seen."""
    print(f"store   {clipped(lent)}\ncall    {clipped(call)}\nlibrary {clipped(library)}\nsecond  {clipped(second)}")
    place = len(os.path.commonprefix((library, second)))
    if place >= CLIPPED:
        ours, theirs = (text[place - 20 : place + 20] for text in (library, second))
        print(f"at character {place} the library has {ours}, the second {theirs}")


def compare(asked, answers, stop):
    """How many calls of each kind were compared and how many differ, and whether the answers stopped short."""
    compared, differ, lent = collections.Counter(), collections.Counter(), "none"
    for call in asked:
        if stop and differ:
            break
        library = answers.readline()
        if not library.endswith("\n"):
            print(f"the library's answers stop at call {compared.total() + 1:,}: {clipped(call.rstrip())}")
            return compared, differ, True
        kind, rest = call.rstrip().split(maxsplit=1)
        lent = rest if kind == "lend" else lent
        second = papers.answer(call)
        compared[kind] += 1
        if library.rstrip("\n") != second:
            differ[kind] += 1
            if differ[kind] <= SHOWN:
                show(lent, call.rstrip(), library.rstrip(), second)
    return compared, differ, False


def every_row_was_found():
    """Reports by how many tries each row was found; whether each was, inside a limit and outside, always by as many."""
    found = {(row, inside) for row, inside, _ in papers.LOOKED_UP}
    tries = {(row, tried) for row, _, tried in papers.LOOKED_UP}
    for number in sorted({tried for _, tried in tries}):
        rows = [row for row, tried in sorted(tries) if tried == number]
        print(f"rows found by {number} tries, {len(rows)}: {' '.join(map(str, rows))}")
    return len(found) == 2 * len(tries) == 2 * (papers.LAST + 1)


def editions_were_many():
    """Reports what was done with editions; whether enough lots were evaluated by others than Table 106-1's, in stores of each size."""
    print("steps in these sequences:", ", ".join(f"{step} {times:,}" for step, times in sorted(papers.STEPPED.items())))
    others = {key: times for key, times in papers.EVALUATED.items() if key[1:] != (min(papers.TABLE), max(papers.TABLE))}
    sizes, shapes, times = {many for many, *_ in others}, {key[1:] for key in others}, sum(others.values())
    print(f"lots evaluated by editions of {len(shapes)} shapes other than Table 106-1's: {times:,}")
    return times >= BY_OTHERS and sizes == set(range(1, papers.MOST_EDITIONS + 1))


def main():
    parser = argparse.ArgumentParser()
    parser.add_argument("--seed", type=int, default=106)
    parser.add_argument("--stop", action="store_true")
    parser.add_argument("command", nargs=argparse.REMAINDER)
    given = parser.parse_args()
    if not given.command:
        parser.error("which command answers?")
    # calls go by way of a file: neither program then waits for the other to read
    with tempfile.NamedTemporaryFile("w") as file:
        file.writelines(f"{call}\n" for call in calls.calls(given.seed))
        file.flush()
        with open(file.name) as fed, open(file.name) as asked:
            with subprocess.Popen(given.command, stdin=fed, stdout=subprocess.PIPE, text=True) as host:
                compared, differ, failed = compare(asked, host.stdout, given.stop)
                if given.stop and differ:
                    host.kill()
                    return 1
                if host.stdout.readline():
                    print("the library answers more than it was asked")
                    failed = True
    if host.returncode != 0:
        print(f"{given.command[0]} ends with status {host.returncode}")
        failed = True
    for kind, (name, least) in KINDS.items():
        print(f"{name} {compared[kind]:,} compared, {differ[kind]:,} differ")
        if compared[kind] < least:
            print(f"  too few: at least {least:,} are to be compared")
            failed = True
    if not editions_were_many():
        print(f"  at least {BY_OTHERS:,} are to be, and in stores of one edition to {papers.MOST_EDITIONS}")
        failed = True
    if not every_row_was_found():
        print("  each row is to be found inside a limit and outside, by one number of tries")
        failed = True
    return 1 if failed or differ.total() else 0


if __name__ == "__main__":
    sys.exit(main())
