"""Plants each edit that must be refused, tries it, and says of each whether it is; the last line is `N passed, M failed`.

`python3 tests/planted.py [NAME..]` tries every edit of must-fail/, of crates/*/must-fail/ and of must-not-compile/, or those named `CRATE/LABEL`. First
`rt all check` proves what is not proved yet, over what earlier checks kept: a crate that is not proved counts as a failure. An edit is planted in a copy
of the crates and proved over an incremental folder, which holds what is proved of the tree as it stands: so only what the edit reaches is proved again.
That folder is laid anew for each edit, and no edit sees what another left.
"""
import contextlib
import os
import re
import shutil
import subprocess
import sys
import tempfile
import threading
import time
from collections import namedtuple
from concurrent.futures import ThreadPoolExecutor, as_completed
from pathlib import Path

from edits import bodies, edited, every_edit, fell_elsewhere, from_the_root, kind_edits, not_a_fact, reaching, refused_in, touched, without
from house import dependencies, reached

ROOT = Path(__file__).resolve().parent.parent
# Where the kit is, by its command.
KIT = Path(shutil.which("rt") or "rt").resolve().parent.parent
# A check takes one processor.
WORKERS = min(4, len(os.sched_getaffinity(0)))

Trial = namedtuple("Trial", "edit why log seconds")


def passed_as_source(listed, crate, edits):
    """The crates that a check reads as they are edited: the edited ones that it depends on, and those between."""
    return sorted(name for name in reached(listed, crate) - {crate} if edits & reached(listed, name))


def laid(start, to):
    """Copies what a check kept. Another command may replace a file of it meanwhile: what is missing is proved again."""
    def copy(one, other):
        with contextlib.suppress(FileNotFoundError):
            shutil.copyfile(one, other)
    shutil.copytree(start, to, copy_function=copy, dirs_exist_ok=True)


class Proved:
    """What is proved of a tree as it stands: its libraries, and the incremental folders that each edit starts from."""

    def __init__(self, root, folder):
        self.root, self.folder, self.locks, self.lock, self.lost = root, Path(folder).resolve(), {}, threading.Lock(), {}
        self.listed, self.nothing = dependencies(root), self.folder / "nothing"
        self.static = set(re.findall(r"^(\w+) +staticlib\b", (root / "crates.txt").read_text("utf-8"), re.M))
        self.nothing.mkdir()

    def library(self, name):
        """Where a library is that stands as it is: the repository's own, or the kit's."""
        return self.root / f"crates/{name}/out/rlib/{name}.rlib" if name in self.listed else KIT / f"rlibs/{name}.rlib"

    def words(self, crate, sources, where):
        """The words of a check of a crate in a copy, with some others as source."""
        below = reached(self.listed, crate) - {crate}
        named = {"std"}.union(*(self.listed[name] for name in [crate, *sources]))
        words = ["--crate-name", crate, "src/main.rt" if (where / "crates" / crate / "src/main.rt").exists() else "src/lib.rt"]
        for name in sorted(named | set(sources)):
            words += ["--lib", f"{name}={where}/crates/{name}/src/lib.rt"] if name in sources else ["--extern", f"{name}={self.library(name)}"]
        for folder in KIT / "rlibs", *(self.library(name).parent for name in sorted(below - set(sources))):
            words += ["-L", f"dependency={folder}"]
        words += ["--antt-project", str(KIT / "rattle/logic/antt-project.json"), "--logic-built", str(KIT / "logic_built"), "--links", f"{crate}="]
        return words + (["--crate-type", "staticlib"] if crate in self.static else [])

    def of(self, bench, crate, sources):
        """The folder for a check of a crate with some others as source. It is made once, by a check without an edit, which must pass."""
        where = self.folder / "-".join([crate, *sources])
        with self.lock:
            lock = self.locks.setdefault(where, threading.Lock())
        with lock:
            if where not in self.lost and not where.exists():
                begun = where.with_name(where.name + ".begun")
                begun.mkdir()
                # the crate's own comes last: of files that each has under one name it needs its own
                for kept in (self.root / f"crates/{name}/out/incremental" for name in [*sources, crate]):
                    # without it that check proves the crate from nothing, and is the longer for it
                    if kept.exists():
                        laid(kept, begun)
                status, log = bench.check(crate, sources, begun)
                if status or not re.search(r"^logic=proved ", log, re.M):
                    self.lost[where] = f"{crate} is not proved without an edit:\n{log[-2000:]}"
                else:
                    shutil.copytree(bench.kept, where)
                shutil.rmtree(begun)
            if where in self.lost:
                raise ValueError(self.lost[where])
        return where


class Bench:
    """A copy of the crates, where one edit at a time is planted."""

    def __init__(self, proved):
        self.proved, self.where = proved, Path(tempfile.mkdtemp(dir=proved.folder)).resolve()
        # where a check keeps what it has proved
        self.kept = self.where / "kept"
        crates = proved.root / "crates"
        shutil.copytree(crates, self.where / "crates", symlinks=True, ignore=lambda at, _: {"out"} if Path(at).parent == crates else ())

    def check(self, crate, sources, start):
        """Checks a crate over a copy of an incremental folder: the exit status, and what is said, with paths from the root."""
        shutil.rmtree(self.kept, ignore_errors=True)
        shutil.copytree(start, self.kept)
        words = [str(KIT / "bin/rattle"), "check", *self.proved.words(crate, sources, self.where), "--jobs", "1", "--incremental", str(self.kept)]
        done = subprocess.run(words, cwd=self.where / "crates" / crate, stdin=subprocess.DEVNULL, stdout=subprocess.PIPE, stderr=subprocess.STDOUT,
                              encoding="utf-8", errors="replace")
        return done.returncode, from_the_root(done.stdout, crate, self.where)

    def plant(self, edit, judge):
        """Tries one edit: why it is not refused as it must be, or nothing; and what was said."""
        listed, texts = self.proved.listed, {}
        try:
            texts, places = edited(self.proved.root, edit)
            if edit.crate not in listed or not touched(edit) <= reached(listed, edit.crate):
                raise ValueError(f"{edit.crate} does not depend on what is edited, or crates.txt does not list it")
            sources = passed_as_source(listed, edit.crate, touched(edit))
            start = self.proved.of(self, edit.crate, sources) if judge is by_the_prover else self.proved.nothing
            for path, text in texts.items():
                (self.where / path).write_text(text, "utf-8")
            status, log = self.check(edit.crate, sources, start)
        except ValueError as error:
            return f"BAD EDIT: {error}", ""
        finally:
            for path in texts:
                shutil.copy(self.proved.root / path, self.where / path)
        return judge(edit, status, log, places), log

    def plant_all(self, edits, judge):
        """Tries edits of different functions of a crate together; each half of them, and in the end each alone, where together not every one is
        refused as it must be."""
        if len(edits) > 1:
            names = [{(edit.crate, name) for name in edit.refused.split()} for edit in edits]
            every = set().union(*names)
            why, log = self.plant(joined(edits), judge)
            logs = [without(log, every - own) for own in names]
            # of an edit's places those in proofs count, and no two edits change one proof
            facts = not any(not_a_fact(log, edited(self.proved.root, edit)[1]) for edit, log in zip(edits, logs))
            if not why and refused_in(log) == every and facts:
                return [("", log) for log in logs]
            half = len(edits) // 2
            return self.plant_all(edits[:half], judge) + self.plant_all(edits[half:], judge)
        return [self.plant(edit, judge) for edit in edits]


def joined(edits):
    """One edit that makes all changes of some."""
    return edits[0]._replace(refused=" ".join(edit.refused for edit in edits), changes=tuple(change for edit in edits for change in edit.changes))


def can_be_made(root, edit):
    try:
        return bool(edited(root, edit))
    except ValueError:
        return False


def groups(root, edits):
    """Edits that can be planted together. What one function's body says reaches no other function's proof; so those that change nothing but the
    bodies and proofs of different functions of a crate, of which none calls another, and are refused there, are told apart by the proof in which a
    fact falls."""
    found, own, led = [], {}, {crate: reaching(root, crate) for crate in {edit.crate for edit in edits}}
    for edit in edits:
        functions = bodies(root, edit) if can_be_made(root, edit) else set()
        own[edit] = functions if functions >= set(edit.refused.split()) else set()
        for group in found:
            others = set().union(*(own[other] for other in group))
            apart = group[0].crate == edit.crate and not any(b in led[edit.crate][a] or a in led[edit.crate][b] for a in own[edit] for b in others)
            if own[edit] and own[group[0]] and apart and can_be_made(root, joined([*group, edit])):
                group.append(edit)
                break
        else:
            found.append([edit])
    # the longest first, so that no core is idle at the end
    return sorted(found, key=len, reverse=True)


def by_the_prover(edit, status, log, places):
    """Why what is said of an edit is not that a fact falls in each proof that it names; empty where it is."""
    if re.search(r"^logic=proved ", log, re.M) or status == 0:
        return f"NOT REFUSED: {edit.crate} is still proved"
    if status != 1 or not re.search(r"^logic=not-proved", log, re.M):
        return f"BAD EDIT: it did not reach the prover, or came to no verdict (exit {status}):\n{log[-2000:]}"
    for other in sorted(touched(edit) - {edit.crate}):
        if found := re.search(rf"^crates/{other}/\S*: error: .*|^\w+ {other}::\S+: (?:no|not|could).*", log, re.M):
            return f"{other}, the edited crate, is itself not proved: {found[0][:300]}"
    if why := not_a_fact(log, places):
        return f"it is not refused for a fact: {why}"
    return fell_elsewhere(edit, log)


def by_the_compiler(edit, status, log, places):
    """Why what is said of an edit is not the one mixing of kinds that it names; empty where it is."""
    said = re.findall(r"^(crates/\S*?:\d+:)(?:\d+:)? (error.*)", log, re.M)
    if status == 1 and said == [(places[0], f"error[mismatched-types]: {edit.refused}")] and "logic=" not in log:
        return ""
    return f"the compiler does not refuse it in these words, and for nothing else (exit {status}):\n{log[-2000:]}"


def tried(root, edits, workers=WORKERS):
    """Tries edits of a tree that is proved, some at a time: a trial of each."""
    kinds = {edit.file for edit in kind_edits(root)}
    with tempfile.TemporaryDirectory() as folder, ThreadPoolExecutor(workers) as pool:
        proved, own = Proved(root, folder), threading.local()

        def trials(group):
            begun = time.monotonic()
            if not hasattr(own, "bench"):
                own.bench = Bench(proved)
            said = own.bench.plant_all(group, by_the_compiler if group[0].file in kinds else by_the_prover)
            seconds = (time.monotonic() - begun) / len(group)
            return [Trial(edit, *each, seconds) for edit, each in zip(group, said)]

        for group in as_completed([pool.submit(trials, each) for each in groups(root, edits)]):
            yield from group.result()


def shown(edits):
    """Tries edits, says of each what came of it, and keeps what was said of it: how many passed, and how many did not."""
    failed, spent = 0, {}
    for edit, why, log, seconds in tried(ROOT, edits):
        print(f"edit {edit.name}: {why or 'refused, as it must be'} ({seconds:.1f} s)", flush=True)
        kept = ROOT / "target/planted" / f"{edit.name}.log"
        kept.parent.mkdir(parents=True, exist_ok=True)
        kept.write_text(log, "utf-8")
        failed += bool(why)
        kind = "definitions" if any("/specs/" in change.path for change in edit.changes) else "code"
        spent[kind] = spent.get(kind, 0) + seconds
    for kind, seconds in sorted(spent.items()):
        print(f"spent edits of {kind}: {seconds:.0f} s")
    return len(edits) - failed, failed


def made(root):
    """Has each crate proved, over what earlier checks kept, with the libraries and folders that edits start from: how many are not."""
    begun = time.monotonic()
    done = subprocess.run(["rt", "all", "check", "--jobs", str(WORKERS)], cwd=root, stdin=subprocess.DEVNULL, stdout=subprocess.PIPE,
                          stderr=subprocess.STDOUT, encoding="utf-8", errors="replace")
    lost = re.findall(r"^\w+: (?:failed|not run).*", done.stdout, re.M)
    print(done.stdout if done.returncode else f"spent proving for the edits: {time.monotonic() - begun:.0f} s", flush=True)
    return max(len(lost), 1) if done.returncode else 0


def main():
    known = {edit.name: edit for edit in every_edit(ROOT)}
    for name in sys.argv[1:]:
        if name not in known:
            sys.exit(f"there is no edit {name}")
    lost = made(ROOT)
    passed, failed = shown([known[name] for name in sys.argv[1:] or known])
    print(f"{passed} passed, {failed + lost} failed", flush=True)
    sys.exit(failed + lost != 0 or passed == 0)


if __name__ == "__main__":
    main()
