"""Edits that must be refused: how one is written and read, and what the prover says of it.

An edit is a file must-fail/CRATE/LABEL.edit, which the proofs of CRATE must refuse, whether it changes that crate's code or a definition below
it: a comment that says which wrong answer or wrong rule it plants; `refused: NAME..`, each a proof in which a fact falls (a function's, as
`row::admits`, or a file of laws); and the kit's own lines `file:`, `old:`, `new:`, with paths from the root, where `\\n` goes on to the next line.
Those that the kit tries by itself too stand in crates/CRATE/must-fail, with paths from the crate. An edit of must-not-compile/CRATE is for the
compiler: what it must say stands behind `refused:`. What is said is read with paths from the root (`from_the_root`).
"""
import re
from collections import namedtuple
from pathlib import Path

from texts import functions_in, path_of, plain_rattle

Edit = namedtuple("Edit", "name crate file comment refused changes")
Change = namedtuple("Change", "path old new")


def lines_of(text):
    """A text of an edit, which stands on one line, as it stands in the file."""
    return text.replace("\\n", "\n")


def read_edit(file, name, crate, folder=""):
    """An edit as it is written; `folder` is what its paths start from."""
    comment, refused, changes, path, old = [], "", [], "", ""
    for line in file.read_text("utf-8").split("\n"):
        key, _, rest = line.partition(":")
        if key == "new":
            changes.append(Change(path, lines_of(old), lines_of(rest.removeprefix(" "))))
            old = ""
        elif line.startswith(("file: ", "old: ")):
            path, old = (folder + rest[1:], old) if key == "file" else (path, rest[1:])
        elif line.startswith("refused: "):
            refused = rest.strip()
        elif not path and line.strip(" #-/"):
            comment.append(line)
    return Edit(name, crate, file, " ".join(comment), refused, tuple(changes))


def edits_in(root, folder):
    """The edits of a folder that has one for each crate."""
    return [read_edit(file, f"{file.parent.name}/{file.stem}", file.parent.name) for file in sorted((root / folder).glob("*/*.edit"))]


def own_edits(root):
    """The edits that the repository's own runner plants."""
    return edits_in(root, "must-fail")


def kit_edits(root):
    """The edits that the kit plants."""
    return [read_edit(file, f"{file.parts[-3]}/{file.stem}", file.parts[-3], f"crates/{file.parts[-3]}/")
            for file in sorted(root.glob("crates/*/must-fail/*.edit"))]


def kind_edits(root):
    """The edits that the compiler must refuse."""
    return edits_in(root, "must-not-compile")


def every_edit(root):
    return own_edits(root) + kit_edits(root) + kind_edits(root)


def touched(edit):
    """The crates that an edit changes."""
    return {Path(change.path).parts[1] for change in edit.changes}


def ill_formed(edit):
    """Why an edit cannot be tried; empty where it can."""
    if not edit.comment:
        return "it does not begin with a comment that says what it plants"
    if not edit.refused:
        return "it has no line `refused:`"
    if not edit.changes:
        return "it has no `old:` and `new:`"
    for change in edit.changes:
        if not re.fullmatch(r"crates/\w+/(?:src|specs|proofs)/(?:[\w+]+/)*[\w+]+\.(?:rt|antt)", change.path):
            return f"`{change.path}` is no file of a crate's src, specs or proofs"
    if all("/proofs/" in change.path for change in edit.changes):
        return "it changes a proof and nothing else"
    return ""


def edited(root, edit):
    """The text of each edited file, and the places of the edits; ValueError where one cannot be made."""
    if why := ill_formed(edit):
        raise ValueError(why)
    texts, places = {}, []
    for path, old, new in edit.changes:
        if path not in texts:
            if not (root / path).is_file():
                raise ValueError(f"there is no file `{path}`")
            texts[path] = (root / path).read_text("utf-8")
        if not old or texts[path].count(old) != 1:
            raise ValueError(f"`{old}` is not in {path} exactly once")
        places.append(f"{path}:{texts[path].count(chr(10), 0, texts[path].index(old)) + 1}:")
        texts[path] = texts[path].replace(old, new)
    return texts, places


# What is written of a function's own proof, in the function's folder.
OWN_PROOF = ("Proof", "Invariants", "Answers")


def bodies(root, edit):
    """The functions whose bodies and proofs are all that an edit changes; none where it changes anything else. No contract says what code returns,
    so that a body reaches no further than its own proof; that of a `const fn` might, by a constant that a contract names."""
    texts, found = {}, set()
    if any(re.search(r"\bconst\s+fn\b", plain_rattle(file.read_text("utf-8"))) for file in (root / "crates" / edit.crate / "src").rglob("*.rt")):
        return set()
    for path, old, new in edit.changes:
        text = texts.setdefault(path, (root / path).read_text("utf-8"))
        at, (crate, part, *rest) = text.index(old), Path(path).with_suffix("").parts[1:]
        texts[path] = text.replace(old, new)
        if part == "src":
            before, after = ([*functions_in(each, path)] for each in (text, texts[path]))
            names = {path_of(f) for f in before if f.body[0] < at and at + len(old) < f.body[1]}
        else:
            before, after, names = [], [], {"::".join(rest[:-1])} if part == "proofs" and rest[:-1] and rest[-1] in OWN_PROOF else set()
        if crate != edit.crate or not names or [*map(path_of, before)] != [*map(path_of, after)]:
            return set()
        found |= names
    return found


def reaching(root, crate):
    """For each function of a crate those that its body leads to, itself among them: whatever has a name that is called there, or in one of those.
    Where a function is not proved, the goals of one that calls it are not tried."""
    said = {}
    for file in sorted(root.glob(f"crates/{crate}/src/**/*.rt")):
        text = plain_rattle(file.read_text("utf-8"))
        said.update((path_of(f), (f.name, text[slice(*f.body)])) for f in functions_in(text, file.relative_to(root)))
    calls = {path: {other for other, (name, _) in said.items() if re.search(rf"\b{name}\s*(?:::\s*<[^>]*>\s*)?\(", body)} for path, (_, body) in said.items()}
    found = {path: {path} for path in said}
    while (wider := {path: led.union(*(calls[other] for other in led)) for path, led in found.items()}) != found:
        found = wider
    return found


# What an error says that is no word about a fact.
NO_FACT = (
    (r"`Rattle\.\S*\.Goals` has no `\S*` that can be named from here|record `[^`]*` has no field|has no function `|is in a cycle of calls"
     r"|but (?:this has type )?`(?:\S*\.)?(?:goal|Goals)\.[a-z]", "the proof file does not fit the edited code"),
    (r"that can be named from here|`\S*` is not in scope(?! here, so)", "a name is unknown"),
    (r": error: (?!`[^`]*`: )", "a text cannot be read"),
    (r"\.rt:\S*: error: ", "a contract is ill-formed"),
    (r"` has no clause for ", "a definition is ill-formed"),
)
# A rewriting that finds nothing to rewrite: the text of the proof does not fit, which tells nothing of the fact.
IDLE = re.compile(r"`rw`: no occurrence of|`simp`: no equation of the list")
# What is said of a declaration only since another one fell.
FOLLOWS = re.compile(r": error: \d+ declarations? that depends? on `|` was not admitted \(|` cannot be unfolded because it was not admitted")
ERROR = re.compile(r"^([^\s:]+)(?::\d+)*: error: .*", re.M)
# A goal that the prover has tried by itself, and not proved: it is told above the line of its function.
OPEN = re.compile(r"^note: \S+\.rt:\d+:\d+: it is not proved that ")
# What is said of an item in the end.
SAID = re.compile(r"^[a-z]\w* (\w+)::(\S+): (proved|no proof|not proved|could not tell|assumed|not assumed)\b")


def from_the_root(log, crate, where):
    """A log of a check that was made in a crate's folder below some place, with each path from there."""
    log = log.replace(f"{where}/", "")
    return re.sub(r"^((?:note|warning): )?(?:\./)?(?=(?:src|specs|proofs)/)", lambda found: f"{found[1] or ''}crates/{crate}/", log, flags=re.M)


def proof_of(place):
    """The crate and the name of the proof that a file is."""
    crate, _, *parts = Path(place[place.rfind("crates/"):]).with_suffix("").parts[1:] or ("", "")
    return crate, "::".join(parts[:-1] if parts[1:] and parts[-1] in OWN_PROOF else parts)


def blocks(log):
    """Of each function that is not proved its crate and name, with the lines that tell of it: those of its open goals, and its own."""
    above = []
    for line in log.splitlines():
        said = SAID.match(line)
        if OPEN.match(line):
            above.append(line)
        elif said:
            if line.startswith("fn ") and said[3] in ("no proof", "not proved"):
                yield said.groups()[:2], [*above, line]
            above = []


def refused_in(log):
    """Each proof in which a fact fell by itself, as crate and name: where an error says so, or where the prover did not prove a goal."""
    return ({proof_of(error[1]) for error in ERROR.finditer(log) if not FOLLOWS.search(error[0])}
            | {proof for proof, lines in blocks(log) if len(lines) > 1 or "`search` did not prove `" in lines[0]})


def without(log, proofs):
    """A log without what it says of some proofs."""
    spare = {line for proof, lines in blocks(log) if proof in proofs for line in lines}
    kept = [line for line in log.splitlines() if line not in spare and not ((error := ERROR.match(line)) and proof_of(error[1]) in proofs)]
    return "\n".join(kept)


def not_a_fact(log, places=()):
    """Why a log does not show a fact refused; empty where it does. `places` are those of the edit."""
    if not re.search(r"^logic=not-proved", log, re.M):
        return "it is not refused by the prover"
    errors = re.findall(r"^[^\s:]+(?::\d+)*: error: .*|.*that can be named from here.*", log, re.M)
    own = [error for error in errors if not FOLLOWS.search(error)]
    for pattern, words in NO_FACT:
        for error in own:
            if re.search(pattern, error):
                return f"{words}: {error[:300]}"
    if any(own[0].startswith(place) for place in places if own and ".antt:" in place):
        return f"the edited text is itself ill-formed: {own[0][:300]}"
    if not own and not any(map(OPEN.match, log.splitlines())):
        return "no fact was tried"
    if own and all(map(IDLE.search, own)):
        return f"a rewriting finds nothing to rewrite: {own[0][:300]}"
    return ""


def fell_elsewhere(edit, log):
    """Which of the proofs that an edit names no fact fell in; empty where one fell in each."""
    found = refused_in(log)
    if lost := [name for name in edit.refused.split() if (edit.crate, name) not in found]:
        return f"what is refused is {', '.join(sorted(map('::'.join, found)))}, and not {' '.join(lost)}"
    return ""
