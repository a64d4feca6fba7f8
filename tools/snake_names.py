#!/usr/bin/env python3
"""Brings this repository's own names in antt to snake case, once: `python3 tools/snake_names.py`, at the top, after port.py.

A name is the repository's own where a file of specs/ or proofs/ binds it. What a file takes from the kit's library keeps its spelling there, and so do
the names that the kit makes: goals, and the facts of a goal by the step of the code. In comments, in docs/ and in README only what stands in back quotes
is respelled. Code, strings, exported names, inputs and outputs are left as they are. It stops where two names would fall together.
"""
import re
import sys
from pathlib import Path

ROOT = Path(__file__).resolve().parent.parent
TOKEN = re.compile(r"[^\s(){}\[\].,;:«»\"λ`|@]+")
COMMENT = re.compile(r"(?:^|(?<=\s))--(?=\s|$).*$")
RUST_COMMENT = re.compile(r"//.*$")
USE = re.compile(r"^((?:ghost )?use )([\w.+]+)(?:\.\{([^}]*)\}| as \w+)?;?\s*$")
# Words of the library's that names of ours are made of, as they were spelled and as they are.
WORDS = {"natAbs": "nat_abs", "ltZ": "lt_z", "leZ": "le_z", "quotZ": "quot_z"}


def joined(name):
    """Whether a name is to be respelled: it has a dash that joins two words, not one that is an operator's, or a word in camel case."""
    return snake(name) != name


def snake(name):
    """A dash becomes an underscore, but for one that stands first or just after another."""
    if "◌" in name or name.startswith("--") or set(name) <= set("-"):
        return name
    out = []
    for i, c in enumerate(name):
        out.append("_" if c == "-" and i > 0 and i + 1 < len(name) and name[i - 1] != "-" else c)
    return re.sub("|".join(WORDS), lambda word: WORDS[word[0]], "".join(out))


def crates(root):
    return sorted(p.parent.name for p in root.glob("crates/*/src"))


def taken(line, own_crates):
    """The names that an import takes from the kit's library."""
    m = USE.match(line.rstrip("\n"))
    if not m or m[3] is None:
        return set()
    parts = m[2].split(".")
    if parts[0] == "Rattle" and parts[1] in own_crates:
        return set()
    return {re.split(r" as ", n.strip())[0] for n in m[3].split(",")}


def main():
    own_crates = set(crates(ROOT))
    antt = sorted(ROOT.glob("crates/*/specs/**/*.antt")) + sorted(ROOT.glob("crates/*/proofs/**/*.antt"))
    library, made, bound = {}, {}, set()
    for path in antt:
        text = path.read_text("utf-8")
        lines = text.splitlines()
        library[path] = set().union(*(taken(line, own_crates) for line in lines))
        # the goals that a proof answers, and what the kit makes for it
        made[path] = set(re.findall(r"^(?:pub )?([^\s:]+) : (?:tie|goal)\.", text, re.M)) | set(re.findall(r"\b(?:tie|goal)\.([^\s(){}.,]+)", text))
        if re.search(r"^use .*\.Tie as tie", text, re.M) and (listed := re.search(r"\(tie\.spec\s([^()]*(?:\([^()]*\)[^()]*)*)\)", text)):
            made[path] |= set(listed[1].split())
        for line in lines:
            if USE.match(line):
                continue
            for m in TOKEN.finditer(COMMENT.sub("", line)):
                before = line[: m.start()]
                if joined(m[0]) and m[0] not in library[path] | made[path] and not before.endswith("."):
                    bound.add(m[0])
    # two names that would fall together
    every = {}
    for name in bound:
        every.setdefault(snake(name), set()).add(name)
    bad = [sorted(names) for names in every.values() if len(names) > 1]
    for path in antt:
        text = path.read_text("utf-8")
        plain = set(TOKEN.findall("\n".join(COMMENT.sub("", line) for line in text.splitlines() if not USE.match(line))))
        for name in plain & bound:
            if snake(name) in plain and name not in library[path]:
                bad.append([str(path.relative_to(ROOT)), name])
    for each in bad:
        print("falls together:", *each)
    if bad:
        return 1

    def respelled(line, keep):
        def by(m):
            before = line[: m.start()]
            if m[0] not in bound or m[0] in keep:
                return m[0]
            if before.endswith(".") and re.search(r"\b(?:tie|goal)\.$", before):
                return m[0]
            return snake(m[0])

        return TOKEN.sub(by, line)

    def quoted(text):
        return re.sub(r"`[^`\n]*`", lambda m: respelled(m[0], set()), text)

    def written(path, lines):
        new = "".join(lines)
        if new != path.read_text("utf-8"):
            path.write_text(new, "utf-8")

    for path in antt:
        keep, lines = library[path] | made[path], []
        for line in path.read_text("utf-8").splitlines(keepends=True):
            m = USE.match(line.rstrip("\n"))
            if m and not (m[2].split(".")[0] == "Rattle" and m[2].split(".")[1] in own_crates):
                lines.append(line)
                continue
            c = COMMENT.search(line)
            at = c.start() if c else len(line)
            lines.append(respelled(line[:at], set() if m else keep) + quoted(line[at:]))
        written(path, lines)
    for path in sorted(ROOT.glob("crates/*/src/**/*.rt")):
        lines, kept = [], set().union(*(taken(line, own_crates) for line in path.read_text("utf-8").splitlines()))
        for line in path.read_text("utf-8").splitlines(keepends=True):
            c = RUST_COMMENT.search(line)
            at = c.start() if c else len(line)
            lines.append(respelled(line[:at], kept) + quoted(line[at:]))
        written(path, lines)
    for path in [ROOT / "README.md", *sorted((ROOT / "docs").glob("*.md"))]:
        if path.name != "PORT.md":
            written(path, [quoted(path.read_text("utf-8"))])
    return 0


if __name__ == "__main__":
    sys.exit(main())
