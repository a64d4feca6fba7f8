"""Counts, in the code of a tree, the places that docs/DESIGN-PASS.md speaks of: python3 tools/design_places.py [TREE]. Each line is a point,
how many places it has, and where they are."""
import re
import sys
from collections import defaultdict
from pathlib import Path

TREE = Path(sys.argv[1] if len(sys.argv) > 1 else ".")
FILES = sorted(TREE.glob("crates/*/src/**/*.rt"))
TEXTS = {f.relative_to(TREE / "crates").as_posix(): re.sub(r"//[^\n]*", "", f.read_text("utf-8")) for f in FILES}
# parameters that stand a line each, in one line
TEXTS = {name: re.sub(r"\bfn \w+[^(\n]*\(\n[^)]*\)", lambda m: re.sub(r",?\s*\n\s*\)$", ")", re.sub(r"\(\n\s*", "(", m[0])).replace("\n", " "), text)
         for name, text in TEXTS.items()}
CODE = {name: re.sub(r"(?m)^\s*(requires|ensures)\b[^\n]*\n", "", text) for name, text in TEXTS.items()}


def matching(text, at):
    """The place behind the brace that closes the one at a place."""
    depth = 0
    for i in range(at, len(text)):
        depth += {"{": 1, "}": -1}.get(text[i], 0)
        if depth == 0:
            return i + 1
    return len(text)


def functions(texts):
    """Every function: its file, its name, its parameters, and its body, or its clauses where they stand in the texts."""
    for name, text in texts.items():
        for m in re.finditer(r"\bfn (\w+)(?:<[^>(]*>)?\(([^)]*)\)", text):
            start = text.find("{\n", m.end()) if texts is CODE else m.end()
            yield name, m[1], m[2], text[start:matching(text, text.find("{\n", m.end()))]


def lines(pattern):
    return [f"{name}: {line.strip()}" for name, text in CODE.items() for line in text.split("\n") if re.search(pattern, line)]


def answers():
    """Own enums and structs of the shape of Option or Result: one case without a value or with a refusal, one with a value, or a flag beside a value."""
    found = []
    for name, text in CODE.items():
        for m in re.finditer(r"enum (\w+) \{([^}]*)\}", text):
            cases = [c.strip() for c in m[2].split(",") if c.strip()]
            valued = [c for c in cases if "(" in c]
            if valued and len(valued) <= 2 and len(cases) <= 3:
                found.append(f"{name}: enum {m[1]}")
        for m in re.finditer(r"struct (\w+)(?:<[^>]*>)? \{([^}]*)\}", text):
            if re.search(r"said: |known: bool|presence: |accepted: u32", m[2]):
                found.append(f"{name}: struct {m[1]}")
    return found + lines(r"^pub struct SheetVerdict|fn lookup\(mixture|entry: u32,$|fn limit\(number")


def twins():
    """Functions whose bodies are the same but for names, types and numbers, and structs whose fields have the same names."""
    groups, structs = defaultdict(list), defaultdict(list)
    for name, function, parameters, body in functions(CODE):
        kinds = re.sub(r"\b\w+\s*:", "", parameters)
        tokens, seen = re.findall(r"\w+|[^\w\s]", kinds + body), {}
        if len(tokens) >= 24 or len(re.findall(r"\w+|[^\w\s]", body)) >= 10:
            plain = tuple("#" if t[0].isdigit() else str(seen.setdefault(t, len(seen))) if t[0].isalpha() else t for t in tokens)
            groups[plain].append(f"{name}: {function}")
    for name, text in CODE.items():
        for m in re.finditer(r"struct (\w+)(?:<[^>]*>)? \{([^}]*)\}", text):
            structs[tuple(re.findall(r"(\w+):", m[2]))].append(f"{name}: {m[1]}")
    return [" = ".join(g) for g in [*groups.values(), *structs.values()] if len(g) > 1]


def facts():
    """Facts of a `requires` that three functions or more ask for, names aside, and pairs of parameters of one kind that three or more share."""
    asked, pairs = defaultdict(set), defaultdict(set)
    for name, function, parameters, clauses in functions(TEXTS):
        for clause in re.findall(r"requires [^{]*\{(.*)\}", clauses):
            for fact in clause.split(" × "):
                asked[re.sub(r"\b(self|a|lot|c|limits|bytes|column|edition|store)\.\w+(\.\w+)?|\b(totals|limit|[a-z])\b", "_", fact).strip(" ()")].add(f"{name}: {function}")
        named = re.findall(r"(\w+): (&?(?:mut )?[\w:<>\[\]&]+)", parameters)
        for i, one in enumerate(named):
            for other in named[i + 1:]:
                pairs[f"{one[0]}: {one[1]}, {other[0]}: {other[1]}"].add(f"{name}: {function}")
    return [f"{k} ({len(v)})" for k, v in [*asked.items(), *pairs.items()] if len(v) >= 3]


POINTS = {
    "1, own enums of the shape of Option or Result, flags and values, numbers for kinds": answers,
    "2, twins": twins,
    "3, loops that are no `for`": lambda: lines(r"^\s*(while|loop)\b"),
    "4, by hand what a derive or the library does": lambda: lines(
        r"256 \*|16777216|4294967295|!\([^()]* == [^()]*\)|\(first < second\)|fn (digit|show\w*|words|count|thousandths)\(rt|fn (verdict|number|magnitude|signed|unsigned|spell)\(|fn \w+\(answer: "),
    "5, facts and parameters that three functions share": facts,
    "6, buffers with a length beside them, searches by hand": lambda: lines(r"readings: \[Thousandths; MOST\],|\[u8; LONGEST\]|let mut high\b"),
    "7, switches on a step, tables of functions": lambda: lines(r"\bfn\(|\bdyn\b|Box<"),
}

for point, places in POINTS.items():
    found = places()
    print(f"{point}: {len(found)}")
    for place in found:
        print("    " + place)
