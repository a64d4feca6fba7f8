"""Rattle's and antt's texts, read as texts: functions with their clauses, the names that a text brings and declares."""
import re
from collections import namedtuple
from pathlib import Path


def blank(text):
    """As many spaces and the same lines, so that places stay what they were."""
    return re.sub(r"[^\n]", " ", text)


def plain_rattle(text):
    """The text without comments and literals; `"C"` stays, since it marks an export."""
    spare = r"""//[^\n]*|/\*.*?\*/|b?"(?:\\.|[^"\\])*"|\bb'(?:\\[^'\n]{1,3}|\\'|[^'\\\n])'"""
    return re.sub(spare, lambda m: m[0] if m[0] == '"C"' else blank(m[0]), text, flags=re.S)


Function = namedtuple("Function", "place crate module type name public exported clauses body")


def closing(text, at):
    """The place behind the brace that closes the one at `at`."""
    depth = 0
    for brace in re.compile(r"[{}]").finditer(text, at):
        depth += 1 if brace[0] == "{" else -1
        if not depth:
            return brace.end()
    return len(text)


def clauses(text, at):
    """The clauses behind a function's name, and the place of the body, or of the `;` of one without."""
    found, depth = [], 0
    token = re.compile(r"[()\[\]{};]|\b(?:requires|ensures|ghost)\b")
    while seen := token.search(text, at):
        at = seen.end()
        if seen[0] in "()[]":
            depth += 1 if seen[0] in "([" else -1
        elif not depth and seen[0] in "{;}":
            return found, seen.start()
        elif not depth:
            found.append(seen[0])
            at = closing(text, text.find("{", at))
    return found, len(text)


def without_clauses(text):
    """A plain text of Rattle without what its contracts say."""
    out, at = [], 0
    while clause := re.compile(r"\b(?:requires|ensures|ghost)\b\*?\s*(?:\w+\s*)?\{").search(text, at):
        end = closing(text, clause.end() - 1)
        out += [text[at:clause.start()], blank(text[clause.start():end])]
        at = end
    return "".join(out) + text[at:]


ITEM = re.compile(r"""[{}]|\bimpl\b\s*(?:<[^>]*>\s*)?(?P<type>\w+)[^{};]*|"""
                  r"""(?P<public>\bpub\s+)?(?:\bconst\s+)?(?P<c>\bextern\s*"C"\s*)?\bfn\s+(?P<name>\w+)""")


def functions_in(text, path):
    """The functions with a body of a source, by its path from the root."""
    crate, _, *module = Path(path).relative_to("crates").with_suffix("").parts
    module = [part for part in module if part not in ("lib", "main", "mod")]
    text, at, types, type_ = plain_rattle(text), 0, [], ""
    while item := ITEM.search(text, at):
        at = item.end()
        if item[0] == "{":
            types, type_ = types + [type_], ""
        elif item[0] == "}":
            types = types[:-1]
        elif item["type"]:
            type_ = item["type"]
        else:
            has, at = clauses(text, at)
            if text[at:at + 1] == "{":
                place = f"{path}:{text.count(chr(10), 0, item.start('name')) + 1}"
                yield Function(place, crate, module, (types or [""])[-1], item["name"], bool(item["public"]), bool(item["c"]), has, (at, closing(text, at)))


def functions(root):
    """The functions with a body, of every crate."""
    return [function for file in sorted(root.glob("crates/*/src/**/*.rt"))
            for function in functions_in(file.read_text("utf-8"), file.relative_to(root))]


def path_of(function):
    """A function's name within its crate, as its proof has it."""
    return "::".join([*function.module, *filter(None, [function.type]), function.name])


# In antt, where a name may begin, and a name.
EDGE = r"""(?<![^\s(){}.;,@"])"""
NAME = r"""[^\s(){}.;,@"]+"""


def plain_antt(text):
    """The text without comments and quoted texts, and without the quotes of «escaped» names."""
    outside = re.compile(r"\{-|" + EDGE + r'--[^\n]*|"(?:\\.|[^"\\\n])*"')
    inside, out, at, depth = re.compile(r"\{-|-\}"), [], 0, 0
    while mark := (inside if depth else outside).search(text, at):
        out += [blank(text[at:mark.start()]) if depth else text[at:mark.start()], blank(mark[0])]
        at, depth = mark.end(), depth + {"{-": 1, "-}": -1}.get(mark[0], 0)
    return re.sub("[«»]", "", "".join(out) + ("" if depth else text[at:]))


def antt_files(root):
    """The place and the plain text of each file of definitions or proofs."""
    for folder in sorted(root.glob("crates/*/*/")):
        # what checks leave beside them, in crates/*/out, is no text of ours
        for file in sorted(folder.glob("**/*.antt")) if folder.name != "out" else ():
            yield file.relative_to(root), plain_antt(file.read_text("utf-8"))


def brought(text, keyword):
    """For each item that the `use` lines bring, its path and its name here; and the same for each module."""
    use = EDGE + keyword + r"\s+([^\s{};,]+?)(?:\.\{([^}]*)\}|(?:\s+as\s+([^\s;]+))?(?=[\s;]|$))"
    items, modules = [], []
    for path, group, alias in re.findall(use, text):
        for leaf in filter(str.strip, group.split(",")):
            there, *renamed = leaf.split()
            items.append((f"{path}.{there}", (renamed or there.split("."))[-1]))
        modules += [] if group else [(path, alias or path.split(".")[-1])]
    return items, modules


def declared(text):
    """The names that a text declares, but for the fields and constructors of a type, and modules."""
    type_ = re.compile(rf"(?:pub\s+)?(?:data|record)\s+({NAME})")
    signature = re.compile(rf"(?:(?:unfoldable|abbrev|pub|axiom)\s+)*({NAME})\s+(?:{{[^}}]*}}\s*)?:(?:\s|$)")
    body = None  # how far the type is indented whose fields or constructors these are
    for line in filter(str.strip, text.splitlines()):
        deep = len(line) - len(line.lstrip())
        if body is None or deep <= body:
            head = type_.match(line, deep)
            body = deep if head else None
            if name := head or signature.match(line, deep):
                yield name[1]
    # a parameter that is spelled as an operator is read as one
    for names in re.findall(rf"[({{]\s*((?:{NAME}\s+)+):\s", text):
        yield from (name for name in names.split() if "◌" in name)


def texts(root):
    """Each text of ours, with the keyword by which it brings names."""
    for place, text in antt_files(root):
        yield place, text, "use"
    for file in sorted(root.glob("crates/*/src/**/*.rt")):
        yield file.relative_to(root), plain_rattle(file.read_text("utf-8")), r"ghost\s+use"
