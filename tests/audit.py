"""`python3 tests/audit.py [ROOT]` prints what is wrong with the tree where no proof would show it."""
import re
import sys
from pathlib import Path

from edge import HEADER, c_text, exports_are_declared, structs_are_laid_out_alike
from edits import edited, every_edit, kit_edits, own_edits
from house import house_is_drawn
from texts import EDGE, NAME, antt_files, brought, declared, functions, plain_rattle, texts, without_clauses

ROOTS = "Prim mathlib native lib mir borrow denote".split()
# The library, with the kit's proved crates that every crate stands on.
SOURCE = rf"(?:package\.)?(?:{'|'.join(ROOTS)}|Rattle\.(?:core|std|std_alloc|std_collections|std_heap|std_io))\."
# What a contract has with no import, and what its reader would take for the library's though nothing here brings it.
FAMILIAR = set("""result now ◌×◌ ⊤ ⊥ ¬◌ absurd Unit tt T Dec refl ◌≢◌ ◌>◌ ◌≥◌ ◌∸◌ ◌⊎◌ ◌↔◌ negsuc set not All Any Contains IsTrue IsFalse
IsSome IsOk IsErr IfSome IfOk IfErr OnSome OnOk OnErr""".split())
# A trait is brought for its methods, and named by none of their calls.
METHODS = {"Write": r"\.(?:write|flush)\w*\("}
PROMISES = "docs/PROMISES.md"
ENTRIES = ["entry", "definition", "promise", "must-fail edits"]
INNER = ["function", "requires", "promise", "must-fail edits"]
EDIT_NAME = r"(?<![\w/.`*-])[a-z]\w*/\w+(?![\w/.*-])"


def promises(root):
    """The text of docs/PROMISES.md."""
    return (root / PROMISES).read_text("utf-8") if (root / PROMISES).exists() else ""


def rows(root, header):
    """Each function that a table of docs/PROMISES.md lists, with its row; a table is known by its head."""
    found, inside = [], False
    for line in promises(root).splitlines():
        head = [cell.strip() for cell in line.strip().strip("|").split("|")] == header
        inside = line.startswith("|") and (inside or head)
        found += [(name, line) for name in re.findall(r"^\|\s*`(\w+(?:::\w+)+)`", line)] if inside else []
    return found


def entries(root):
    """The public entries that docs/PROMISES.md lists."""
    return [entry for entry, _ in rows(root, ENTRIES)]


def meant(entry, among):
    """The functions that an entry names: those of its module, or, where none is, of its crate."""
    crate, *module, name = entry.split("::")
    type_ = module.pop() if module and module[-1][0].isupper() else ""
    named = [f for f in among if (f.public, f.crate, f.type, f.name) == (True, crate, type_, name)]
    return [f for f in named if f.module == module] or named


def promises_are_made(root):
    """Every public function says what it ensures."""
    return [f"{f.place}: `{f.name}` has no `ensures`"
            for f in functions(root) if f.public and "ensures" not in f.clauses]


def entries_ask_nothing(root):
    """No exported function and no public entry has a `requires`."""
    every = functions(root)
    listed = [f for entry in entries(root) for f in meant(entry, every)]
    return [f"{f.place}: `{f.name}` is open to every caller, and has a `requires`"
            for f in every if "requires" in f.clauses and (f.exported or f in listed)]


def entries_exist(root):
    """docs/PROMISES.md lists public entries, and each function that it lists is a public function of its crate."""
    every, listed = functions(root), [name for name, _ in rows(root, ENTRIES) + rows(root, INNER)]
    missing = [f"{PROMISES}: no public function is `{entry}`" for entry in listed if not meant(entry, every)]
    return missing if entries(root) else [f"{PROMISES}: no entry under a head | {' | '.join(ENTRIES)} |"]


def public_functions_are_listed(root):
    """Every public function of a library stands in a table of docs/PROMISES.md, and every exported one among the entries."""
    every = functions(root)
    open_, listed = ([f for name, _ in table for f in meant(name, every)] for table in (rows(root, ENTRIES), rows(root, ENTRIES) + rows(root, INNER)))
    programs = {file.parent.parent.name for file in root.glob("crates/*/src/main.rt")}
    return [f"{f.place}: `{f.name}` is public, and {PROMISES} does not list it"
            for f in every if f.public and f.crate not in programs and f not in (open_ if f.exported else listed)]


def promises_are_guarded(root):
    """Of every function that docs/PROMISES.md lists its row names an edit that is refused in the function's own proof."""
    every = functions(root)
    refused = {edit.name: {f"{edit.crate}::{name}" for name in edit.refused.split()} for edit in own_edits(root) + kit_edits(root)}
    return [f"{PROMISES}: no edit in the row of `{name}` is refused in its own proof" for name, row in rows(root, ENTRIES) + rows(root, INNER)
            if meant(name, every) and not any(name in refused.get(edit, ()) for edit in re.findall(EDIT_NAME, row))]


def librarys(path, name):
    """Whether a path leads to a name in the library."""
    return re.fullmatch(SOURCE + r"(?:.*\.)?" + re.escape(name), path)


def symbols_mean_the_librarys(root):
    """A symbol that a definition or a contract of ours has from the library, or seems to have, has no other meaning in any text of ours."""
    every, found = [(*text, *brought(*text[1:])) for text in texts(root)], []
    guarded = FAMILIAR | {name for place, _, keyword, items, _ in every if keyword != "use" or "specs" in place.parts
                          for path, name in items if librarys(path, name)}
    for place, text, keyword, items, modules in every:
        names = [name for path, name in items if name in guarded and not librarys(path, name)]
        # a module of ours under a library's name would stand in front of the library
        names += [name for path, name in modules if name in ROOTS and path not in (name, f"package.{name}")]
        if keyword == "use":
            names += [name for name in declared(text) if name in guarded]
            names += [name for name in re.findall(r"(?m)^\s*(?:pub\s+)?mod\s+(\S+)", text) if name in ROOTS]
        found += [f"{place}: it gives `{name}`, a name of the library's, a meaning of its own" for name in names]
    return found


def plain_imports(root):
    """The place of each source, with a name that a plain `use` line brings and that no code there says."""
    for file in sorted(root.glob("crates/*/src/**/*.rt")):
        text = plain_rattle(file.read_text("utf-8"))
        # a contract speaks of definitions, which may be called as a function is
        code = without_clauses(re.sub(r"(?m)^\s*(?:pub\s+|ghost\s+)?use\s[^;]*;", "", text))
        for line in re.findall(r"(?m)^\s*use\s+([^;]+);", text):
            for name in re.findall(r"(\w+)\s*(?=[,}]|$)", re.sub(r"\bself\b", "", line)) + re.findall(r"(\w+)::\{\s*self\b", line):
                if not re.search(METHODS.get(name, rf"\b{name}\b"), code):
                    yield file.relative_to(root), name


def imports_are_used(root):
    """Whatever a `use` line brings is named below it."""
    found = [f"{place}: `{name}` is brought and not used" for place, name in plain_imports(root)]
    for place, text, keyword in texts(root):
        rest = re.sub(rf"(?m)^\s*{keyword}\s[^{{;\n]*(?:\{{[^}}]*\}})?[^\n]*", "", text)
        tokens = set(re.findall(NAME, rest))
        for _, name in sum(brought(text, keyword), []):
            # an operator is written by its parts, or whole
            if name not in tokens and not ("◌" in name and all(part in tokens for part in name.split("◌") if part)):
                found.append(f"{place}: `{name}` is brought and not used")
    return found


def no_hole_is_left(root):
    """No proof or definition has a hole or a probe."""
    hole = re.compile(EDGE + r"\?|\{!")
    return [f"{place}:{number}: a hole" for place, text in antt_files(root)
            for number, line in enumerate(text.splitlines(), 1) if hole.search(line)]


def edits_can_be_planted(root):
    """Every edit says what it plants and where it is refused, changes more than a proof, and finds the text that it changes."""
    found = []
    for edit in every_edit(root):
        try:
            edited(root, edit)
        except ValueError as error:
            found.append(f"{edit.file.relative_to(root)}: {error}")
    return found


def edits_differ(root):
    """No two edits that a crate must refuse make the same change, and no two have one name."""
    made, named, found = {}, {}, []
    for edit in every_edit(root):
        place = edit.file.relative_to(root)
        if named.setdefault(edit.name, place) != place:
            found.append(f"{place}: it is named as {named[edit.name]}")
        try:
            change = edit.crate, tuple(sorted(edited(root, edit)[0].items()))
        except ValueError:
            continue
        if made.setdefault(change, place) != place:
            found.append(f"{place}: it is the same edit as {made[change]}")
    return found


def edits_are_listed(root):
    """docs/PROMISES.md lists every edit that must be refused, and no other."""
    listed, edits = set(re.findall(EDIT_NAME, promises(root))), {edit.name: edit.file for edit in every_edit(root)}
    crates = {file.name for file in root.glob("crates/*")}
    lost = [name for name in listed - set(edits) if name.split("/")[0] in crates and name.split("/")[1] not in ("src", "specs", "proofs")]
    return ([f"{edits[name].relative_to(root)}: {PROMISES} does not list it" for name in sorted(set(edits) - listed)]
            + [f"{PROMISES}: there is no edit {name}" for name in sorted(lost)])


# Words of the language and of commands, which are no thing of this tree.
LANGUAGE = set("rt requires ensures i64 match if rw elim omega c V DESTDIR tulpavice-notebook".split())
# A page on what there was before, and so on what is gone.
BEFORE = {"docs/PORT.md", "docs/DESIGN-PASS.md"}
# Files that stand for many.
ELSEWHERE = r"^target/|CRATE|LABEL|^proofs/F/"


def things(root):
    """Every name that a page may speak of: crates, functions, types, constants, C's too, and what definitions and proofs declare."""
    names = {file.name for file in root.glob("crates/*")} | {f.name for f in functions(root)}
    names |= set(re.findall(r"#define (\w+)", c_text(root, HEADER)))
    for place, text, keyword in texts(root):
        names |= {place.stem} | {name for _, name in sum(brought(text, keyword), [])}
        if keyword == "use":
            names |= set(declared(text)) | set(re.findall(rf"(?m)^\s+(?:pub\s+)?({NAME})\s*:", text)) | set(re.findall(rf"(?:data|record)\s+({NAME})", text))
        else:
            names |= set(re.findall(r"\b(?:struct|enum|const)\s+(\w+)", text)) | set(re.findall(r"(?m)^\s+(?:pub )?([A-Za-z]\w*)[,(:]", text))
    return names


def named_things_are_there(root):
    """Each law, function, type and file that the README or a page of docs/ names is there."""
    known, found = things(root) | LANGUAGE, []
    files = {str(file.relative_to(root)) for file in root.glob("**/*") if not {".git", "target", "out"} & {*file.parts[len(root.parts):]}}
    ends = {path[at.end():] for path in files for at in re.finditer(r"^|/", path)}
    for page in sorted({"README.md", *(f"docs/{file.name}" for file in root.glob("docs/*.md"))} - BEFORE):
        text = (root / page).read_text("utf-8") if (root / page).exists() else ""
        # what is fenced, and what is quoted with a blank in it, is a command or an example
        text = re.sub(r"^ *```.*?^ *```|`[^`\n]*`", lambda m: "" if re.search(r"\s", m[0]) else m[0], text, flags=re.M | re.S)
        for name in sorted(set(re.findall(r"(?<![\w/.-])[\w+./-]*\w\.(?:antt|rt|py|c|h|mk|md|tsv|edit)\b", text))):
            if name not in ends and not re.search(ELSEWHERE, name):
                found.append(f"{page}: there is no file {name}")
        for quoted in sorted(set(re.findall(r"`([A-Za-z][\w-]*(?:::\w+)*|\w+/[\w/-]*)`", text))):
            names = [quoted.strip("/")] if "/" in quoted else quoted.split("::")
            if not all(name in known or name in ends for name in names) and not quoted.startswith("target/"):
                found.append(f"{page}: there is no `{quoted}`")
    return found


RULES = [promises_are_made, entries_ask_nothing, entries_exist, public_functions_are_listed, promises_are_guarded, exports_are_declared,
         structs_are_laid_out_alike, symbols_mean_the_librarys, imports_are_used, no_hole_is_left, edits_can_be_planted, edits_differ, edits_are_listed, named_things_are_there,
         house_is_drawn]


def main():
    root = Path(sys.argv[1] if len(sys.argv) > 1 else Path(__file__).parent.parent).resolve()
    complaints = [f"{rule.__name__}: {text}" for rule in RULES for text in rule(root)]
    print("\n".join(complaints or ["the audit has no complaint"]))
    sys.exit(bool(complaints))


if __name__ == "__main__":
    main()
