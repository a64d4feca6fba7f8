"""The edge to C, read as texts: what the crates export, and what include/tulpavice.h and hosts/layout.c say of it."""
import re

from texts import plain_rattle

HEADER, LAYOUT = "include/tulpavice.h", "hosts/layout.c"
PLAIN = {"u8": "uint8_t", "u16": "uint16_t", "i32": "int32_t", "u32": "uint32_t", "i64": "int64_t", "usize": "size_t", "f64": "double"}
# What C calls the places of a lot, and the numbers of a limit, of a pair of limits and of the rows tried for both sides, which stand there side by side.
PLACES = {word: f"readings[{i}]" for i, word in enumerate((
    "first second third fourth fifth sixth seventh eighth ninth tenth eleventh twelfth thirteenth fourteenth fifteenth "
    "sixteenth seventeenth").split())}
BESIDE = {"number": "", "presence": "_present", "lower": "_lower", "upper": "_upper"}
WIDTH = {"uint8_t": 1, "uint16_t": 2, "int32_t": 4, "uint32_t": 4, "int64_t": 8, "size_t": 8, "double": 8}
# All that the header and the layout tell the preprocessor; a line more could make what is read here mean something else.
TOLD = {
    HEADER: r"""#(ifndef|define) TULPAVICE_H|#include <std(def|int)\.h>|#ifdef __cplusplus|#endif|#define TULPAVICE_(VERSION "[\d.]+"|(MOST(_SUBLOTS|_EDITIONS)?|ENTRIES) \d+|EDITION_BYTES\(columns\) \(7 \+ 108 \* \(columns\)\)|(TABLE_106_1|MOST_EDITION)_BYTES TULPAVICE_EDITION_BYTES\(\d+\)|MOST_BYTES \(13 \+ 4 \* TULPAVICE_MOST\)|MOST_LOTS \(\(TULPAVICE_MOST_SUBLOTS \+ 2\) / 10\))""",
    LAYOUT: r"""#include "tulpavice\.h"|#define (SIZE|AT)\([\w, ]*\) _Static_assert\(.*\)""",
}
# And what else stands there: types and calls, of which the functions below read all parts.
STRUCT = r"\bstruct\s+(\w+)\s*\{([^}]*)\};"
CALL = r"(?<![^\s;}])((?:struct )?\w+)\s+(\w+)\(([^()]*)\);"
PLACE = r"^(?:SIZE|AT)\((\w+), (?:(\w+), )?(\d+)\);"


def c_text(root, name):
    """A file of C without its comments, or nothing where there is none."""
    file = root / name
    return re.sub(r"/\*.*?\*/", "", file.read_text("utf-8"), flags=re.S) if file.exists() else ""


def sources(root):
    """The place and the plain text of each source."""
    for file in sorted(root.glob("crates/*/src/**/*.rt")):
        yield file.relative_to(root), plain_rattle(file.read_text("utf-8"))


def c_type(type_):
    """The type that C has for one of the crates' types, by value; what is neither a number nor a `Host..` is no type of C's."""
    if not re.fullmatch(r"Host[A-Z]\w*", type_):
        return PLAIN.get(type_, f"no type of C's ({type_})")
    return "struct tulpavice" + re.sub(r"(?=[A-Z])", "_", type_.removeprefix("Host")).lower()


def c_parameter(name, type_):
    """What C has for a parameter, types with their names: two for a slice, whose size may have any name."""
    lent = re.fullmatch(r"&\s*(mut\s+)?\[(\w+)(;[^\]]*)?\]", type_)
    if not lent:
        return [f"{c_type(type_)} {name}"]
    pointer = f"{'' if lent[1] else 'const '}{c_type(lent[2])} *{name}"
    return [pointer] if lent[3] else [pointer, "size_t"]


def listed(text):
    """The parts between the commas of a list, each with single blanks."""
    return [" ".join(part.split()) for part in text.split(",") if part.strip()]


def exported(root):
    """For each exported function where it stands, what C has for its answer, and for its parameters."""
    found = {}
    for place, text in sources(root):
        for name, parameters, answer in re.findall(r'extern\s*"C"\s*fn\s+(\w+)\s*\(([^)]*)\)\s*(?:->\s*(\S+))?', text):
            split = [re.split(r"\s*:\s*", part, maxsplit=1) for part in listed(parameters)]
            found[name] = place, c_type(answer) if answer else "void", sum((c_parameter(*part) for part in split), [])
    return found


def declared(root):
    """For each function of the header the type of its answer, and its parameters; the name of a size is left out."""
    found = {}
    for answer, name, parameters in re.findall(CALL, c_text(root, HEADER)):
        found[name] = answer, [re.sub(r"^size_t \w+$", "size_t", part) for part in listed(parameters)]
    return found


def exports_are_declared(root):
    """include/tulpavice.h declares every exported function as it is, and no other."""
    here, there = exported(root), declared(root)
    found = [f"{here[name][0]}: `{name}` is exported, and {HEADER} does not declare it" for name in sorted(set(here) - set(there))]
    found += [f"{HEADER}: no exported function is `{name}`" for name in sorted(set(there) - set(here))]
    for name in sorted(set(here) & set(there)):
        _, answer, parameters = here[name]
        parameters = [re.sub(r"^size_t \w+$", "size_t", part) for part in parameters]
        if there[name] != (answer, parameters):
            found.append(f"{HEADER}: `{name}` is exported as {answer} ({', '.join(parameters)})")
    return found


def host_structs(root):
    """The fields of each struct that the crates lay out as C does, names and types, by the name that C has for it; two of one name are none."""
    found = {}
    for _, text in sources(root):
        for marks, name, fields in re.findall(r"((?:#\[[^\n]*\]\s*)*)pub\s+struct\s+(Host\w+)\s*\{([^}]*)\}", text):
            split = [part.removeprefix("pub ").split(": ") for part in listed(fields)]
            # what is derived adds functions, and moves no field
            once = c_type(name) not in found and re.sub(r"#\[derive\([\w\s,:]*\)\]", "", marks).split() == ["#[repr(C)]"]
            found[c_type(name)] = [(PLACES.get(field, field), c_type(type_)) for field, type_ in split] if once else []
    return found


def header_structs(root):
    """The same of each struct of the header; an array has a field for each of its places."""
    text = c_text(root, HEADER)
    constants, found = dict(re.findall(r"#define (\w+) (\d+)", text)), {}
    for name, fields in re.findall(STRUCT, text):
        here = found[f"struct {name}"] = []
        for type_, field, count in re.findall(r"([\w ]+?)\s+(\w+)(?:\[(\w+)\])?;", fields):
            places = [f"[{i}]" for i in range(int(constants.get(count, count)))] if count else [""]
            here += [(field + place, " ".join(type_.split())) for place in places]
    return found


def laid_out(structs, type_, nested):
    """The plain numbers of a type, each with its name, place and type; its size; and what it is aligned to, on x86-64.

    The numbers of a struct that is not among the nested are named as if they stood beside it."""
    if type_ not in structs:
        return [("", 0, type_)], WIDTH.get(type_, 1), WIDTH.get(type_, 1)
    numbers, size, alignment = [], 0, 1
    for field, inner in structs[type_]:
        parts, width, aligned = laid_out(structs, inner, nested)
        size += -size % aligned
        for name, at, plain in parts:
            joined = f"{field}.{name}" if inner in nested else field + BESIDE.get(name, name)
            numbers.append((joined, size + at, plain))
        size, alignment = size + width, max(alignment, aligned)
    return numbers, size + -size % alignment, alignment


def asserted(root):
    """What hosts/layout.c says: the size of each struct, and the place of each of its fields."""
    said = re.findall(PLACE, c_text(root, LAYOUT), re.M)
    return {(f"struct tulpavice_{name}", field, int(number)) for name, field, number in said}


def structs_are_laid_out_alike(root):
    """Each struct of include/tulpavice.h is laid out as the crates' own, number for number, and hosts/layout.c says how."""
    ours, theirs, found, right = host_structs(root), header_structs(root), [], set()
    for name in theirs:
        numbers, size, _ = laid_out(ours, name, theirs)
        if (numbers, size) != laid_out(theirs, name, theirs)[:2]:
            found.append(f"{HEADER}: `{name}` is not laid out as the crates have it")
        places = {}
        for number, at, _ in numbers:
            places.setdefault(re.split(r"[.[]", number)[0], at)
        right |= {(name, "", size), *((name, field, at) for field, at in places.items())}
    for file, read in (HEADER, [STRUCT, CALL, r'extern "C" \{|\}']), (LAYOUT, [PLACE]):
        rest = re.sub(rf"^({TOLD[file]})$", "", c_text(root, file), flags=re.M)
        for pattern in read:
            rest = re.sub(pattern, "", rest, flags=re.M)
        found += [f"{file}: what is read of it leaves out {line}" for line in filter(str.strip, rest.splitlines())]
    said = asserted(root)
    for wrong, word in (said - right, "it says"), (right - said, "it does not say"):
        found += [f"{LAYOUT}: {word} that {name} has {f'{field} at {number}' if field else f'{number} bytes'}" for name, field, number in sorted(wrong)]
    return found
