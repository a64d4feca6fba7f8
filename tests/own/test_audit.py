"""Each rule of the audit sees the faults that it is there for, and no other rule's."""
import tempfile
import unittest
from pathlib import Path

import audit
from house import drawing

LIB = "crates/toy/src/lib.rt"
INNER = "crates/toy/src/inner.rt"
SPEC = "crates/toy/specs/Sum.antt"
PROOF = "crates/toy/proofs/Laws.antt"
EDIT = "must-fail/toy/one_more.edit"
LESS = "must-fail/toy/one_less.edit"
KIT_EDIT = "crates/toy/must-fail/two_more.edit"
PROMISES = "docs/PROMISES.md"
README = "README.md"
HEADER = "include/tulpavice.h"
LAYOUT = "hosts/layout.c"
CRATES = "crates.txt"
HOUSE = "docs/house.svg"
HOST = "crates/toy/src/host.rt"

TREE = {
    CRATES: "# NAME: DEP DEP ..\nground:\ntoy: ground\n",
    HOUSE: drawing({"ground": [], "toy": ["ground"]}),
    LIB: '''// A toy: pub fn in_a_comment() {}
#![tactic(auto)]

ghost use Rattle.std.specs.Prelude.{
    ◌≡◌,
    ◌<◌,
    ◌+◌,
    length,
};
ghost use Rattle.toy.specs.Sum.{total};
ghost use Rattle.std.specs.Float.Ieee as Ieee;

mod inner;

use ground::{
    Held, Kept,
};
use inner::quiet;

pub struct Pair(u8, u8);

impl Pair {
    // The first. {
    pub fn first(self) -> u8
        ensures { result ≡ total {x = length self.0} }
    {
        Kept(inner::kept(quiet(self.0)), Held)
    }
}

fn own(x: [u8; 4]) -> u8
    requires { x < 3 }
{
    let s = b"}}pub fn quoted() {";
    x[0]
}

#[unsafe(no_mangle)]
pub extern "C" fn toy_mean(x: &[u8; 4], n: usize) -> u8
    ensures count { result ≡ n }
    ensures same {
        Ieee.same result (result + result)
    }
{
    if n == b'}' as usize { 1 } else { 2 }
}
''',
    INNER: '''// Inner: `Pair::first` keeps what it asks.
pub fn kept(x: u8) -> u8
    requires { x < 3 }
    ensures { result ≡ x }
{
    x
}

pub(crate) fn quiet(x: u8) -> u8 {
    x
}
''',
    SPEC: '''-- What is added up? {- no comment opens here
{- length : ℕ
   {- ?hole -} {! probe !} -}
use Prim.Native.Nat.{ℕ, ◌+◌}
use Rattle.std.specs.Prelude.{List, [], ◌∷◌}
use lib.ListN.{length, replicate, get_or as at, getElem?}
use Rattle.toy.specs.Other as T

pub record Sums : Type 0 where
  pub T : ℕ
  pub length : ℕ

unfoldable pub total : List ℕ → ℕ
total [] = 0
total (T ∷ xs) = T + length (replicate T xs)

what? : (T : ℕ) → getElem? T at
what? T = "-- ?"
''',
    PROOF: '''-- Laws of the sum.
use Rattle.toy.specs.Sum.{total}

module _ (n : ℕ) where
  pub law : total n ≡ n
  law = let pos : ℕ = 3 in refl
''',
    PROMISES: '''# Promises

| entry | definition | promise | must-fail edits |
|---|---|---|---|
| `toy::Pair::first` | `total`, toy/specs/Sum.antt | it is the first; `law`, Laws.antt | toy/one_less, toy/second_for_first |
| `toy::host::toy_read` | the lot | it is the lot | toy/lot_lost |
| `toy::toy_mean` | `Sums`, in toy/specs | it is the mean | toy/one_more, toy/two_more |

| function | requires | promise | must-fail edits |
|---|---|---|---|
| `toy::inner::kept` | a small number | it is the number | toy/kept_lost |

| other | table |
|---|---|
| `toy::quiet` | not listed, of `inner.rt` |
''',
    README: '''# Toy

`toy` has `Pair::first` (`rt check`, `make run`) and the law `law`; `crates/toy` holds them, and [PROMISES](docs/PROMISES.md) lists them.

```text
`none-such` in src/none.rt
```
''',
    HOST: """// What C is given.
#[repr(C)]
#[derive(Clone, Copy)]
pub struct HostPair {
    pub lower: i32,
    pub upper: i32,
}

#[repr(C)]
pub struct HostLot {
    pub count: u32,
    pub limits: HostPair,
    pub total: f64,
    pub first: i32,
    pub second: i32,
}

#[repr(C)]
pub struct HostRead {
    pub refusal: u32,
    pub lot: HostLot,
}

pub extern "C" fn toy_read(lot: HostLot, bytes: &[u8], out: &mut [u8]) -> HostRead
    ensures { result ≡ lot }
{
    read(lot)
}
""",
    HEADER: """/* toy_none(x) is not declared. */
#define TULPAVICE_MOST 2

struct tulpavice_lot {
    uint32_t count;
    int32_t limits_lower;
    int32_t limits_upper;
    double total;
    int32_t readings[TULPAVICE_MOST]; /* int32_t spare; */
};

struct tulpavice_read {
    uint32_t refusal;
    struct tulpavice_lot lot;
};

uint8_t toy_mean(const uint8_t *x, size_t n);

struct tulpavice_read toy_read(struct tulpavice_lot lot,
                               const uint8_t *bytes, size_t size, uint8_t *out, size_t room);
""",
    LAYOUT: """/* AT(lot, none, 0); */
SIZE(lot, 32);
AT(lot, count, 0);
AT(lot, limits_lower, 4);
AT(lot, limits_upper, 8);
AT(lot, total, 16);
AT(lot, readings, 24);
SIZE(read, 40);
AT(read, refusal, 0);
AT(read, lot, 8);
""",
    EDIT: "# the mean is one too large\nrefused: toy_mean\nfile: crates/toy/src/lib.rt\nold: { 1 }\nnew: { 2 }\n",
    LESS: "# the mean is one too small\nrefused: toy_mean\nfile: crates/toy/src/lib.rt\nold: { 1 }\nnew: { 0 }\n",
    "must-fail/toy/second_for_first.edit":
        "# the second stands for the first\nrefused: Pair::first\nfile: crates/toy/src/lib.rt\nold: inner::kept(\nnew: inner::kept(1 + \n",
    "must-fail/toy/kept_lost.edit":
        "# nothing is kept\nrefused: inner::kept\nfile: crates/toy/src/inner.rt\nold: x < 3\nnew: x < 4\n",
    "must-fail/toy/lot_lost.edit":
        "# no lot is read\nrefused: host::toy_read\nfile: crates/toy/src/host.rt\nold: read(lot)\nnew: read(none)\n",
    KIT_EDIT: "# the mean is two too large\nrefused: Laws\nfile: src/lib.rt\nold: { 1 }\nnew: { 3 }\n",
}

# A fault: the rule that sees it, the file that it is in, and what is put there in the place of what.
MEAN, FIRST = "    ensures count {", "pub fn first(self) -> u8\n        ensures {"
ENSURES = TREE[LIB][TREE[LIB].index(MEAN):TREE[LIB].index("{\n    if n ==")]
MEAN_ROW = "| `toy::toy_mean` | `Sums`, in toy/specs | it is the mean | toy/one_more, toy/two_more |\n"
INNER_HEAD = "\n| function | requires | promise | must-fail edits |\n|---|---|---|---|\n"
FAULTS = {
    "promises_are_made": {
        "a_function": (INNER, "    ensures { result ≡ x }\n", ""),
        "a_method": (LIB, "        ensures { result ≡ total {x = length self.0} }\n", ""),
        "in_a_comment": (INNER, "    ensures {", "    // ensures {"),
        "an_export": (LIB, ENSURES, ""),
    },
    "entries_ask_nothing": {
        "an_export": (LIB, MEAN, "    requires { n < 3 }\n" + MEAN),
        "a_method": (LIB, FIRST, FIRST.replace("ensures", "requires {\n 1 < 2 }\n        ensures")),
        "an_entry": (PROMISES, "\n\n| function", "\n| `toy::inner::kept` | | | toy/kept_lost |\n\n| function"),
    },
    "entries_exist": {
        "a_function": (PROMISES, "\n\n| function", "\n| `toy::total` | | | |\n\n| function"),
        "a_private_function": (PROMISES, "\n\n| function", "\n| `toy::own` | | | |\n\n| function"),
        "an_inner_function": (PROMISES, "\n\n| other", "\n| `toy::law` | | | |\n\n| other"),
    },
    "public_functions_are_listed": {
        "an_entry": (PROMISES, "| `toy::Pair::first` |", "| toy::Pair::first |"),
        "an_inner_function": (PROMISES, "| `toy::inner::kept` |", "| toy::inner::kept |"),
        "an_export_among_the_inner": (PROMISES, MEAN_ROW + INNER_HEAD, INNER_HEAD + MEAN_ROW),
        "a_new_function": (INNER, "pub(crate) fn quiet(x: u8) -> u8 {", "pub fn quiet(x: u8) -> u8 ensures { result ≡ x } {"),
        "a_constant_function": (INNER, "pub(crate) fn quiet(x: u8) -> u8 {", "pub const fn quiet(x: u8) -> u8 ensures { result ≡ x } {"),
        "a_deep_module": ("crates/toy/src/a/mod.rt", None, "pub fn deep() ensures { 1 ≡ 1 } {}\n"),
    },
    "promises_are_guarded": {
        "an_edit_that_falls_elsewhere": ("must-fail/toy/second_for_first.edit", "refused: Pair::first", "refused: own"),
        "an_edit_of_another_module": ("must-fail/toy/kept_lost.edit", "refused: inner::kept", "refused: kept"),
        "a_row_that_names_other_edits": (PROMISES, "| toy/kept_lost |\n", "| toy/one_more |\n\ntoy/kept_lost\n"),
    },
    "exports_are_declared": {
        "nothing_declared": (HEADER, TREE[HEADER][TREE[HEADER].index("uint8_t toy_mean"):], ""),
        "an_export_in_a_comment": (HEADER, "uint8_t toy_mean(const uint8_t *x, size_t n);", "/* toy_mean(x, n) */"),
        "a_name_that_is_not_exported": (HEADER, "uint8_t toy_mean(", "uint8_t toy_none(void);\nuint8_t toy_mean("),
        "another_answer": (HEADER, "uint8_t toy_mean(", "int32_t toy_mean("),
        "another_parameter": (HEADER, "size_t n)", "int32_t n)"),
        "another_name": (HEADER, "(const uint8_t *x,", "(const uint8_t *y,"),
        "a_size_that_is_missing": (HEADER, "*bytes, size_t size,", "*bytes,"),
        "what_is_lent_to_be_read": (HEADER, "const uint8_t *bytes", "uint8_t *bytes"),
        "what_is_lent_to_be_written": (LIB, "&[u8; 4], n", "&mut [u8; 4], n"),
        "a_type_of_another_name": (HOST, "-> HostRead", "-> Read"),
        "a_type_with_more_to_it": (HOST, "-> HostRead", "-> HostRead<u8>"),
        "slices_exchanged": (HOST, "bytes: &[u8], out: &mut [u8]", "out: &mut [u8], bytes: &[u8]"),
    },
    "structs_are_laid_out_alike": {
        "a_width": (HOST, "pub refusal: u32", "pub refusal: i64"),
        "a_sign": (HOST, "pub refusal: u32", "pub refusal: i32"),
        "fields_exchanged": (HOST, "    pub lower: i32,\n    pub upper: i32,\n", "    pub upper: i32,\n    pub lower: i32,\n"),
        "fields_exchanged_in_the_header": (HEADER, "limits_lower;\n    int32_t limits_upper;", "limits_upper;\n    int32_t limits_lower;"),
        "a_field_more": (HOST, "    pub second: i32,\n", "    pub second: i32,\n    pub third: i32,\n"),
        "a_place_more": (HEADER, "#define TULPAVICE_MOST 2", "#define TULPAVICE_MOST 4"),
        "not_as_c_has_it": (HOST, "#[repr(C)]\npub struct HostRead", "pub struct HostRead"),
        "aligned_otherwise": (HOST, "#[repr(C)]\npub struct HostRead", "#[repr(align(16))]\n#[repr(C)]\npub struct HostRead"),
        "a_field_of_another_type": (HOST, "pub lot: HostLot", "pub lot: Lot"),
        "two_of_one_name": (INNER, "// Inner:", "#[repr(C)]\npub struct HostRead {\n    pub refusal: u32,\n    pub lot: HostLot,\n}\n\n// Inner:"),
        "a_header_that_is_left_out": (HEADER, "struct tulpavice_read {", "#if 0\n#endif\nstruct tulpavice_read {"),
        "another_meaning_for_a_type": (HEADER, "#define TULPAVICE_MOST 2", "#define TULPAVICE_MOST 2\n#define double float"),
        "a_call_of_another_kind": (HEADER, "uint8_t toy_mean(", "__attribute__((ms_abi)) uint8_t toy_mean("),
        "places_that_are_left_out": (LAYOUT, "SIZE(read, 40);", "#if 0\nSIZE(read, 40);\n#endif"),
        "places_that_are_not_asserted": (LAYOUT, "SIZE(read, 40);", "#define SIZE(name, bytes)\nSIZE(read, 40);"),
        "another_size": (LAYOUT, "SIZE(read, 40)", "SIZE(read, 36)"),
        "another_place": (LAYOUT, "AT(lot, total, 16)", "AT(lot, total, 12)"),
        "a_place_that_is_not_said": (LAYOUT, "AT(read, lot, 8);\n", ""),
        "a_struct_that_is_not_there": (LAYOUT, "SIZE(read, 40);", "SIZE(read, 40);\nSIZE(row, 8);"),
        "no_layout": (LAYOUT, TREE[LAYOUT], None),
    },
    "symbols_mean_the_librarys": {
        "a_declaration": (SPEC, "what? :", "abbrev pub length : ℕ → ℕ\nwhat? :"),
        "an_operator": (SPEC, "what? :", "◌≡◌ {ℓ} : Type ℓ\nwhat? :"),
        "an_escaped_name": (SPEC, "what? :", "«replicate» : ℕ → ℕ\nwhat? :"),
        "in_a_section": (PROOF, "  pub law :", "  ◌<◌ : ℕ → ℕ → Type 0\n  pub law :"),
        "a_parameter": (PROOF, "(n : ℕ)", "(◌<◌ n : ℕ)"),
        "what_a_contract_has_anyway": (SPEC, "what? :", "pub ◌×◌ : Type 0 → Type 0\nwhat? :"),
        "what_nothing_brings": (SPEC, "what? :", "pub ◌≥◌ : ℕ → ℕ → Type 0\nwhat? :"),
        "a_type": (SPEC, "pub record Sums", "pub record ℕ : Type 0 where\n  pub U : ℕ\n\npub record Sums"),
        "a_data_type": (SPEC, "pub record Sums", "pub data Sums : Type 0 where\n\npub data List"),
        "renamed": (SPEC, "get_or as at", "get_or as at, take as replicate"),
        "renamed_from_ours": (PROOF, "{total}", "{total, total as ◌+◌}"),
        "from_ours": (PROOF, "{total}", "{total, replicate}"),
        "from_below_ours": (PROOF, "Sum.{total}", "{Sum.total, Sum.length}"),
        "from_a_likeness": (SPEC, "use Rattle.std.specs.Prelude", "use libs.ListN.{length}\nuse Rattle.std.specs.Prelude"),
        "from_a_likeness_of_the_kits": (SPEC, "use Rattle.std.specs.Prelude", "use Rattle.stds.specs.Prelude.{length}\nuse Rattle.std.specs.Prelude"),
        "ghost_renamed": (LIB, "    ◌+◌,", "    ◌+◌,\n    ◌*◌ as ◌<◌,"),
        "ghost_from_ours": (LIB, "Sum.{total}", "Sum.{\n    total,\n    length,\n}"),
        "a_module_as_the_library": (SPEC, "specs.Other as T", "specs.Other as mathlib"),
        "a_module_named_as_the_library": (SPEC, "specs.Other as T", "specs.lib"),
        "a_child_named_as_the_library": (SPEC, "use Rattle.toy.specs.Other as T", "pub mod lib"),
        "ghost_module": (LIB, "ghost use Rattle.std.specs.Float.Ieee as Ieee", "ghost use Rattle.toy as lib"),
    },
    "imports_are_used": {
        "a_name": (PROOF, "{total}", "{total, totals}"),
        "an_operator": (SPEC, "{ℕ, ◌+◌}", "{ℕ, ◌+◌, ◌*◌}"),
        "renamed": (SPEC, "get_or as at", "get_or as nth"),
        "a_module": (SPEC, "specs.Other as T", "specs.Other as other"),
        "ghost": (LIB, "    ◌+◌,", "    ◌+◌,\n    ◌*◌,"),
        "plain": (LIB, "quiet(self.0)", "self.0"),
        "plain_among_others": (LIB, ", Held)", ")"),
        "plain_under_another_name": (LIB, "    Held, Kept,", "    Held, Kept, Kept as Given,"),
        "a_trait_of_which_no_method_is_called": (LIB, "use inner::quiet;", "use inner::quiet;\nuse std::io::Write;"),
        "plain_but_for_a_contract": (LIB, "use inner::quiet;", "use inner::quiet;\nuse inner::total;"),
    },
    "no_hole_is_left": {
        "a_hole": (PROOF, "in refl", "in ?"),
        "a_named_hole": (PROOF, "in refl", "in f (?here)"),
        "a_probe": (PROOF, "in refl", "in {! refl !}"),
        "in_a_definition": (SPEC, "total [] = 0", "total [] = ?0"),
    },
    "edits_can_be_planted": {
        "no_comment": (EDIT, "# the mean is one too large\n", ""),
        "an_empty_comment": (EDIT, "# the mean is one too large\n", "#\n"),
        "a_comment_at_the_end": (EDIT, TREE[EDIT], TREE[EDIT].split("\n", 1)[1] + TREE[EDIT].split("\n", 1)[0]),
        "no_proof_that_refuses_it": (LESS, "refused: toy_mean\n", ""),
        "a_proof_and_nothing_else": (LESS, "src/lib.rt\nold: { 1 }\nnew: { 0 }", "proofs/Laws.antt\nold: = 3\nnew: = 4"),
        "a_test": (LESS, "crates/toy/src/lib.rt\nold: { 1 }\nnew: { 0 }", "docs/PROMISES.md\nold: # Promises\nnew: # Promise"),
        "a_way_out": (LESS, "crates/toy/src", "crates/toy/src/../src"),
        "a_file_that_is_not_there": (LESS, "src/lib.rt", "src/none.rt"),
        "an_old_text_that_is_not_there": (EDIT, "old: { 1 }", "old: { 7 }"),
        "an_old_text_that_is_there_twice": (EDIT, "old: { 1 }", "old: pub fn"),
        "no_replacement": (EDIT, "old: { 1 }\nnew: { 2 }\n", ""),
    },
    "edits_differ": {
        "the_same_text": (EDIT, "new: { 2 }", "new: { 0 }"),
        "the_same_change": (EDIT, "old: { 1 }\nnew: { 2 }", "old: as usize { 1 }\nnew: as usize { 0 }"),
        "as_the_kit_has_it": (EDIT, "new: { 2 }", "new: { 3 }"),
        "one_name": ("must-not-compile/toy/one_less.edit", None, TREE[LESS].replace("{ 0 }", "{ 4 }")),
    },
    "edits_are_listed": {
        "an_edit_that_is_not_listed": (PROMISES, "toy/one_less, ", ""),
        "another_crate": (PROMISES, "toy/one_less", "joy/one_less"),
        "a_longer_label": (PROMISES, "toy/one_less, ", "toy/one_less.edit, "),
        "a_new_edit": ("must-fail/toy/one_fewer.edit", None, TREE[LESS].replace("{ 0 }", "{ 4 }")),
        "an_edit_of_the_kits": (PROMISES, ", toy/two_more", ""),
        "a_mixing_of_kinds": ("must-not-compile/toy/mean_for_row.edit", None, TREE[LESS].replace("{ 0 }", "{ 4 }")),
        "an_edit_that_is_deleted": (LESS, TREE[LESS], None),
        "an_edit_of_the_kits_that_is_deleted": (KIT_EDIT, TREE[KIT_EDIT], None),
    },
    "named_things_are_there": {
        "a_law": (PROMISES, "`law`, Laws.antt", "`laws`, Laws.antt"),
        "a_definition": (PROMISES, "`total`", "`sub-total`"),
        "a_type": (PROMISES, "`Sums`", "`Sum-of`"),
        "a_file": (PROMISES, "Laws.antt", "Lows.antt"),
        "a_file_with_its_folder": (PROMISES, "toy/specs/Sum.antt", "toy/proofs/Sum.antt"),
        "a_quoted_file": (PROMISES, "`inner.rt`", "`outer.rt`"),
        "a_law_of_the_readmes": (README, "the law `law`", "the law `low`"),
        "a_function_of_the_readmes": (README, "`Pair::first`", "`Pair::third`"),
        "a_folder_of_the_readmes": (README, "`crates/toy`", "`crates/boy`"),
        "a_law_of_another_page": ("docs/LAWS.md", None, "# Laws\n\n`law` and `low`.\n"),
        "a_link_of_the_readmes": (README, "(docs/PROMISES.md)", "(docs/PROMISE.md)"),
    },
    "house_is_drawn": {
        "no_drawing": (HOUSE, TREE[HOUSE], None),
        "a_crate_more": (CRATES, "toy: ground\n", "toy: ground\nroof: toy\n"),
        "a_crate_that_stands_on_nothing": (CRATES, "toy: ground", "toy:"),
        "another_name": (HOUSE, ">toy<", ">boy<"),
    },
}

# The rules that see no other rule's fault; what a fault brings is seldom used, so one does.
SHARP = [each for each in FAULTS if each != "imports_are_used"]


class Faults(unittest.TestCase):
    """A small tree with a fault: one rule complains, and no other."""

    def complaining(self, tree):
        """The names of the rules that complain of a tree."""
        with tempfile.TemporaryDirectory() as folder:
            root = Path(folder).resolve()
            for name, text in tree.items():
                (root / name).parent.mkdir(parents=True, exist_ok=True)
                (root / name).write_text(text, "utf-8")
            return [rule.__name__ for rule in audit.RULES if rule(root)]

    def test_none(self):
        self.assertEqual(self.complaining(TREE), [])

    def test_every_rule_has_a_fault(self):
        self.assertEqual(sorted(FAULTS), sorted(rule.__name__ for rule in audit.RULES))

    def test_no_promises(self):
        self.assertIn("entries_exist", self.complaining({**TREE, PROMISES: "# Promises\n"}))


def sees(rule, name, old, new):
    def test(self):
        tree = dict(TREE)
        if old is not None:
            self.assertEqual(tree[name].count(old), 1)
        tree[name] = new if old is None else tree[name].replace(old, new or "")
        if new is None:
            del tree[name]
        complaining = [each for each in self.complaining(tree) if each in (rule, *SHARP)]
        self.assertEqual(complaining, [rule])
    return test


for each, faults in FAULTS.items():
    for label, fault in faults.items():
        setattr(Faults, f"test_{each}_{label}", sees(each, *fault))

if __name__ == "__main__":
    unittest.main()
