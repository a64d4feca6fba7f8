"""What the README says of calling the library from C and from Python is so; the header is C and C++, and is held to its layout; and both forms of the
library hold the header's names and no other."""
import platform
import re
import shutil
import subprocess
import sys
import tempfile
import textwrap
import unittest
from pathlib import Path

from building import ROOT, make, running

README = (ROOT / "README.md").read_text("utf-8")
EXAMPLE = ROOT / "target/example"


def fenced(language, holding):
    """The README's one example in a language that holds some words."""
    (found,) = [text for text in re.findall(rf"^```{language}\n(.*?)^```", README, re.M | re.S) if holding in text]
    return found


def listed(start):
    """The README's one text within a list that starts so."""
    (found,) = [text for text in re.findall(r"^  ```text\n(.*?)^  ```", README, re.M | re.S) if text.startswith(f"  {start}")]
    return textwrap.dedent(found)


PRINTED = fenced("text", "refusal 0")
# what the two examples in C are known by
VOIDS, EDITIONS = "int32_t voids[]", "tulpavice_store("


def ran(command):
    return subprocess.run(command, cwd=ROOT, stdin=subprocess.DEVNULL, capture_output=True, text=True)


class Library(unittest.TestCase):
    def from_c(self, name, text, printed):
        """A program of that text is built as the README says, and prints this."""
        EXAMPLE.mkdir(parents=True, exist_ok=True)
        (EXAMPLE / f"{name}.c").write_text(text)
        make("HOST=target/example", "HOSTS=target/example", f"target/example/{name}")
        *words, _ = running("target/host/answers")
        shown = ran([*words, f"target/example/{name}"])
        self.assertEqual((shown.stdout, shown.returncode), (printed, 0), shown.stderr)

    def test_from_c(self):
        self.from_c("voids", fenced("c", VOIDS), PRINTED)

    def test_editions_from_c(self):
        self.from_c("editions", fenced("c", EDITIONS), fenced("text", "edition 1, "))

    @unittest.skipUnless(platform.machine() == "x86_64", "the library can be loaded on x86-64 alone")
    def test_from_python(self):
        make("lib")
        shown = ran([sys.executable, "-c", fenced("python", "ctypes")])
        self.assertEqual((shown.stdout, shown.returncode), (PRINTED, 0), shown.stderr)

    def test_readme_shows_what_make_run_prints(self):
        shown = ran(["make", "--no-print-directory", "run"])
        self.assertEqual(shown.returncode, 0, shown.stderr)
        self.assertIn(f"```text\n{shown.stdout}```\n", README)

    def test_readme_shows_a_lot_that_the_notebook_answers(self):
        running("target/host/notebook")
        (command,), (answer,) = re.findall(r"`(echo [^`]*)`", README), re.findall(r"`(line [^`]*)`", README)
        shown = ran(["sh", "-c", command])
        self.assertEqual((shown.stdout, shown.stderr, shown.returncode), (f"{answer}\n", "", 0))

    def test_readme_shows_a_job_that_the_notebook_cuts(self):
        running("target/host/notebook")
        (command,) = re.findall(r"`([^`]* --cut [^`]*)`", README)
        shown = ran(["sh", "-c", command])
        self.assertEqual((shown.stdout, shown.stderr, shown.returncode), (listed("lot "), "", 0))

    def test_readme_shows_a_sheet_that_the_notebook_checks(self):
        running("target/host/notebook")
        (command,) = re.findall(r"`([^`]* --check [^`]*)`", README)
        with tempfile.TemporaryDirectory() as folder:
            sheet = Path(folder, "sheet.txt")
            sheet.write_text(listed("vma "), "utf-8")
            shown = ran(["sh", "-c", command.replace(sheet.name, str(sheet))])
        self.assertEqual((shown.stdout, shown.stderr, shown.returncode), (listed("The sheet "), "", 1))

    def test_nothing_is_asked_of_others(self):
        """It has no memory of its own, and calls nothing but what copies bytes: so it keeps and allocates nothing."""
        make("lib")
        listed = ran(["nm", "--format=posix", "target/lib/libtulpavice.a"]).stdout
        symbols = re.findall(r"^(\S+) ([A-Za-z])\b", listed, re.M)
        self.assertTrue(symbols)
        self.assertLessEqual({name for name, kind in symbols if kind == "U"}, {"memcpy", "memset", "memmove"})
        self.assertEqual({kind for _, kind in symbols if kind not in "UTtRr"}, set())

    def test_what_measures_it_is_built(self):
        make("target/bench/bench")

    def test_the_names_that_are_seen(self):
        make("lib")
        header = re.sub(r"/\*.*?\*/", "", (ROOT / "include/tulpavice.h").read_text("utf-8"), flags=re.S)
        declared = set(re.findall(r"\b(tulpavice_\w+)\(", header))
        for library, words in ("libtulpavice.a", ["--extern-only", "--defined-only"]), ("libtulpavice.so", ["--dynamic", "--defined-only"]):
            listed = ran(["nm", *words, "--format=posix", f"target/lib/{library}"])
            self.assertEqual(set(re.findall(r"^(\w+) [A-Za-z] ", listed.stdout, re.M)), declared, listed.stderr)


CALL = """#include "tulpavice.h"
#include "tulpavice.h"

int main(void)
{
    struct tulpavice_lot lot = {0, 0, 0, 0, 0, {0}};
    struct tulpavice_percentages p = tulpavice_evaluate_lot(0, 0, 0, lot);
    struct tulpavice_mean mean = tulpavice_mean(0, 0);
    const char *version = TULPAVICE_VERSION;
    return p.refusal.number == mean.refusal.number && *version ? 0 : 1;
}
"""


class Header(unittest.TestCase):
    def setUp(self):
        folder = tempfile.TemporaryDirectory()
        self.addCleanup(folder.cleanup)
        self.folder = Path(folder.name)

    def compiled(self, compiler, name, *words):
        """Compiles a file that calls the library."""
        (self.folder / name).write_text(CALL)
        return ran([*compiler, "-pedantic-errors", "-Wall", "-Wextra", "-Werror", "-Iinclude", *words, "-c", "-o", str(self.folder / "call.o"), str(self.folder / name)])

    def test_as_c(self):
        for standard in "c89", "c99", "c11":
            shown = self.compiled(make("print-CC").split(), "call.c", f"-std={standard}")
            self.assertEqual((shown.returncode, shown.stderr), (0, ""), standard)

    @unittest.skipUnless(shutil.which("g++"), "there is no compiler of C++ here")
    def test_as_cpp(self):
        """The names that it asks for are C's."""
        for standard in "c++98", "c++17":
            shown = self.compiled(["g++"], "call.cpp", f"-std={standard}")
            self.assertEqual((shown.returncode, shown.stderr), (0, ""), standard)
            asked = re.findall(r"^(\w+) U", ran(["nm", "--format=posix", str(self.folder / "call.o")]).stdout, re.M)
            self.assertEqual(sorted(name for name in asked if "tulpavice" in name), ["tulpavice_evaluate_lot", "tulpavice_mean"])

    def test_every_program_waits_for_the_layout(self):
        asked = ran(["make", "--dry-run", "--always-make", "--no-print-directory", "target/host/notebook.o", "target/host/answers.o"]).stdout
        self.assertLess(asked.index("hosts/layout.c"), min(asked.index(f"hosts/{name}.c") for name in ("notebook", "answers")))

    def test_another_layout_is_not_compiled(self):
        """No program is compiled before it is; with the header as it stands it is compiled."""
        *compile_, _ = make("print-COMPILE").replace("-Iinclude", f"-I{self.folder}").split()  # the last word is where make would put it
        header = (ROOT / "include/tulpavice.h").read_text("utf-8")

        def said(old, new):
            self.assertEqual(header.count(old), 1, old)
            (self.folder / "tulpavice.h").write_text(header.replace(old, new))
            shown = ran([*compile_, str(self.folder / "layout.o"), "hosts/layout.c"])
            return shown.stderr if shown.returncode else None

        self.assertEqual(said("#define TULPAVICE_MOST 17", "#define TULPAVICE_MOST 17"), None)
        structs = re.findall(r"^struct tulpavice_(\w+) \{$", header, re.M)
        self.assertEqual(len(structs), 14)
        for struct in structs:
            opening = f"struct tulpavice_{struct} {{\n"
            self.assertRegex(said(opening, f"{opening}    int64_t more;\n"), rf"the size of {struct}\b")
        self.assertIn("percentages.upper", said("int64_t upper;\n    int64_t lower;", "int64_t lower;\n    int64_t upper;"))
        self.assertIn("mean.total", said("    int32_t total;\n", "    int64_t total;\n"))
        self.assertIn("AT(payment, lot, 28)", said("    uint32_t lot;\n", ""))
        self.assertIn("the size of lot", said("#define TULPAVICE_MOST 17", "#define TULPAVICE_MOST 18"))
