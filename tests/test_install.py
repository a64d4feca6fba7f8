"""What `make install` installs, and that a program can be built over it."""
import os
import platform
import re
import shutil
import subprocess
import tempfile
import unittest
from pathlib import Path

from building import ROOT, make, running
from test_library import PRINTED, VOIDS, fenced

VERSION = re.search(r'TULPAVICE_VERSION "(.*)"', (ROOT / "include/tulpavice.h").read_text("utf-8"))[1]
MAJOR = VERSION.split(".")[0]
FILES = {
    "bin/tulpavice-notebook": 0o755,
    "include/tulpavice.h": 0o644,
    "lib/libtulpavice.a": 0o644,
    f"lib/libtulpavice.so.{VERSION}": 0o755,
    "lib/pkgconfig/tulpavice.pc": 0o644,
    "share/man/man1/tulpavice-notebook.1": 0o644,
}
LINKS = {f"lib/libtulpavice.so.{MAJOR}": f"libtulpavice.so.{VERSION}", "lib/libtulpavice.so": f"libtulpavice.so.{MAJOR}"}


def found(folder):
    """The files under a folder with their modes, and the links with what they lead to."""
    every = [path for path in folder.rglob("*") if path.is_symlink() or path.is_file()]
    return ({str(path.relative_to(folder)): path.stat().st_mode & 0o777 for path in every if not path.is_symlink()},
            {str(path.relative_to(folder)): os.readlink(path) for path in every if path.is_symlink()})


class Install(unittest.TestCase):
    @classmethod
    def setUpClass(cls):
        folder = tempfile.TemporaryDirectory()
        cls.addClassCleanup(folder.cleanup)
        cls.folder = Path(folder.name)
        cls.prefix = cls.folder / "prefix"
        make("install", f"PREFIX={cls.prefix}")

    def ran(self, words, **more):
        return subprocess.run(words, cwd=self.folder, stdin=subprocess.DEVNULL, capture_output=True, text=True, **more)

    def asked(self, *words):
        """What pkg-config says of the installed library."""
        said = self.ran(["pkg-config", *words, "tulpavice"], env=dict(os.environ, PKG_CONFIG_PATH=str(self.prefix / "lib/pkgconfig")))
        self.assertEqual((said.returncode, said.stderr), (0, ""))
        return said.stdout.split()

    def test_what_is_installed(self):
        self.assertEqual(found(self.prefix), (FILES, LINKS))
        for name in "include/tulpavice.h", "lib/libtulpavice.a":
            own = ROOT / ("target/" * name.startswith("lib/") + name)
            self.assertEqual((self.prefix / name).read_bytes(), own.read_bytes())

    def test_a_package_is_made_under_another_root(self):
        make("install", "PREFIX=/opt/own", "LIBDIR=/opt/own/lib", f"DESTDIR={self.folder}/the stage")
        self.assertEqual(found(self.folder / "the stage/opt/own"), (FILES, LINKS))
        for name in "lib/pkgconfig/tulpavice.pc", "share/man/man1/tulpavice-notebook.1":
            text = (self.folder / "the stage/opt/own" / name).read_text("utf-8")
            self.assertNotRegex(text, rf"{self.folder}|@\w+@")
            self.assertIn(VERSION, text)

    def test_the_notebook_runs(self):
        *words, program = running("target/host/notebook")
        here, there = (self.ran([*words, str(name)]) for name in (ROOT / program, self.prefix / "bin/tulpavice-notebook"))
        self.assertEqual((there.stdout, there.stderr, there.returncode), (here.stdout, "", 0))
        self.assertIn("PWL", there.stdout)

    def test_the_shared_library_is_asked_for_by_its_first_number(self):
        said = self.ran(["readelf", "--dynamic", str(self.prefix / "lib/libtulpavice.so")])
        self.assertIn(f"soname: [libtulpavice.so.{MAJOR}]", said.stdout)

    @unittest.skipUnless(shutil.which("pkg-config"), "there is no pkg-config here")
    def test_a_program_is_built_by_pkg_config(self):
        """The README's first example, by what pkg-config says alone: the header and the library are found nowhere else."""
        self.assertEqual(self.asked("--modversion"), [VERSION])
        (self.folder / "voids.c").write_text(fenced("c", VOIDS))
        *words, _ = running("target/host/notebook")
        loaded = str(self.prefix / "lib")
        if platform.machine() == "x86_64":
            built = self.ran([*make("print-CC").split(), "-o", "voids", "voids.c", *self.asked("--cflags", "--libs")])
        else:
            built = self.ran([*make("print-CC").split(), "-c", "voids.c", *self.asked("--cflags")])
            self.assertEqual((built.returncode, built.stderr), (0, ""))
            # the kit's own linker takes no -L and -l, and the one below it does, as gcc's would
            tools = make("print-TOOLS").strip()
            built = self.ran([f"{tools}/bin/ld.lld", "-pie", "--dynamic-linker=/lib64/ld-linux-x86-64.so.2", "-o", "voids",
                              *(f"{tools}/lib/{name}" for name in ("Scrt1.o", "crti.o", "crtbeginS.o")), "voids.o", *self.asked("--libs"),
                              *(f"{tools}/lib/{name}" for name in ("libc.so.6", "libc_nonshared.a", "crtendS.o", "crtn.o"))])
            words = [word.replace(f"{tools}/lib", f"{tools}/lib:{loaded}") if word == f"{tools}/lib" else word for word in words]
        self.assertEqual(built.returncode, 0, built.stderr)
        self.assertIn(f"[libtulpavice.so.{MAJOR}]", self.ran(["readelf", "--dynamic", "voids"]).stdout)
        shown = self.ran([*words, "./voids"], env=dict(os.environ, LD_LIBRARY_PATH=loaded))
        self.assertEqual((shown.stdout, shown.stderr, shown.returncode), (PRINTED, "", 0))

    @unittest.skipUnless(shutil.which("groff"), "there is no groff here")
    def test_the_manual_page_is_laid_out(self):
        page = self.ran(["groff", "-man", "-Tascii", "-ww", "-P-c", str(self.prefix / "share/man/man1/tulpavice-notebook.1")])
        self.assertEqual((page.returncode, page.stderr), (0, ""))
        self.assertIn(f"Tulpavice {VERSION}", page.stdout)


if __name__ == "__main__":
    unittest.main()
