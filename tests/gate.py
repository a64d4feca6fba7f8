"""The gate: `rt ci`, every edit that must be refused, and the tests of this folder. The last line is `N passed, M failed`.

`gate.py tests FOLDER` runs the tests of one folder. What needs nothing proved (tests/own) runs beside the proofs, and the tests of what is proved
beside the edits, so that no core is idle for long; what runs beside is printed when it has ended.
"""
import io
import os
import re
import subprocess
import sys
import tempfile
import time
import traceback
import unittest
from pathlib import Path

ROOT = Path(__file__).resolve().parent.parent
TALLY = re.compile(r"(\d+) passed, (\d+) failed")
# Tests that may be skipped, where a machine or a checkout lacks what they need; any other that is skipped fails.
MAY_BE_SKIPPED = {
    "test_install.Install.test_a_program_is_built_by_pkg_config",  # not every machine has pkg-config, groff and g++
    "test_install.Install.test_the_manual_page_is_laid_out",
    "test_library.Header.test_as_cpp",
    "test_library.Library.test_from_python",  # the library can be loaded on x86-64 alone
    "test_notebook.Example.test_readings_are_those_of_document_000",  # the papers do not always lie beside a checkout
    "test_notebook.Usage.test_answers_that_cannot_be_written",  # not every system has a full device
    "test_table.Table.test_corrections_are_those_of_document_02",
    "test_table.Table.test_data_is_document_004_corrected",
}
# Where time goes; a step says of a part of its work `spent KIND: N s`.
KINDS = "proving for the edits", "edits of code", "edits of definitions", "comparison", "the rest"
# `rt ci` passes though it cannot apply or read an edit, and says how many those are: nothing was tried of what they are there for.
BAD_EDITS = re.compile(r"^rt: (?:note: bad must-fail edits, as told above: (?=\d+\.)|ok;.*, (?=\d+ bad;))(\d+)", re.M)


class Step:
    """A command that is begun, and counted when it has ended. `beside` others it is printed at the end."""

    def __init__(self, *words, beside=False):
        self.words, self.lines, self.began, self.seconds = words, [], time.monotonic(), 0
        self.kept = tempfile.TemporaryFile("w+", encoding="utf-8", errors="replace") if beside else None
        env = dict(os.environ, PYTHONUTF8="1", PYTHONDONTWRITEBYTECODE="1")
        try:
            self.child = subprocess.Popen(words, cwd=ROOT, env=env, stdin=subprocess.DEVNULL, stdout=self.kept or subprocess.PIPE,
                                          stderr=subprocess.STDOUT, encoding="utf-8", errors="replace")
        except OSError as error:
            self.child, self.kept = None, io.StringIO(f"gate: {error}\n")

    def ended(self):
        """Passes on what the command writes, and waits for its end: its exit status."""
        print("gate:", *self.words, flush=True)
        if self.child and self.kept:
            self.child.wait()
            self.kept.seek(0)
        for line in self.kept or self.child.stdout:
            sys.stdout.write(line)
            sys.stdout.flush()
            self.lines.append(line)
        status = self.child.wait() if self.child else 127
        self.seconds = time.monotonic() - self.began
        return status

    def many(self):
        """The command ends in a tally. A bad exit or no tally is a failure, whatever was counted; so is each edit that `rt ci` calls bad."""
        status = self.ended()
        tally = TALLY.fullmatch(self.lines[-1].strip()) if self.lines else None
        passed, failed = map(int, tally.groups()) if tally else (0, 1)
        bad = max(map(int, BAD_EDITS.findall("".join(self.lines))), default=0)
        if bad:
            print(f"gate: {bad} edits are bad, and count as failures")
        return passed, failed + bad if status == 0 else max(failed + bad, 1)


def spent(lines):
    """The seconds that some lines name, by what they went to."""
    said = "".join(lines)
    return {kind: sum(map(int, re.findall(rf"^spent {kind}: (\d+) s$", said, re.M))) for kind in KINDS}


class Result(unittest.TextTestResult):
    """A test passes where all of it passes; one with several parts that fail is one that fails, and so is one that is skipped without leave."""

    def __init__(self, *words):
        super().__init__(*words)
        self.passed, self.began, self.compared = 0, 0, 0

    def startTest(self, test):
        super().startTest(test)
        self.began = time.monotonic()

    def stopTest(self, test):
        super().stopTest(test)
        if test.id().startswith("test_second."):
            self.compared += time.monotonic() - self.began

    def addSuccess(self, test):
        super().addSuccess(test)
        self.passed += 1

    def counts(self):
        skipped = {test.id() for test, _ in self.skipped} - MAY_BE_SKIPPED
        expected = {test.id() for test, _ in self.expectedFailures}
        for test in sorted(skipped | expected):
            print(f"gate: {test} is skipped, or expected to fail, and is not one that may be")
        bad = {getattr(test, "test_case", test).id() for test, _ in self.failures + self.errors}
        return self.passed, len(bad | skipped | expected | {test.id() for test in self.unexpectedSuccesses})


def run(suite, stream=sys.stdout):
    """Runs a suite; one without a test fails."""
    if not suite.countTestCases():
        print("gate: no test was found")
        return 0, 1
    began = time.monotonic()
    result = unittest.TextTestRunner(stream, verbosity=2, resultclass=Result).run(suite)
    seconds = time.monotonic() - began
    print(f"spent comparison: {result.compared:.0f} s\nspent the rest: {seconds - result.compared:.0f} s")
    return result.counts()


def tests(folder):
    """Runs the test_*.py of a folder. A file that cannot be imported is a test that fails."""
    sys.path.insert(0, str(ROOT / "tests"))
    return run(unittest.TestLoader().discover(str(ROOT / folder), "test_*.py"))


def gate():
    """Every step, each run whatever became of those before it; their sum goes to target/tally, which says until then that nothing passed."""
    began, python, steps, counts = time.monotonic(), (sys.executable, "-u"), [], []
    (ROOT / "target").mkdir(exist_ok=True)
    (ROOT / "target/tally").write_text("0 passed, 1 failed\n")
    for words, others in (
        # what is beside the proofs takes the core that they leave idle
        (("rt", "ci"), ("nice", *python, __file__, "tests", "tests/own")),
        # the tests have a process of their own, since code that they load may end it
        ((*python, "tests/planted.py"), (*python, __file__, "tests", "tests")),
    ):
        pair = Step(*words), Step(*others, beside=True)
        counts += [step.many() for step in pair]
        steps += pair
    passed, failed = map(sum, zip(*counts))
    (ROOT / "target/tally").write_text(f"{passed} passed, {failed} failed\n")
    print("\ngate: where the time went, in seconds, two or three side by side")
    for kind, seconds in {"rt ci": steps[0].seconds, **spent(line for step in steps for line in step.lines)}.items():
        print(f"  {kind:22} {seconds:5.0f}")
    print(f"  {'on the clock':22} {time.monotonic() - began:5.0f}\n")
    return passed, failed


if __name__ == "__main__":
    try:
        passed, failed = tests(sys.argv[2]) if sys.argv[1:2] == ["tests"] else gate()
    except BaseException:
        traceback.print_exc(file=sys.stdout)
        passed, failed = 0, 1
    print(f"{passed} passed, {failed} failed", flush=True)
    sys.exit(failed != 0 or passed == 0)
