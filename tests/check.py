"""The edit loop: `python3 tests/check.py [REVISION]` audits the tree, proves what changed and what stands on it, runs the programs, and tries the edits
of what differs from a revision, from the last commit where none is named. The verdict is the gate's."""
import re
import subprocess
import sys

import audit
import planted
from edits import OWN_PROOF, every_edit

ROOT = planted.ROOT


def differing(base, root=ROOT):
    """The files that differ from a revision, and those that git does not have yet."""
    asked = ["git", "diff", "--name-only", "--no-renames", base, "--"], ["git", "ls-files", "--others", "--exclude-standard"]
    return {name for words in asked
            for name in subprocess.run(words, cwd=root, check=True, capture_output=True, text=True).stdout.splitlines()}


def concerned(edit, changed, root=ROOT):
    """Whether some changed files have to do with an edit: its own, one that it edits, a proof that must refuse it, or code of its crate."""
    ends = ".antt", *(f"/{name}.antt" for name in OWN_PROOF)
    proofs = {f"crates/{edit.crate}/proofs/{name.replace('::', '/')}{end}" for name in edit.refused.split() for end in ends}
    own = {str(edit.file.relative_to(root)), *(change.path for change in edit.changes)} | proofs
    return any(name in own or name.startswith(f"crates/{edit.crate}/src/") for name in changed)


def proved():
    """Proves what is not proved yet over what earlier checks kept, looks at the layout and runs the programs: a line for each crate, and all that is said
    where something fails."""
    words = ["rt", "all", "test", "--jobs", str(planted.WORKERS)]
    with subprocess.Popen(words, cwd=ROOT, stdin=subprocess.DEVNULL, stdout=subprocess.PIPE, stderr=subprocess.STDOUT, text=True) as child:
        said = []
        for line in child.stdout:
            said.append(line)
            if re.match(r"== |fn \S+: (?:no|not|could)\b|\w+: (?:ok$|failed|not run)|\d+ of \d+ crates ok", line):
                print(line, end="", flush=True)
    if child.returncode:
        print("".join(said), end="")
    return child.returncode == 0


def main():
    changed = differing(*(sys.argv[1:] or ["HEAD"]))
    complaints = [f"{rule.__name__}: {text}" for rule in audit.RULES for text in rule(ROOT)]
    print("\n".join(complaints or ["the audit has no complaint"]), flush=True)
    good = proved() and not complaints
    edits = [edit for edit in every_edit(ROOT) if concerned(edit, changed)]
    print(f"{len(edits)} edits have to do with what changed", flush=True)
    good = (not edits or planted.shown(edits)[1] == 0) and good
    sys.exit(not good)


if __name__ == "__main__":
    main()
