# tests/edits/run says what this asks. Everything is read and written from the top of the tree.
import pathlib
import re
import shutil
import subprocess
import sys
import tempfile

LOGS = pathlib.Path("target/tests/edits")


class Edit:
    """An edit of must-fail/: the pairs (file, old, new), and its lines 'refused', as (how, where, name)."""

    def __init__(self, path):
        self.path, self.crate = path, path.parts[1]
        self.pairs, self.wanted = [], []
        file = old = None
        for line in path.read_text().split("\n"):
            said = re.match(r"# refused (in|at): (\S+) ?(\S*)", line)
            if said:
                self.wanted.append(said.groups())
            elif line.startswith("file: "):
                file = line[len("file: ") :].strip()
            elif line.startswith("old: "):
                old = line[len("old: ") :]
            elif line.startswith("new:"):
                new = line[len("new:") :]
                self.pairs.append((file, old, new[1:] if new.startswith(" ") else new))


class Copy:
    """A copy of the crates, without what was made of them."""

    def __init__(self, room):
        self.room = pathlib.Path(room)
        shutil.copytree("crates", self.room / "crates", ignore=lambda at, names: {"out"} & set(names) if at.count("/") == 1 else set())
        shutil.copy("crates.txt", self.room)

    def tried(self, edit):
        """What the prover says of the crate with this edit; its log has it. The copy is as before then."""
        folder, log = self.room / "crates" / edit.crate, LOGS / edit.crate / f"{edit.path.stem}.log"
        was = {file: (folder / file).read_text() for file, _, _ in edit.pairs}
        for file, old, new in edit.pairs:
            text = (folder / file).read_text()
            (folder / file).write_text(text.replace(old, new, 1))
        ran = subprocess.run(["rt", "check"], cwd=folder, stdin=subprocess.DEVNULL, stdout=subprocess.PIPE, stderr=subprocess.STDOUT, errors="replace")
        for file, text in was.items():
            (folder / file).write_text(text)
        log.parent.mkdir(parents=True, exist_ok=True)
        log.write_text(ran.stdout)
        return ran.stdout


# An answer that names what is gone says nothing of what is promised.
GONE = re.compile(r"is not in scope|has no `|has no field|was not admitted")


def refusals(crate, log):
    """What the prover refuses, as (how, where, name): goals of functions, and declarations of files of proofs/."""
    found, open_goals = set(), []
    for line in log.split("\n"):
        error = re.match(r"(?:\./)?(proofs/\S+\.antt):\d+:\d+: error: `([^`]+)`: (.*)", line)
        hole = re.match(r"note: `([^`]+)` of (proofs/\S+\.antt) must prove: ", line)
        unproved = re.match(r"note: src/\S+: it is not proved that .*\(`([^`]+)`\)", line)
        function = re.match(r"fn (\S+): (.*)", line)
        if error and not GONE.search(error[3]):
            found |= declared(crate, error[1], error[2])
        elif hole:
            found |= declared(crate, hole[2], hole[1])
        elif unproved:
            # The function is named by its line, which comes after those of its goals.
            open_goals.append(unproved[1])
        elif function:
            listed = re.search(r"`search` did not prove ([^;]*)", function[2])
            open_goals += re.findall(r"`([^`]+)`", listed[1]) if listed else []
            found |= {("in", function[1], goal) for goal in open_goals}
            open_goals = []
    return found


def declared(crate, path, name):
    """A declaration of a file of proofs/; where the file is a function's, it is an answer to a goal of it."""
    *folders, _ = pathlib.PurePath(path).parts[1:]
    inside = {("in", "::".join([crate, *(it.lstrip("+") for it in folders)]), name)} if folders else set()
    return {("at", path, name)} | inside


def is_met(line, found):
    how, where, name = line
    return any((how, where) == it[:2] and name in ("", it[2]) for it in found)


def count(copy):
    passed = failed = 0
    for edit in map(Edit, sorted(pathlib.Path("crates").glob("*/must-fail/*.edit"))):
        if edit.wanted:
            found = refusals(edit.crate, copy.tried(edit))
            left = [line for line in edit.wanted if not is_met(line, found)]
            for line in left:
                print(f"{edit.path}: not refused {' '.join(line).strip()}", flush=True)
            passed, failed = passed + len(edit.wanted) - len(left), failed + len(left)
    print(f"{passed} passed, {failed} failed")
    return 0 if passed and not failed else 1


def show(copy, paths):
    for edit in map(Edit, map(pathlib.Path, paths)):
        print(f"== {edit.path}")
        for how, where, name in sorted(refusals(edit.crate, copy.tried(edit))):
            # An answer to a function's goal is told by the function.
            if how == "in" or where.count("/") == 1:
                print(f"# refused {how}: {where} {name}", flush=True)
    return 0


with tempfile.TemporaryDirectory(prefix="edits-") as room:
    if sys.argv[1:2] == ["--print"]:
        sys.exit(show(Copy(room), sys.argv[2:]))
    sys.exit(count(Copy(room)))
