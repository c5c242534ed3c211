"""The prover on one crate, and what it said.

A check over an incremental folder takes from it what was checked before and
is still up to date. Here the folder is filled anew for each check, with the
modules that rt has proved and kept, and it is believed only where it refuses.
"""
import os
import re
import shutil
import subprocess
from dataclasses import dataclass
from pathlib import Path

ERROR = re.compile(r"(\S+?):(\d+):(\d+): error: (.*)")
GOAL = "it is not proved that "
LEFT = re.compile(rf"note: (\S+?):(\d+):(\d+): ({GOAL}.*)")
COUNT = re.compile(r"^crate \S+: modules loaded=(\d+) checked=(\d+)", re.M)
# What is said of declarations that only wait for another one.
WAITS = re.compile(r"\d+ declarations? that depends? on |.*was not admitted")
# A check that takes longer has come to nothing.
SECONDS = 900
# What is said of a name that the edit took away.
UNNAMED = re.compile("has no field|is not in scope|has no `")
# What is said of an edited text that is none.
UNREAD = re.compile("is not in scope|has no field|is no name|operand is missing|"
                    "expected the end|cannot continue")


def says_nothing(text):
    """Whether a message does not come to what it has to say. rt shows the
    first line, and cuts it: there may be no more than of which record or
    module the prover goes on to say that it does not have a name."""
    said = re.sub(r"`[^`]*(`|$)|\(nearest.*|[: ]", "", text)
    return "record".startswith(said) or "module".startswith(said)


@dataclass(frozen=True)
class Refusal:
    """A place that the prover does not admit for a reason of its own: one
    that only waits for another is none."""
    path: str
    line: int
    column: int
    text: str

    def __str__(self):
        return f"{self.path}:{self.line}:{self.column}"

    @property
    def unfit(self):
        """Whether only the proof file does not fit the code any more."""
        return (self.path.startswith("proofs/")
                and (UNNAMED.search(self.text) is not None
                     or says_nothing(self.text)))

    @property
    def unread(self):
        """Whether a contract or a definition could not be read at all."""
        said = re.sub("`[^`]*`", "", self.text)
        return (self.path.startswith(("src/", "specs/"))
                and not self.text.startswith(GOAL)
                and (not self.text.startswith("`")
                     or UNREAD.search(said) is not None))


@dataclass(frozen=True)
class Outcome:
    status: int
    text: str
    refusals: tuple

    @property
    def refused(self):
        return self.status == 1 and self.verdict.startswith("logic=not-proved")

    @property
    def verdict(self):
        lines = self.text.splitlines()
        return lines[-1] if lines else ""

    @property
    def unchecked(self):
        """Whether all was taken as it was checked before, and is proved."""
        counts = COUNT.search(self.text)
        return (self.status == 0 and self.verdict.startswith("logic=proved ")
                and counts is not None and int(counts[1]) > 0
                and int(counts[2]) == 0)


def messages(text):
    """The messages of a check's output, each on one line: the prover breaks a
    long one, and goes on behind two spaces."""
    found = [""]
    for line in text.splitlines():
        if line.startswith("  "):
            found[-1] += f" {line.strip()}"
        else:
            found.append(line)
    return found


def refusals(text):
    """The refusals of a check's output, in its order."""
    found = []
    for message in messages(text):
        said = ERROR.match(message) or LEFT.match(message)
        if said and not WAITS.match(said[4]):
            path = said[1].removeprefix("./")
            found.append(Refusal(path, int(said[2]), int(said[3]), said[4]))
    return tuple(found)


def outcome(status, text):
    return Outcome(status, text, refusals(text))


def link_or_copy(old, new):
    """A second name for a module: a check replaces such a file, and changes
    none. Of any other file a copy."""
    try:
        if old.endswith(".oantt"):
            return os.link(old, new)
    except OSError:
        pass
    return shutil.copy2(old, new)


class Prover:
    """The kit's prover over the libraries of a repository, as rt built
    them."""

    def __init__(self, kit, root):
        self.kit, self.root = Path(kit), Path(root)
        self.rattle = self.kit / "bin/rattle"
        self.static, self.uses = set(), {}
        self.read_list()

    def read_list(self):
        """crates.txt: what each crate stands on, and which are for C."""
        for line in (self.root / "crates.txt").read_text().splitlines():
            head, _, uses = line.partition("#")[0].partition(":")
            name, *kind = head.split() or [""]
            if name:
                self.uses[name] = uses.split()
            if "staticlib" in kind:
                self.static.add(name)

    def below(self, crate):
        """The crates of the repository that a crate stands on."""
        found = {}
        for name in self.uses.get(crate, []):
            if name in self.uses:
                found |= {**self.below(name), name: None}
        return found

    def out(self, crate):
        return self.root / "crates" / crate / "out"

    def words(self, crate, folder):
        """As rt has them."""
        yield from ("--crate-name", crate)
        yield "src/main.rt" if (folder / "src/main.rt").exists() else "src/lib.rt"
        for name in ["std"] + self.uses.get(crate, []):
            place = (self.out(name) / "rlib" if name in self.uses
                     else self.kit / "rlibs")
            yield from ("--extern", f"{name}={place}/{name}.rlib")
        yield from ("-L", f"dependency={self.kit}/rlibs")
        for name in self.below(crate):
            yield from ("-L", f"dependency={self.out(name)}/rlib")
        yield from ("--antt-project",
                    f"{self.kit}/rattle/logic/antt-project.json",
                    "--logic-built", f"{self.kit}/logic_built",
                    "--jobs", "1", "--links", f"{crate}=")
        if crate in self.static:
            yield from ("--crate-type", "staticlib")

    def check(self, crate, folder, incremental):
        """Checks a copy of the crate over an incremental folder."""
        done = subprocess.run(
            [self.rattle, "check", *self.words(crate, folder),
             "--incremental", incremental], cwd=folder,
            stdin=subprocess.DEVNULL, stdout=subprocess.PIPE,
            stderr=subprocess.STDOUT, check=False, timeout=SECONDS)
        return outcome(done.returncode, done.stdout.decode(errors="replace"))

    def copy(self, crate, room):
        """A room with a copy of the crate, and its proved modules beside
        it."""
        folder, incremental = room / "crate", room / "incremental"
        for part in ("src", "specs", "proofs"):
            place = self.root / "crates" / crate / part
            if place.is_dir():
                shutil.copytree(place, folder / part)
        shutil.copytree(self.out(crate) / "incremental", incremental,
                        copy_function=link_or_copy)
        return folder, incremental
