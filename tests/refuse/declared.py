"""The declarations of a crate without functions, and what each rests on.

A declaration rests on those whose names stand in its text, of its own file or
of one that the file names, directly or through others. Names that only look
alike are taken for uses, so that it may seem to rest on more than it does. A
field of a record needs no name of its own: whatever has the record's type
rests on the record.
"""
import re
from dataclasses import dataclass

MARKS = r"(?:unfoldable |abbrev |axiom |pub )*"
OPENS = re.compile(MARKS + r"(record|data|module) (\S+)")
SIGNED = re.compile(MARKS + r"([^\s=(][^=:(]*?) : ")
INNER = re.compile(r"^ +" + MARKS + r"([^\s=(][^=:(\n]*?) : ", re.M)
HEADER = re.compile(r"--|infix|(?:unfoldable )?(?:pub )?(?:use|mod) ")
RENAMED = re.compile(r"^[^-\n]*\buse [^\n]*\{[^}\n]* as ", re.M)
COMMENT = re.compile(r"--.*")
TOKEN = re.compile(r"[^\s(){}.,;]+")
NAMED = r"Rattle\.{}\.(specs|proofs)\.([\w.]+)"


class Unread(Exception):
    """A file with something that is not read here."""


@dataclass(frozen=True)
class Declaration:
    """Lines of a file, from 0 and past the last, the names that they declare
    and those that stand in them."""
    file: str
    first: int
    end: int
    names: frozenset
    tokens: frozenset


def declares(line):
    """The names that a line at the margin begins to declare, or none."""
    opened = OPENS.match(line)
    if opened:
        return {opened[2]}
    signed = SIGNED.match(line)
    return set(signed[1].split()) if signed else set()


def at_margin(lines):
    """The lines, by number, that begin something or go on with it."""
    return {n: line for n, line in enumerate(lines)
            if line[:1] not in ("", " ", ")", "}") and not HEADER.match(line)}


def declaration(file, first, lines):
    """What the lines declare. At the margin they are a signature or a head,
    what is unfolded, and equations of its names: anything else is not read."""
    text = COMMENT.sub("", "\n".join(lines))
    names = declares(lines[0])
    opened = OPENS.match(lines[0])
    if opened and opened[1] != "record":
        names |= {name for inner in INNER.findall(text)
                  for name in inner.split()}
    # of an operator, `◌and◌`, what is written of it
    names |= {part for name in names for part in name.split("◌")}
    names -= {"", "◌"}
    for line in list(at_margin(lines).values())[1:]:
        if not line.startswith("unfolding ") and not names & {*line.split()}:
            raise Unread(f"{file}: {line}")
    return Declaration(file, first, first + len(lines), frozenset(names),
                       frozenset(TOKEN.findall(text)))


def declarations(file, text):
    if RENAMED.search(text):
        raise Unread(f"{file} uses something under another name")
    lines = text.split("\n")
    margin = at_margin(lines)
    starts = [n for n, line in margin.items() if declares(line)]
    if list(margin)[:1] != starts[:1]:
        raise Unread(f"{file} begins with no declaration")
    return [declaration(file, a, lines[a:b])
            for a, b in zip(starts, starts[1:] + [len(lines)])]


class Rests:
    """What the declarations of a crate may rest on."""

    def __init__(self, folder):
        self.pattern = re.compile(NAMED.format(folder.name))
        self.folder = folder
        self.read, self.seen, self.under = {}, {}, {}

    def declared(self, file):
        if file not in self.read:
            text = (self.folder / file).read_text()
            self.read[file] = declarations(file, text)
        return self.read[file]

    def named(self, file):
        """The files that a file names: of each the longest path that is one."""
        text = (self.folder / file).read_text()
        for part, name in set(self.pattern.findall(text)):
            steps = name.split(".")
            paths = ["/".join([part, *steps[:n]]) + ".antt"
                     for n in range(len(steps), 0, -1)]
            found = [p for p in paths if (self.folder / p).is_file()]
            if not found:
                raise Unread(f"{file} names {name}")
            yield found[0]

    def sight(self, file):
        """A file and all that it names, directly or through others."""
        if file not in self.seen:
            self.seen[file] = closure([file], self.named)
        return self.seen[file]

    def uses(self, one):
        return [d for file in self.sight(one.file) for d in self.declared(file)
                if d.names & one.tokens]

    def below(self, one):
        """A declaration and all that it may rest on."""
        if one not in self.under:
            self.under[one] = closure([one], self.uses)
        return self.under[one]

    def called(self, place):
        """The declarations of the file and name in an edit's line `at:`."""
        file, _, name = place.partition(" ")
        if not (self.folder / file).is_file():
            return []
        return [d for d in self.declared(file) if name in d.names]

    def changed(self, edit):
        """The declarations that an edit changes: all of a file where it
        changes a line of none."""
        found = set()
        for file, old, _ in edit.pairs:
            text = (self.folder / file).read_text()
            line = text.partition(old)[0].count("\n")
            own = self.declared(file)
            found |= {d for d in own if d.first <= line < d.end} or set(own)
        return found

    def reaches(self, edit, other):
        """Whether an edit is refused by what another, or itself, changes."""
        return any(self.below(d) & self.changed(other)
                   for d in self.called(edit.at))

    def readable(self, edit):
        """Whether it shows that a definition's edit reaches its place, by
        files that are all read here."""
        if not all(file.startswith("specs/") and (self.folder / file).is_file()
                   for file in edit.files):
            return False
        try:
            return self.reaches(edit, edit)
        except Unread:
            return False

    def apart(self, one, other):
        return not self.reaches(one, other) and not self.reaches(other, one)


def closure(start, more):
    """What is reached from the start by `more`, the start too."""
    found, todo = set(), list(start)
    while todo:
        at = todo.pop()
        if at not in found:
            found.add(at)
            todo += more(at)
    return found
