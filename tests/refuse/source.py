"""The functions of a crate's source, and what the prover calls them.

It names what a block holds, and the folders of the proofs, after the block's
head: a type may have a function of its own, and one of the same name for each
trait.

    impl<P: Tested> Case<P>                         Case
    trait Tested: Copy                              Tested
    impl Given for Doubles                          DoublesGiven
    impl<const TOP: u64> TryFrom<u32> for To<TOP>   ToTryFromU32
"""
import re
from dataclasses import dataclass
from pathlib import Path

FUNCTION = re.compile(
    r'( *)(?:pub(?:\(\w+\))? )?(?:unsafe )?(?:extern "C" )?fn (\w+)')
BLOCK = re.compile(r"(?:pub(?:\(\w+\))? )?(?:unsafe )?(?:impl|trait)\b")
# What stands before the last name of a path, and that name.
PATH = re.compile(r"((?:\w+::)*)(\w*)")
# What ends the part of a head that names the block.
ENOUGH = re.compile(r" where\b| \{")


@dataclass(frozen=True)
class Function:
    """A function of the source: what the prover calls it, and what is written
    there, where it stands, its lines from 0 and past the last, and the first
    line of its body."""
    name: str
    written: str
    file: str
    first: int
    body: int
    end: int

    @property
    def proof(self):
        """The folder below which its proof stands."""
        return "proofs/" + self.name.replace("::", "/")

    def called(self, name):
        """Whether the line `at:` of an edit may mean it by this name."""
        return name in (self.name, self.written, self.name.split("::")[-1])


def parameters(text):
    """The brackets of an impl's own parameters, if a text begins with any."""
    depth = 0
    for at, letter in enumerate(text):
        depth += (letter == "<") - (letter == ">")
        if depth == 0:
            return text[:at + 1] if at else ""
    return ""


def declared(brackets):
    """The names of the parameters in brackets."""
    text = brackets[1:-1]
    while "<" in text:
        text = re.sub("<[^<>]*>", "", text)
    return {part.split(":")[0].split()[-1]
            for part in text.split(",") if part.strip()}


def as_one(text, without):
    """The words of a type or a trait as one name, but for some."""
    return "".join(word[0].upper() + word[1:]
                   for word in re.findall(r"'?\w+", text)
                   if word not in without)


def names(head):
    """What the functions of a block have before their names, by the prover
    and as it is written: the type, or the trait that is declared."""
    rest = head[BLOCK.match(head).end():]
    own = parameters(rest)
    named = ENOUGH.split(rest[len(own):].strip())[0]
    trait, _, kind = named.rpartition(" for ")
    written = PATH.match(kind)[2]
    if not trait:
        return written, written
    without = declared(own)
    of = trait[PATH.match(trait).end(1):]
    return as_one(kind, without) + as_one(of, without), written


def head(lines, at):
    """The head of a block that begins at a line, as one."""
    end = next(n for n, line in enumerate(lines)
               if n >= at and line.endswith(("{", "}")))
    return " ".join(line.strip() for line in lines[at:end + 1])


def opening(lines, at, margin):
    """The line, from that of a function on, that opens its body; none where
    it has none, or one that stands on a line with the rest."""
    for n in range(at, len(lines)):
        line = lines[n]
        if line == margin + "{" or line.endswith(" {") and (
                n == at or line.startswith(margin + ")")):
            return n
        if line.endswith(";") or n == at and line.endswith("}"):
            return None
    return None


def lines_of(lines, at, margin):
    """The lines of the function that stands at one: its first, with its
    attributes, the first of its body, and its last; none without a body."""
    opens = opening(lines, at, margin)
    if opens is None:
        return None
    first = at
    while first and lines[first - 1].startswith(f"{margin}#["):
        first -= 1
    return first, opens + 1, lines.index(margin + "}", opens)


def functions(file, text):
    """The functions of a source file."""
    lines = text.split("\n")
    module = "" if Path(file).stem in ("lib", "main") else Path(file).stem
    found, block = [], None
    for at, line in enumerate(lines):
        if BLOCK.match(line):
            block = names(head(lines, at))
        elif line == "}":
            block = None
        start = FUNCTION.match(line)
        place = lines_of(lines, at, start[1]) if start else None
        if place:
            owners = block if block and start[1] else ("", "")
            paths = ["::".join(filter(None, (module, owner, start[2])))
                     for owner in owners]
            found.append(Function(*paths, file, *place))
    return found


def functions_of(folder):
    """The functions of a crate's source."""
    return [f for path in sorted((folder / "src").rglob("*.rt"))
            for f in functions(str(path.relative_to(folder)), path.read_text())]
