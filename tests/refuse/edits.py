"""An edit of a crate, in rt's format, and what it changes.

    # a comment
    at: proofs/Corners.antt below-corners
    file: specs/Ends.antt
    old: text that stands once in the file
    new: text in its place

`file:` holds for the pairs after it. `at:` is ours, and rt passes it over:
the file of the crate in which the first refusal has to stand, and the name of
what is refused there; or a file or a folder alone. With a file of src/ the
name is a function's (`DoublesGiven::pose`, `Doubles::pose` or `pose`), whose
proof may stand in files of its own. An edit of one function's body needs none:
there it is the function itself.
"""
from dataclasses import dataclass
from pathlib import Path

from source import functions_of


class BadEdit(Exception):
    """An edit that could show nothing, and why."""


@dataclass(frozen=True)
class Edit:
    crate: str
    label: str
    at: str
    pairs: tuple

    @property
    def name(self):
        return f"{self.crate}/{self.label}"

    @property
    def files(self):
        return {file for file, _, _ in self.pairs}


def read(crate, path):
    """The edit in a file; its faults are found when it is applied."""
    at, file, old, pairs = "", "", "", []
    for line in Path(path).read_text().splitlines():
        if line.startswith("at: "):
            at = line[4:]
        elif line.startswith("file: "):
            file = line[6:]
        elif line.startswith("old: "):
            old = line[5:]
        elif line.startswith("new:"):
            pairs.append((file, old, line[4:].removeprefix(" ")))
            old = ""
    return Edit(crate, Path(path).stem, at, tuple(pairs))


def of_crate(folder, place="edits"):
    """The edits of a crate's folder, and where each stands."""
    return {read(folder.name, path): path
            for path in sorted((folder / place).glob("*.edit"))}


def replacement(folder, file, old, new):
    """Where a pair replaces what, in the unedited file. Only what a contract
    or a definition says may be edited: a proof that no longer fits shows
    nothing."""
    if file.startswith("proofs/"):
        raise BadEdit(f"it changes a proof, {file}")
    if not file.startswith(("src/", "specs/")) or ".." in Path(file).parts:
        raise BadEdit(f"{file or 'no file'} is no file of src/ or specs/")
    if not (folder / file).is_file():
        raise BadEdit(f"the crate has no {file}")
    if not old:
        raise BadEdit("a 'new:' line has no 'old:' text")
    text = (folder / file).read_text()
    if text.count(old) != 1:
        raise BadEdit(f"an 'old:' text is in {file} {text.count(old)} times")
    return text.index(old), len(old), new


def replacements(edit, folder):
    """An edit's replacements, by file. rt makes one pair after the other, so
    that a text has to stand once in what those before it left too."""
    if not edit.pairs:
        raise BadEdit("it has no 'old:' and 'new:' pair")
    if all(old == new for _, old, new in edit.pairs):
        raise BadEdit("it changes nothing")
    found, texts = {}, {}
    for file, old, new in edit.pairs:
        found.setdefault(file, []).append(replacement(folder, file, old, new))
        text = texts.get(file) or (folder / file).read_text()
        if text.count(old) != 1:
            raise BadEdit(f"an 'old:' text is in {file} {text.count(old)} "
                          "times after the pairs before it")
        texts[file] = text.replace(old, new)
    return found


def apply(folder, found):
    """Makes replacements by file in a copy of the crate, the last first, so
    that none moves another."""
    for file, places in found.items():
        text = (folder / file).read_text()
        for at, length, new in sorted(places, reverse=True):
            text = text[:at] + new + text[at + length:]
        (folder / file).write_text(text)


def body_of(edit, folder):
    """The function of the unedited crate whose body the edit changes, where
    it changes one body and nothing else. An edit moves no line."""
    inside = set()
    for file, old, _ in edit.pairs:
        path = folder / file
        text = path.read_text() if path.is_file() else ""
        line = text.partition(old)[0].count("\n")
        inside |= {f for f in functions_of(folder)
                   if f.file == file and f.body <= line < f.end} or {None}
    return inside.pop() if len(inside) == 1 else None


def function_of(edit, folder):
    """The function in which an edit has to be refused, if it is one: that of
    its line `at:`, or whose body it changes."""
    if not edit.at:
        return body_of(edit, folder)
    file, _, name = edit.at.partition(" ")
    named = [f for f in functions_of(folder)
             if f.file == file and f.called(name)]
    return named[0] if len(named) == 1 else None
