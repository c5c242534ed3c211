"""Edits tried on a copy of their crate, and what that showed of each."""
import re
import shutil
import subprocess
import tempfile
from contextlib import contextmanager
from dataclasses import dataclass, replace
from pathlib import Path

import edits
import mend
import prover

UNPLACED = ("BAD EDIT: it has no 'at:' line, and changes no function's body "
            "alone")
# What rt must-fail says of an edit that is refused: why only, and where first.
RT_REFUSED = re.compile(r"refused, as it must be(?: \((only .*?)\))?(?:: (.*))?")


@dataclass(frozen=True)
class Answer:
    """What a trial showed of an edit: where it was refused first, or the
    fault that makes it count for nothing; and whether the proofs were given
    the edited code's names first."""
    edit: edits.Edit
    refusal: prover.Refusal = None
    fault: str = ""
    mended: bool = False


@contextmanager
def room():
    """A folder of its own, gone afterwards."""
    place = Path(tempfile.mkdtemp(prefix="refuse.")).resolve()
    try:
        yield place
    finally:
        shutil.rmtree(place, ignore_errors=True)


def stands_in(place, function, refusal):
    """Whether a refusal is one of the edit's: of what its place names, or of
    the function that it names or whose body it changes. What a function's
    proof files leave to the prover is refused in the source."""
    if function:
        return (f"{refusal.path}/".startswith(f"{function.proof}/")
                or refusal.path == function.file
                and function.first < refusal.line <= function.end + 1)
    file, _, name = place.partition(" ")
    return (f"{refusal.path}/".startswith(f"{file}/")
            and refusal.text.startswith(f"`{name}`" if name else ""))


def own_refusal(edit, function, outcome, alone):
    """The first refusal of an edit, or the fault. Alone it has to be the
    first of all. A name that the edit took away shows nothing."""
    if not edit.at and not function:
        return Answer(edit, fault=UNPLACED)
    if outcome.status == 0:
        return Answer(edit, fault="NOT REFUSED: it is still proved")
    if not outcome.refused:
        head = "\n".join(outcome.text.splitlines()[:5])
        return Answer(edit, fault="BAD EDIT: it did not reach the prover "
                      f"(exit {outcome.status})\n{head}")
    placed = [r for r in outcome.refusals if stands_in(edit.at, function, r)]
    own = [r for r in placed if not r.unfit]
    if placed and not own:
        return Answer(edit, fault="BAD EDIT: only the proof file does not fit "
                      f"any more, {placed[0]}")
    if not own or alone and own[0] != first(outcome):
        place = edit.at or function.proof
        return Answer(edit, fault=f"refused, and not at {place} first; first "
                      f"refused at {first(outcome) or 'nowhere'}")
    if own[0].unread:
        return Answer(edit, fault="BAD EDIT: the edited text cannot be read, "
                      f"{own[0]}")
    if own[0].path in edit.files and own[0].path.startswith("specs/"):
        return Answer(edit, fault="BAD EDIT: what it makes is itself no "
                      f"definition, {own[0]}")
    return Answer(edit, refusal=own[0])


def first(outcome):
    """The first refusal but for names that an edit took away, or none."""
    return next((r for r in outcome.refusals if not r.unfit), None)


def unedited(prove, crate):
    """What is wrong with a crate's modules, by a check of its copy as it
    stands: it has to be proved with nothing checked anew."""
    with room() as place:
        try:
            folder, incremental = prove.copy(crate, place)
        except OSError as error:
            return f"the proved modules of {crate} cannot be had: {error}"
        outcome = prove.check(crate, folder, incremental)
    if outcome.unchecked:
        return ""
    tail = "\n".join(outcome.text.splitlines()[-3:])
    return f"unedited, {crate} is not proved from its modules alone:\n{tail}"


def make(group, folder):
    """Makes the edits of a group in a copy of their crate, each as in the
    unedited one. The function of each, or the one that can't be made."""
    changed, found = {}, {}
    for edit in group:
        changed[edit] = edits.function_of(edit, folder)
        if not edit.at and not changed[edit]:
            return changed, Answer(edit, fault=UNPLACED)
        try:
            for file, places in edits.replacements(edit, folder).items():
                found.setdefault(file, []).extend(places)
        except edits.BadEdit as fault:
            return changed, Answer(edit, fault=f"BAD EDIT: {fault}")
    edits.apply(folder, found)
    return changed, None


def stray(changed, outcome):
    """Where edits of bodies alone are refused in a function that none of them
    changes, so that the functions were not as apart as they should be."""
    if not all(changed.values()):
        return None
    return next((refusal for refusal in outcome.refusals if not any(
        stands_in("", function, refusal) for function in changed.values())), None)


def attempt(prove, group, logs):
    """Tries edits of one crate together: an answer for each, or for one that
    can't be made."""
    crate = group[0].crate
    with room() as place:
        folder, incremental = prove.copy(crate, place)
        changed, bad = make(group, folder)
        if bad:
            return [bad]
        try:
            outcome, mended = mend.check(prove, crate, folder, incremental)
        except subprocess.TimeoutExpired:
            return [Answer(edit, fault="BAD EDIT: the prover does not end")
                    for edit in group]
    for edit in group:
        log = logs / f"{edit.name}.log"
        log.parent.mkdir(parents=True, exist_ok=True)
        log.write_text(outcome.text)
    strayed = stray(changed, outcome) if len(group) > 1 else None
    if strayed:
        return [Answer(edit, fault=f"something is refused at {strayed}")
                for edit in group]
    return [replace(own_refusal(edit, changed[edit], outcome, len(group) == 1),
                    mended=mended)
            for edit in group]


def said_by_rt(edit, said):
    """What rt must-fail said of an edit, and its words on a refusal, if it is
    one; nothing where it has not tried it."""
    line = re.search(rf"^rt: must-fail {re.escape(edit.name)}\.edit: (.*)$",
                     said, re.M)
    return line and (line[1], RT_REFUSED.fullmatch(line[1]))


def tried_by_rt(edit, root, said):
    """What rt must-fail showed of an edit by itself, by what it said, which
    names the first refusal alone; nothing where it has not tried it."""
    by_rt = said_by_rt(edit, said)
    if not by_rt:
        return None
    line, refused = by_rt
    if not refused:
        return Answer(edit, fault=line)
    if refused[1]:
        return Answer(edit, fault=f"BAD EDIT: refused {refused[1]}")
    outcome = prover.outcome(1, f"{refused[2]}\nlogic=not-proved")
    function = edits.function_of(edit, root / "crates" / edit.crate)
    return own_refusal(edit, function, outcome, True)
