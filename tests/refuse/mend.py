"""Gives proofs the names that an edit of the code brings.

The prover names a goal, and a step of a function, after the code: a test of
`a > b` is `if-a-gt-b`, and of `a >= b` is `if-a-ge-b`. A proof that says the
one does not fit the other, and shows nothing, so that it is given the names
that the prover now asks for, and tried again. Nothing else of it changes.
"""
import difflib
import re

GONE = re.compile(
    "has no (?:field `([^`]+)`|`([^`]+)` that can be named from here)")
NEAREST = re.compile(r"\(nearest: \.([^\s,)]+)")
ASKS = re.compile(r"help: `\w+` has no `([^`]+)`; rattle asks for (.*)")
OFFERS = re.compile(r"\((?:names in it that begin alike:|did you mean) ([^)]*)\)")
# A proof that still does not fit then is left as it is.
MOST = 8
# How much of two names has to be the same: of `if-n-gt-LIMIT` and
# `if-n-gt65521` it is 0.56.
ALIKE = 0.5


def asked(text):
    """The names that the prover asks for, by the one that it does not have."""
    return {said[1]: re.findall("`([^`]+)`", said[2])
            for said in ASKS.finditer(text)}


def offered(text):
    """Names that the prover has in the place of the one that is gone."""
    said = OFFERS.search(text)
    return re.findall("`([^`]+)`", said[1]) if said else []


def whole(name):
    return re.compile(rf"(?<![\w'-]){re.escape(name)}(?![\w'-])")


def renamed(outcome, folder):
    """By file, the names that have gone, each with the nearest there is that
    is like it, but for one that another has taken or that the file has."""
    wanted, found = asked(outcome.text), {}
    for refusal in outcome.refusals:
        said = GONE.search(refusal.text)
        if not said or not refusal.unfit:
            continue
        old, near = said[1] or said[2], NEAREST.findall(refusal.text)
        names = found.setdefault(refusal.path, {})
        proof = (folder / refusal.path).read_text()
        free = [name
                for name in near or wanted.get(old) or offered(refusal.text)
                if name not in names.values()
                and not whole(name).search(proof)]
        names |= {old: new for new in difflib.get_close_matches(
            old, free, 1, 0 if near else ALIKE)}
    return found


def rename(path, names):
    """Writes new names in a file, whole names alone; whether that changed
    it."""
    before = text = path.read_text()
    for old, new in names.items():
        text = whole(old).sub(new, text)
    path.write_text(text)
    return text != before


def check(prove, crate, folder, incremental):
    """Checks an edited copy of a crate: what was said last, and whether its
    proofs were given other names for it."""
    outcome, mended = prove.check(crate, folder, incremental), False
    for _ in range(MOST):
        names = renamed(outcome, folder) if outcome.refused else {}
        if not [rename(folder / file, pairs) for file, pairs in names.items()
                ].count(True):
            break
        mended = True
        outcome = prove.check(crate, folder, incremental)
    return outcome, mended
