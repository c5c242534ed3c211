"""Which edits of a crate may be checked together.

Bodies of different functions: a function's proof sees of another only its
contract, which an edit of a body leaves. What fails because another function
is not proved only waits, and is no refusal of its own.

Definitions, in a crate without functions: where no declaration that an edit
is refused in rests on one that another edit changes.
"""
import edits as reading
from declared import Rests
from source import functions_of

# As many at the most together: more would keep one worker busy at the end.
MOST = 8


def together(edits, apart):
    """The edits in groups of which any two are apart, as few as a simple way
    finds: those that clash most first, each into the first that takes it."""
    clashes = {e: sum(not apart(e, f) for f in edits) for e in edits}
    groups = []
    for edit in sorted(edits, key=lambda e: -clashes[e]):
        fits = [g for g in groups if len(g) < MOST
                and all(apart(edit, f) for f in g)]
        if fits:
            fits[0].append(edit)
        else:
            groups.append([edit])
    return groups


def of_bodies(folder, edits):
    """Edits of functions' bodies in groups."""
    bodies = {e: reading.body_of(e, folder) for e in edits if not e.at}
    bodies = {e: body for e, body in bodies.items() if body}
    return together(bodies, lambda e, f: bodies[e] != bodies[f])


def of_definitions(folder, edits):
    """Edits of definitions in groups."""
    rests = Rests(folder)
    return together([e for e in edits if rests.readable(e)], rests.apart)


def of_crate(folder, edits):
    """One crate's edits in groups, those alone too."""
    grouping = of_bodies if functions_of(folder) else of_definitions
    found = grouping(folder, edits)
    grouped = {edit for group in found for edit in group}
    return found + [[edit] for edit in edits if edit not in grouped]


def planned(root, edits):
    """All edits in groups, the largest first, as they take longest."""
    found = []
    for crate in sorted({edit.crate for edit in edits}):
        found += of_crate(root / "crates" / crate,
                          [edit for edit in edits if edit.crate == crate])
    return sorted(found, key=len, reverse=True)
