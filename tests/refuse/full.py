"""Edits by rt must-fail, each a check of its whole crate by itself."""
import hashlib
import re
import shutil
import subprocess

import prover
import trial

# One edit in so many goes this way in every run.
SHARE = 20


def commit(root):
    """The commit that the repository is at."""
    try:
        done = subprocess.run(["git", "rev-parse", "HEAD"], cwd=root, text=True,
                              stdout=subprocess.PIPE, check=False,
                              stderr=subprocess.DEVNULL)
    except OSError:
        return "no commit"
    return done.stdout.strip() or "no commit"


def drawn(edits, seed):
    """One edit in SHARE, and one at least, drawn by the seed."""
    def lot(edit):
        return hashlib.sha256(f"{seed} {edit.name}".encode()).digest()
    return sorted(edits, key=lot)[:-(-len(edits) // SHARE)]


def lay_out(root, paths, copy):
    """A copy of the repository with just these edits, over what rt has proved
    and kept."""
    shutil.copy(root / "crates.txt", copy / "crates.txt")
    shutil.copytree(root / "crates", copy / "crates",
                    ignore=shutil.ignore_patterns("must-fail", "edits", "out"))
    tried = {edit.crate for edit in paths}
    for out in root.glob("crates/*/out"):
        parts = ["rlib"] + ["incremental"] * (out.parent.name in tried)
        for part in parts:
            if (out / part).is_dir():
                shutil.copytree(out / part, copy / out.relative_to(root) / part,
                                copy_function=prover.link_or_copy)
    for edit, path in paths.items():
        folder = copy / "crates" / edit.crate / "must-fail"
        folder.mkdir(exist_ok=True)
        shutil.copy(path, folder / f"{edit.label}.edit")


def run(place, crates):
    """rt must-fail in a repository, shown as it goes; what it said."""
    said = []
    with subprocess.Popen(["rt", "must-fail", *crates], cwd=place, text=True,
                          stdout=subprocess.PIPE, stderr=subprocess.STDOUT,
                          stdin=subprocess.DEVNULL) as process:
        for line in process.stdout:
            said.append(line)
            if line.startswith("rt: must-fail "):
                print(line, end="", flush=True)
    return process.returncode, "".join(said)


def disagreement(copy, answer, said):
    """How rt must-fail and the quick way differ on an edit; else nothing. rt
    gives no proof the edited code's names, and has to refuse all the same."""
    by_rt = trial.tried_by_rt(answer.edit, copy, said)
    if by_rt is None:
        return "rt must-fail has not tried it"
    if answer.mended and trial.said_by_rt(answer.edit, said)[1]:
        return ""
    if by_rt.fault:
        return f"by rt must-fail {by_rt.fault}"
    if str(by_rt.refusal) != str(answer.refusal):
        return (f"rt must-fail refuses it first at {by_rt.refusal}, and the "
                f"quick way at {answer.refusal}")
    return ""


def faults(root, answers, paths, copy):
    """Sentences on the edits, all refused the quick way, of which rt
    must-fail does not say the same."""
    chosen = {a.edit: paths[a.edit] for a in answers}
    lay_out(root, chosen, copy)
    status, said = run(copy, sorted({edit.crate for edit in chosen}))
    found = []
    for answer in answers:
        fault = disagreement(copy, answer, said)
        if fault:
            found.append(f"{answer.edit.name}: {fault}")
    if re.search("^logic=", said, re.M):
        found.append(f"a library was proved a second time:\n{said[-2000:]}")
    if status != 0 and not found:
        found.append(f"rt must-fail ended with {status}:\n{said[-2000:]}")
    return found
