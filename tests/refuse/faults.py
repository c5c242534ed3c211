"""Tries the runner of edits on planted faults: it has to see each of them.

    python3 faults.py KIT

KIT is the toolchain's folder. The small repository of planted.py has edits that
are refused and others that show nothing. What is not as it should be is
printed, and the exit status is then 1.
"""
import re
import shutil
import subprocess
import sys
from pathlib import Path

import trial
from planted import EDITS, EIGHT, FILES, LEFT_TO_RT, PROVER, PROVERS

HERE = Path(__file__).parent


def write(place, text):
    place.parent.mkdir(parents=True, exist_ok=True)
    place.write_text(text)


def put_edit(root, name, words, place="edits"):
    crate, label = name.split("/")
    at, file, old, new = words
    write(root / "crates" / crate / place / f"{label}.edit",
          f"at: {at}\nfile: {file}\nold: {old}\nnew: {new}\n")


def repository(root):
    """Lays out the small repository, proves it, and spoils the modules of
    three of its crates: none is there, one is missing, they are another's."""
    for name, text in FILES.items():
        write(root / (name if name == "crates.txt" else f"crates/{name}"), text)
    for name, words in EDITS.items():
        put_edit(root, name, words[:-1])
    for name, words in LEFT_TO_RT.items():
        put_edit(root, name, words[:-1], "must-fail")
    done = subprocess.run(["rt", "all", "check"], cwd=root, text=True,
                          stdout=subprocess.PIPE, stderr=subprocess.STDOUT,
                          check=False)
    if done.returncode != 0:
        sys.exit(f"the small repository is not proved:\n{done.stdout}")
    modules = {name: root / f"crates/{name}/out/incremental"
               for name in ("bare", "cut", "other")}
    shutil.rmtree(modules["other"])
    shutil.copytree(modules["bare"], modules["other"])
    shutil.rmtree(modules["bare"])
    modules["bare"].mkdir()
    min(modules["cut"].glob("*/*Proof.oantt")).unlink()


def refuse(root, kit):
    """The runner there: its exit status and what it says."""
    done = subprocess.run([sys.executable, "-B", HERE / "refuse.py", kit],
                          cwd=root, text=True, check=False,
                          stdout=subprocess.PIPE, stderr=subprocess.STDOUT)
    return done.returncode, done.stdout


def fake_kit(place, words):
    """A kit whose prover says the words of an edited crate."""
    rattle = place / "bin/rattle"
    write(rattle, PROVER.format(words))
    rattle.chmod(0o755)
    return place


def seen(name, fault, said):
    """Whether the runner says the fault of an edit, or that it is refused."""
    if not fault:
        return f"refuse: {name}: refused at " in said
    return any(fault in line and (name in line or "modules" in fault)
               for line in said.splitlines() if "FAILED:" in line)


def edits_seen(root, kit):
    """Sentences on the planted edits that the runner does not see."""
    status, said = refuse(root, kit)
    wrong = [f"{name}: '{words[-1] or 'refused'}' is not said of it"
             for name, words in (EDITS | LEFT_TO_RT).items()
             if not seen(name, words[-1], said)]
    wrong += [f"no two edits of {crate} were tried together"
              for crate in ("one", "traits", "laws")
              if not re.search(f"[2-9] of {crate} together", said)]
    if status != 1:
        wrong.append(f"planted edits: exit status {status}")
    return wrong + [said] if wrong else []


def provers_seen(root, room):
    """Sentences on the planted provers that the runner does not see."""
    for number, (name, row) in enumerate(PROVERS.items()):
        words, said_by_it, fault = row
        one_edit(root, words)
        kit = fake_kit(room / f"kit{number}", said_by_it)
        status, said = refuse(root, kit)
        if status != 1 or not seen("one/only", fault, said):
            yield (f"a prover that {name}: status {status}, and '{fault}' is "
                   f"not said\n{said}")


def one_edit(root, words):
    """Leaves no edit in the repository but one."""
    for place in ("edits", "must-fail"):
        for folder in root.glob(f"crates/*/{place}"):
            shutil.rmtree(folder)
    put_edit(root, "one/only", words)


def passes(root, kit):
    """Sentences where the runner fails with nothing wrong."""
    one_edit(root, EIGHT)
    status, said = refuse(root, kit)
    if status != 0 or "1 edits of 1 crates refused, 0 faults" not in said:
        yield f"one edit that is refused: status {status}\n{said}"


def main(kit):
    with trial.room() as room:
        root = room / "small"
        repository(root)
        wrong = [*edits_seen(root, kit), *provers_seen(root, room),
                 *passes(root, kit)]
    for sentence in wrong:
        print("test-refuse:", sentence)
    print(f"test-refuse: {len(EDITS | LEFT_TO_RT)} planted edits and "
          f"{len(PROVERS)} planted provers, {len(wrong)} not as they should be")
    return 1 if wrong else 0


if __name__ == "__main__":
    sys.exit(main(sys.argv[1]))
