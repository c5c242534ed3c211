"""Tries the edits of the crates: the prover has to refuse each of them.

    python3 refuse.py KIT [--full] [CRATE..]

KIT is the toolchain's folder; the crates have to stand proved by rt, with what
it keeps. With --full every edit goes by rt must-fail too, and without it one in
twenty, drawn by the commit; both ways have to agree. What is wrong is printed,
and the exit status is then 1.
"""
import os
import sys
import time
from concurrent.futures import FIRST_COMPLETED, ThreadPoolExecutor, wait
from pathlib import Path

import edits
import full
import groups
import trial
from prover import Prover

MOST_WORKERS = 4


def say(*words):
    print("refuse:", *words, flush=True)


class Pool:
    """Workers of which none waits for another."""

    def __init__(self):
        self.workers = min(MOST_WORKERS, len(os.sched_getaffinity(0)))

    def run(self, jobs, finished):
        """Runs the jobs, functions without arguments; `finished` takes what
        one gave, and gives the jobs that come of it."""
        executor = ThreadPoolExecutor(self.workers)
        try:
            running = {executor.submit(job) for job in jobs}
            while running:
                done, running = wait(running, return_when=FIRST_COMPLETED)
                for future in done:
                    more = finished(future.result()) or ()
                    running |= {executor.submit(job) for job in more}
        finally:
            executor.shutdown(cancel_futures=True)


class Run:
    """One run of the edits of some crates."""

    def __init__(self, root, prove, crates):
        self.root, self.prove = root, prove
        self.pool = Pool()
        self.paths, self.answers, self.faults = {}, [], []
        self.tried, self.again, self.mended = 0, 0, 0
        for crate in crates:
            self.paths |= edits.of_crate(root / "crates" / crate)

    def fault(self, text):
        self.faults.append(text)
        say("FAILED:", text)

    def crates(self):
        return sorted({edit.crate for edit in self.paths})

    def check_unedited(self):
        """Drops the edits of a crate that is not proved as it stands."""
        def job(crate):
            return lambda: (crate, trial.unedited(self.prove, crate))

        def finished(answer):
            crate, fault = answer
            if fault:
                self.fault(fault)
                self.paths = {edit: path for edit, path in self.paths.items()
                              if edit.crate != crate}
        self.pool.run([job(crate) for crate in self.crates()], finished)

    def check_edits(self):
        """Every edit, beside others where that shows as much."""
        logs = self.root / "target/refuse"

        def job(group):
            def work():
                began = time.monotonic()
                given = trial.attempt(self.prove, group, logs)
                return group, given, time.monotonic() - began
            return work

        def finished(result):
            group, given, seconds = result
            lost = self.count(group, given, seconds)
            return [job([edit]) for edit in lost]
        planned = groups.planned(self.root, list(self.paths))
        self.pool.run([job(group) for group in planned], finished)
        if self.tried != len(self.paths):
            self.fault(f"{self.tried} answers to {len(self.paths)} edits")

    def count(self, group, given, seconds):
        """Takes the answers to a group. Those edits to be tried alone."""
        kept = [a for a in given if len(group) == 1 or not a.fault]
        lost = [e for e in group if e not in {a.edit for a in kept}]
        faults = {a.edit: a.fault for a in given}
        self.tried += len(kept)
        self.again += len(lost)
        for answer in kept:
            if answer.fault:
                self.fault(f"{answer.edit.name}: {answer.fault}")
            else:
                self.answers.append(answer)
                self.mended += answer.mended
                say(f"{answer.edit.name}: refused at {answer.refusal}" +
                    (", by proofs with its names" if answer.mended else ""))
        for edit in lost:
            say(f"{edit.name}: again, alone: beside others "
                f"{faults.get(edit, 'it was not tried')}")
        say(f"{self.tried} of {len(self.paths)}; {len(group)} of "
            f"{group[0].crate} together, {seconds:.1f} s")
        return lost

    def check_left_to_rt(self, crates):
        """What rt says of the edits in must-fail/."""
        left = [edit for crate in crates for edit in edits.of_crate(
            self.root / "crates" / crate, "must-fail")]
        if not left:
            return
        _, said = full.run(self.root, sorted({edit.crate for edit in left}))
        for edit in left:
            answer = trial.tried_by_rt(edit, self.root, said)
            if answer is None or answer.fault:
                fault = answer.fault if answer else "it has not tried it"
                self.fault(f"{edit.name}, by rt: {fault}")

    def check_full(self, every):
        """Those that go by rt must-fail too."""
        seed = full.commit(self.root)
        answers = {a.edit: a for a in self.answers}
        chosen = list(answers) if every else full.drawn(list(answers), seed)
        if not chosen:
            return 0
        say(f"{len(chosen)} by rt must-fail too" +
            ("" if every else f", drawn by {seed[:12]}"))
        with trial.room() as copy:
            for fault in full.faults(self.root, [answers[e] for e in chosen],
                                     self.paths, copy):
                self.fault(fault)
        return len(chosen)


def chosen_crates(root, named):
    """The crates to try: those named, or all that have edits."""
    listed = [path.name for path in sorted((root / "crates").iterdir())]
    unknown = [name for name in named if name not in listed]
    if unknown:
        sys.exit(f"refuse: no crate {unknown[0]}")
    return named or [name for name in listed
                     if edits.of_crate(root / "crates" / name)]


def main(kit, *words):
    root = Path.cwd()
    every = "--full" in words
    crates = chosen_crates(root, [w for w in words if w != "--full"])
    run = Run(root, Prover(kit, root), crates)
    run.check_left_to_rt(crates)
    run.check_unedited()
    run.check_edits()
    both = run.check_full(every)
    say(f"{len(run.answers)} edits of {len(run.crates())} crates refused, "
        f"{len(run.faults)} faults; {run.mended} by proofs with their names, "
        f"{run.again} tried again alone, {both} by rt must-fail too")
    return 1 if run.faults or not run.answers else 0


if __name__ == "__main__":
    sys.exit(main(*sys.argv[1:]))
