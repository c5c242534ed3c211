"""Compares the library with the written rules, entry by entry.

    python3 compare.py SEED DRIVER..

SEED is a whole number, or 'time' for one from the clock. DRIVER is the
command that runs driver.c linked with the library. Any difference is printed
with its case, and the exit status is then 1. So it is where too few of the
random cases or of the exact facts had a negative M, too few pairs of M and e
as doubles were drawn for either, too few random cases were of cosine or
different steps or flybys, too few facts were of spent terms, of settled
claims, of one of the figures, of distances, of cosine, of steps or of flybys,
or too few random claims were settled, estimates measured, steps made or
entries of flybys called with one of the answers.
"""
import random
import sys
import time
from collections import Counter
from functools import partial
from multiprocessing import Pool

import cases
import cosine
import edges
import facts
import figures
import flyby
import records
import report
import rules
import stated
import stated_cosine
import stated_figures
import stated_spent
import steps
import wire
from given import Doubles
from report import Found

PROCESSES = 2

RULES = {
    wire.SINE: lambda c: rules.sine(c.x, c.depth),
    wire.LOWER_END: lambda c: rules.lower_end(c.x, c.given, c.depth),
    wire.UPPER_END: lambda c: rules.upper_end(c.x, c.given, c.depth),
    wire.ENCLOSE: lambda c: rules.enclose(c.given, c.depth),
    wire.PROPOSE: lambda c: rules.propose(c.given),
    wire.JUDGE: lambda c: rules.judge(c.given, c.bits, c.n, c.depth),
    wire.SETTLE: lambda c: rules.settle(c.given, c.bits, c.n),
    wire.DISTANCE: lambda c: rules.distance(c.given, c.bits),
    wire.COSINE: lambda c: cosine.cosine(c.x, c.depth),
    wire.STEP: lambda c: steps.step(c.given, c.bits, c.method),
    wire.STEP_JUDGED: lambda c: steps.step_judged(c.given, c.bits, c.method,
                                                  c.n, c.depth),
    wire.FLYBY_SINH: lambda c: flyby.sinh(c.x),
    wire.FLYBY_LOWER_END: lambda c: flyby.lower_end(c.x, c.given),
    wire.FLYBY_UPPER_END: lambda c: flyby.upper_end(c.x, c.given),
    wire.FLYBY_ENCLOSE: lambda c: flyby.enclose(c.given),
    wire.FLYBY_JUDGE: lambda c: flyby.judge(c.given, c.bits, c.n),
    wire.FIGURES: lambda c: figures.figures(c.given.a),
    wire.BATCH: lambda c: (*records.judge_claims(
        c.claims, c.answers, c.answers_len), c.claims),
}


def pairs_in(every_given):
    """The pairs of doubles among what was given."""
    return {(given.m, given.e) for given in every_given
            if isinstance(given, Doubles)}


def differences(call, wanted, got):
    """A sentence where the replies differ, in a list. The driver fills up
    with 0 what an entry does not give."""
    if got == wanted + (0,) * (len(got) - len(wanted)):
        return []
    inputs = ", ".join(
        f"{name}={value.hex() if isinstance(value, bytes) else value}"
        for name, value in call._asdict().items()
        if name not in ("entry", "given"))
    return [f"{wire.name(call)} of {call.given} and {inputs}: wanted {wanted},"
            f" the library gives {got}"]


def compare(driver, calls):
    """Each call by the rules and by the library. Calls with buffers are not
    counted as having a negative M."""
    faults, answers, made = [], Counter(), set()
    for call, got in zip(calls, wire.ask(driver, calls)):
        wanted = RULES[call.entry](call)
        faults += differences(call, wanted, got)
        if wire.name(call) in report.ANSWERS:
            answers[wire.name(call), report.in_words(call, wanted)] += 1
        if call.entry in wire.STEPS and wanted[0] == 0:
            made.add((*call.given, call.bits, call.method))
    return Found(Counter(map(wire.name, calls)),
                 sum(call.given.negative for call in calls),
                 pairs_in(call.given for call in calls), faults, answers,
                 steps=made)


def compare_stated(driver):
    """The stated numbers, held against the rules here and the library."""
    calls, wanted = zip(*stated.stated())
    faults = []
    for call, answer, got in zip(calls, wanted, wire.ask(driver, calls)):
        faults += differences(call, answer, got)
        if RULES[call.entry](call) != answer:
            faults.append(f"the rules of this folder miss {answer} at {call}")
    spending = [(*each, rules) for each in stated_spent.PAIRS]
    spending += [(*each, cosine) for each in stated_cosine.PAIRS]
    faults += [f"the rules of this folder do not spend the terms at X={x} "
               f"with {pairs} pairs" for x, pairs, series in spending
               if series.spending_pairs(x) != pairs]
    faults += [f"the rules of this folder do not have the gap {gap} at A={a}"
               for a, gap in stated_figures.GAPS
               if figures.least_gap(a) != gap]
    numbers = len(calls) + len(spending) + len(stated_figures.GAPS)
    return Found(Counter(numbers=numbers), faults=faults)


def check_facts(driver, kind, rng, count):
    """How many facts were looked at, and those that do not hold. Beside a
    width's fact stands the width, beside any other the true root that it was
    held against, if any, and beside a distance's then the estimate and what
    was met."""
    found, with_root = Found(), []
    check = facts.KINDS[kind][0]
    for given, true, sentence, *beside in check(partial(wire.ask, driver), rng,
                                                count):
        found.counts[kind] += 1
        found.negative += given is not None and given.negative
        if kind == facts.WIDTHS:
            found.widths[given], = beside
        elif beside:
            found.rooted[kind] += 1
            with_root.append(given)
            if kind in facts.DISTANCE_KINDS:
                _, bits, held = beside
                found.held[given, bits] = held
        if not true:
            found.faults.append(
                " ".join(map(str, ("not as demanded of", given, sentence,
                                   *beside))))
    found.pairs = pairs_in(with_root)
    return found


def work(piece):
    """One piece of work: its group, and what it found."""
    driver, seed, group, kind, number, count = piece
    rng = random.Random(f"{seed} {group} {kind} {number}")
    if group == "stated":
        return group, compare_stated(driver)
    if group == "edge":
        return group, compare(driver, edges.KINDS[kind]())
    if group == "exact":
        return group, check_facts(driver, kind, rng, count)
    return group, compare(driver, cases.drawn(rng, kind, count))


def pieces(driver, seed):
    yield driver, seed, "stated", "", 0, 0
    for kind in edges.KINDS:
        yield driver, seed, "edge", kind, 0, 0
    for group, kinds in (("random", cases.KINDS), ("exact", facts.KINDS)):
        for kind, (_, total, each) in kinds.items():
            for number in range(0, total, each):
                yield driver, seed, group, kind, number, each


def main(arguments):
    if len(arguments) < 2:
        print(__doc__, file=sys.stderr)
        return 2
    seed = time.time_ns() if arguments[0] == "time" else int(arguments[0])
    start = time.monotonic_ns()
    print(f"compare: seed {seed}", flush=True)
    totals = {}
    with Pool(PROCESSES) as pool:
        for group, found in pool.imap_unordered(
                work, pieces(arguments[1:], seed)):
            totals.setdefault(group, Found()).add(found)
    faults = [fault for found in totals.values() for fault in found.faults]
    faults += report.too_few(totals)
    report.report(totals, faults, (time.monotonic_ns() - start) // 10 ** 9)
    return 1 if faults else 0


if __name__ == "__main__":
    sys.exit(main(sys.argv[1:]))
