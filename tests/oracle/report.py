"""What a run counts, how much of it there has to be, and what is printed."""
from collections import Counter
from dataclasses import dataclass, field

import distance
import facts
import figures
import rules
import settle
import steps
import wire

SHOWN = 20
# Random cases, and exact facts, of which each run has to have that many with
# a negative M; and different pairs of doubles, in the cases and the facts.
NEGATIVE_LEAST = 100_000
PAIRS_LEAST = 100_000
# Exact facts of spent terms that each run has to have, and of settled claims.
SPENT_LEAST = 20_000
SETTLED_LEAST = 100_000
# Different orbits whose width each run has to hold against R63, estimates to
# hold against R64, and as many against R65.
FIGURES_LEAST = 100_000
# Different estimates whose distance each run has to hold against the true
# root, R69; and how many of them have to meet what.
DISTANCES_LEAST = 100_000
HELD_LEAST = (("proved", "proved by its bracket", 100_000),
              ("least_tight", "whose least cannot be greater", 10_000),
              ("most_tight", "whose most cannot be less", 10_000),
              ("outside", "with least above 0", 20_000))
# Random cases of cosine that each run has to have, and of judged steps; and
# different steps among the random cases.
CASES_LEAST = {"cosine": 60_000, "step_judged": 60_000}
STEPS_LEAST = 200_000
# Exact facts of cosine that each run has to have, of steps, and of these so
# many that were held against the true root; and results of the operations in
# whole numbers that were held against floats.
COSINE_FACTS_LEAST = 100_000
STEP_FACTS_LEAST = 100_000
STEP_ROOTS_LEAST = 5_000
OPERATIONS_LEAST = 20_000
# Random cases of flybys that each run has to have, exact facts, and of these
# so many that were held against the true root.
FLYBY_CASES_LEAST = 100_000
FLYBY_FACTS_LEAST = 100_000
FLYBY_ROOTS_LEAST = 50_000
# Random cases of an entry that have to have each of its answers, and distances
# that have to be held against each answer of a settled claim, R70.
ANSWER_LEAST = 200


def settled_words(verdict, depth):
    return f"{rules.WORDS[verdict]} at depth {depth}"


STEP_WORDS = ("Newton", "Halley", "Newton to zero", "Halley to zero",
              "flat by its divisor", "flat below 0", "flat above T")
END_WORDS = ("not accepted", "accepted")


def with_codes(*codes):
    return [f"with code {code}" for code in codes]


ANSWERS = {
    **dict.fromkeys(settle.ENTRIES, [settled_words(*answer)
                                     for answer in settle.ANSWERS]),
    **dict.fromkeys(distance.ENTRIES, [
        "with least 0", "with least above 0", "with code 4"]),
    "step": [*STEP_WORDS, *with_codes(4, 21)],
    "step_judged": [*(f"{name} {word}" for name in steps.NAMES.values()
                      for word in rules.WORDS.values()),
                    "flat", *with_codes(4, 21)],
    "flyby_sinh": with_codes(0, 10),
    **dict.fromkeys(("flyby_lower_end", "flyby_upper_end"),
                    [*END_WORDS, *with_codes(1, 2, 10)]),
    "flyby_enclose": with_codes(0, 1, 2, 15),
    "flyby_judge": [*rules.WORDS.values(), *with_codes(1, 2, 4, 5)],
}


def flyby_words(entry, first):
    """With code 0, which of sinh and of an enclosure is all that is
    counted."""
    if entry == wire.FLYBY_JUDGE:
        return rules.WORDS[first]
    if entry in (wire.FLYBY_LOWER_END, wire.FLYBY_UPPER_END):
        return END_WORDS[first]
    return with_codes(0)[0]


def in_words(call, answer):
    """An answer as it is counted, of a settled claim, a distance, a step or a
    flyby."""
    code, first, *others = answer
    if code:
        return with_codes(code)[0]
    if call.entry in wire.FLYBYS:
        return flyby_words(call.entry, first)
    second, *verdict = others
    if call.entry == wire.SETTLE:
        return settled_words(first, second)
    if call.entry == wire.STEP:
        return steps.way(call.given, call.bits, call.method)
    if call.entry == wire.STEP_JUDGED:
        return ("flat" if first == steps.FLAT else
                f"{steps.NAMES[first]} {rules.WORDS[verdict[0]]}")
    return "with least above 0" if first else "with least 0"


@dataclass
class Found:
    """What was counted, how much of that had a negative M, the different
    pairs of doubles, what is wrong, how often an entry gave each answer, the
    widths met of the different orbits, of different estimates what their
    distances met, the different steps that had code 0, and by kind how many
    facts were held against the true root. Of facts only those pairs count
    that were."""
    counts: Counter = field(default_factory=Counter)
    negative: int = 0
    pairs: set = field(default_factory=set)
    faults: list = field(default_factory=list)
    answers: Counter = field(default_factory=Counter)
    widths: dict = field(default_factory=dict)
    held: dict = field(default_factory=dict)
    steps: set = field(default_factory=set)
    rooted: Counter = field(default_factory=Counter)

    def add(self, other):
        self.counts += other.counts
        self.negative += other.negative
        self.pairs |= other.pairs
        self.faults += other.faults
        self.answers += other.answers
        self.widths.update(other.widths)
        self.held.update(other.held)
        self.steps |= other.steps
        self.rooted += other.rooted


def facts_of(totals, kinds):
    """How many of the exact facts were of these kinds."""
    return sum(totals["exact"].counts[kind] for kind in kinds)


def figure_counts(totals):
    """How much was held against each figure: what, and the number."""
    yield "widths of different orbits", len(totals["exact"].widths)
    for kind in (facts.INSIDE, facts.FAR):
        yield kind, facts_of(totals, [kind])


def held_counts(totals):
    """How many estimates met what: what, the number, and the least number."""
    held = totals["exact"].held.values()
    yield "estimates held against the root", len(held), DISTANCES_LEAST
    for name, words, least in HELD_LEAST:
        yield words, sum(getattr(each, name) for each in held), least
    settled = Counter(each.settled for each in held)
    for answer in settle.ANSWERS:
        yield (f"beside {settled_words(*answer)}", settled[answer],
               ANSWER_LEAST)


def step_counts(totals):
    """How much there was of cosine and of steps: the group, what, the number,
    and the least number."""
    drawn, exact = totals["random"], totals["exact"]
    for name, least in CASES_LEAST.items():
        yield "random", f"cases of {name}", drawn.counts[name], least
    yield "random", "different steps", len(drawn.steps), STEPS_LEAST
    for what, kinds, least in (
            ("facts of cosine", facts.COSINE_KINDS, COSINE_FACTS_LEAST),
            ("facts of steps", facts.STEP_KINDS, STEP_FACTS_LEAST),
            ("results of operations", (facts.OPERATIONS,), OPERATIONS_LEAST)):
        yield "exact", what, facts_of(totals, kinds), least
    yield ("exact", "steps held against the root", exact.rooted[facts.STEPS],
           STEP_ROOTS_LEAST)


def flyby_counts(totals):
    """How much there was of flybys, likewise."""
    drawn, exact = totals["random"], totals["exact"]
    yield ("random", "cases", sum(drawn.counts[wire.NAMES[entry]]
                                  for entry in wire.FLYBYS), FLYBY_CASES_LEAST)
    yield ("exact", "facts", facts_of(totals, facts.FLYBY_KINDS),
           FLYBY_FACTS_LEAST)
    yield ("exact", "facts held against the root",
           sum(exact.rooted[kind] for kind in facts.FLYBY_KINDS),
           FLYBY_ROOTS_LEAST)


def too_few(totals):
    """A sentence for each group that had too few of a kind."""
    wanted = [(group, *rest) for group in ("random", "exact") for rest in (
        ("negative M", totals[group].negative, NEGATIVE_LEAST),
        ("doubles", len(totals[group].pairs), PAIRS_LEAST))]
    wanted += [("exact", what, facts_of(totals, kinds), least)
               for what, kinds, least in (
                   ("spent terms", facts.SPENT_KINDS, SPENT_LEAST),
                   ("settled claims", facts.SETTLED_KINDS, SETTLED_LEAST))]
    wanted += [("exact", *counted, FIGURES_LEAST)
               for counted in figure_counts(totals)]
    wanted += [("exact", *counted) for counted in held_counts(totals)]
    wanted += step_counts(totals)
    wanted += [(group, f"{what} of flybys", *counted) for group, what, *counted
               in flyby_counts(totals)]
    wanted += [("random", f"{name} {words}",
                totals["random"].answers[name, words], ANSWER_LEAST)
               for name, every in ANSWERS.items() for words in every]
    return [f"too few {group} checks, {what}: {count:,}"
            for group, what, count, least in wanted if count < least]


def report_answers(answers):
    for name, every in ANSWERS.items():
        parts = (f"{answers[name, words]:,} {words}" for words in every)
        print(f"compare: random cases of {name}: {', '.join(parts)}")


def report_figures(totals):
    parts = (f"{count:,} {what}" for what, count in figure_counts(totals))
    greatest = max((figures.ratio(given, width) for given, width
                    in totals["exact"].widths.items()), default=0)
    print(f"compare: exact facts of figures: {', '.join(parts)}; the greatest "
          f"(w - 2) (2^28 - A) / A is {greatest:.3f}")


def report_held(totals):
    parts = (f"{count:,} {what}" for what, count, _ in held_counts(totals))
    print(f"compare: exact facts of distances: {', '.join(parts)}")


def report_steps(totals):
    parts = [f"{count:,} {group} {what}"
             for group, what, count, _ in step_counts(totals)]
    parts.append(f"{len(totals['edge'].steps):,} edge different steps")
    print(f"compare: of cosine and steps: {', '.join(parts)}")


def report_flybys(totals):
    parts = (f"{count:,} {group} {what}"
             for group, what, count, _ in flyby_counts(totals))
    print(f"compare: of flybys: {', '.join(parts)}")


def report(totals, faults, seconds):
    random_found, edge, exact = (totals[group] for group in
                                 ("random", "edge", "exact"))
    for group in ("edge", "random"):
        parts = (f"{count:,} {name}"
                 for name, count in totals[group].counts.items())
        print(f"compare: {group} cases: {', '.join(sorted(parts))}")
    print(f"compare: with negative M: {random_found.negative:,} random cases, "
          f"{edge.negative:,} edge cases and {exact.negative:,} exact facts")
    print(f"compare: different pairs of doubles: {len(random_found.pairs):,} "
          f"in random cases, {len(edge.pairs):,} in edge cases and "
          f"{len(exact.pairs):,} held against the true root in exact facts")
    report_answers(random_found.answers)
    print(f"compare: exact facts of spent terms: "
          f"{facts_of(totals, facts.SPENT_KINDS):,}, of settled claims: "
          f"{facts_of(totals, facts.SETTLED_KINDS):,}")
    report_figures(totals)
    report_held(totals)
    report_steps(totals)
    report_flybys(totals)
    for sentence in faults[:SHOWN]:
        print(f"compare: DIFFERENT: {sentence}")
    if len(faults) > SHOWN:
        print(f"compare: and {len(faults) - SHOWN:,} more")
    drawn, edges_seen, stated_seen, facts_seen = (
        sum(totals[group].counts.values()) for group in
        ("random", "edge", "stated", "exact"))
    print(f"compare: {drawn:,} random cases, {edges_seen:,} edge cases, "
          f"{stated_seen:,} stated numbers and {facts_seen:,} exact facts in "
          f"{seconds} s: {len(faults):,} differences")
