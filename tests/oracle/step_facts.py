"""Facts about the library's steps, R75 to R80, and about the operations in
whole numbers that the rule here is made of.

A step is held against the library's own judge, sine and cosine and its own
mirror, against where it has to end in exact numbers, and what the judge says
of it against the exact sums and the true root. The rule is not used for them.
"""
import operator
from math import floor

import between
import binary64
import demands
import doubles
import draw_steps
import draws
import steps
import wire
from cells import mirror
from limits import DEPTHS, T

OPERATIONS = ((operator.add, binary64.add),
              (operator.sub, binary64.subtract),
              (operator.mul, binary64.multiply),
              (operator.truediv, binary64.divide))


# ---- The operations --------------------------------------------------------

OPERANDS = (lambda rng: rng.getrandbits(64),
            lambda rng: rng.choice(doubles.every_kind()),
            lambda rng: draws.small(rng, 54) + rng.choice((0, doubles.SIGN)),
            lambda rng: doubles.of_float(rng.uniform(-4, 4)),
            lambda rng: doubles.of_units(draws.small(rng, 30)),
            lambda rng: doubles.of_units(-1 - draws.small(rng, 20), 1, 22))


def operands(rng):
    """Two doubles of any kind, or close to each other, where a difference
    loses its first digits and a quotient is about 1."""
    x = draws.one_of(rng, OPERANDS)
    if rng.randrange(3):
        return x, draws.one_of(rng, OPERANDS)
    near = (x + rng.randrange(-2, 3)) % 2 ** 64
    return x, near ^ rng.choice((0, doubles.SIGN))


def in_floats(operation, x, y):
    """Bits of the result; None by a zero, which Python refuses to divide
    by."""
    try:
        return doubles.of_float(operation(doubles.to_float(x),
                                          doubles.to_float(y)))
    except ZeroDivisionError:
        return None


def operations(_ask, rng, count):
    """The operations in whole numbers give what Python's floats give, NaNs
    apart, which have many patterns. By a zero they give an infinity or a NaN.
    """
    for _ in range(count):
        x, y = operands(rng)
        for operation, in_whole_numbers in OPERATIONS:
            got, wanted = in_whole_numbers(x, y), in_floats(operation, x, y)
            if wanted is None:
                zero_or_nan = doubles.is_zero(x) or binary64.is_nan(x)
                wanted = (binary64.NAN if zero_or_nan else
                          doubles.INFINITY + ((x ^ y) & doubles.SIGN))
            yield (None, got == wanted or (binary64.is_nan(got)
                                           and binary64.is_nan(wanted)),
                   f"{operation.__name__} of {x:016x} and {y:016x}: "
                   f"{got:016x}, floats give {wanted:016x}")


# ---- What is handed over ---------------------------------------------------

def drawn_steps(rng, count):
    """Problem, estimate, method and N, some to an orbit."""
    found = []
    while len(found) < count:
        found += [(*each, draws.tolerance(rng))
                  for each in draw_steps.walk(rng)]
    return found[:count]


def posed_units(given, bits):
    """An estimate that is taken, in units of the problem as it is posed."""
    return mirror(doubles.in_units(bits), given.negative)


def asked(given, bits, method, n):
    """The calls for one step: alone, judged at every depth, and the bounds
    that it takes."""
    f = floor(posed_units(given, bits))
    return [wire.step(given, bits, method),
            *(wire.step_judged(given, bits, method, n, d) for d in DEPTHS),
            wire.sine(f, DEPTHS[-1]), wire.cosine(f, DEPTHS[-1])]


def asked_next(given, method, n, reply):
    """The calls about an estimate that was handed over."""
    bits = reply[2]
    return [wire.step(given, bits, method),
            *(wire.judge(given, bits, n, d) for d in DEPTHS)]


def form(given, method, reply):
    """R77, R80: the step's number is the method's own or 3, beside which
    stand zeros, and no zero that is handed over has a sign."""
    code, number, new, *zeros = reply
    yield (given, code == 0 and number in (method, steps.FLAT)
           and not any(zeros), "is neither the method's own nor flat")
    yield (given, new != doubles.SIGN and (number != steps.FLAT or new == 0),
           "has beside it what it must not have")


def judged_alike(given, reply, judged, verdicts):
    """R79: at every depth the step is the one that is not judged, and the
    verdict the judge's; none beside a flat one."""
    for d, (*stepped, verdict, _), wanted in zip(DEPTHS, judged, verdicts):
        yield (given, (*stepped, verdict) == (*reply[:3], wanted),
               f"is judged {stepped} {verdict} at depth {d}, and the judge "
               f"says {wanted}")


def exact_numbers(given, low_sine, low_cosine):
    """R75: over 2^28 the four numbers are doubles, none of them rounded."""
    for number in (low_sine, low_cosine, given.m, given.a):
        bits = binary64.rounded(doubles.SIGN if number < 0 else 0,
                                abs(number), -28)
        yield doubles.in_units(bits) == number


def ends_right(given, bits, method, reply, bounds):
    """R76, R77: where all that roundings can do is from 0 to T the step is
    handed over, where none of it is the step is flat, and what is handed over
    lies there."""
    (_, low_sine, *_), (_, low_cosine, *_) = bounds
    found = between.new_estimate(method, posed_units(given, bits), low_sine,
                                 low_cosine, abs(given.m), given.a)
    if found is None:
        return True
    low, high = found
    if reply[1] == steps.FLAT:
        return low < 0 or high > T
    units = demands.in_span(given, reply[2])
    return units is not None and low <= mirror(units, given.negative) <= high


def step_facts(case, reply, judged, bounds):
    """Of one step, but for what the judge says of it."""
    given, bits, method, _ = case
    yield from form(given, method, reply)
    yield (given, all(exact_numbers(given, bounds[0][1], bounds[1][1])),
           f"takes what is no double: {bounds}")
    yield (given, ends_right(given, bits, method, reply, bounds),
           f"ends elsewhere, with the bounds {bounds}")
    if reply[1] == steps.FLAT:
        yield from judged_alike(given, reply, judged, [0] * len(DEPTHS))


def next_facts(case, reply, judged, after, verdicts):
    """Of an estimate that was handed over: it is taken by the judge and by
    the next step, and the verdicts on it are true and stay with depth."""
    given, _, _, n = case
    yield (given, after[0] == 0 and all(code == 0 for code, *_ in verdicts),
           "hands over what is no estimate")
    found = [verdict for _, verdict, *_ in verdicts]
    yield from judged_alike(given, reply, judged, found)
    units = demands.in_span(given, reply[2])
    yield given, units is not None, "hands over what is out of range"
    if units is not None:
        yield from demands.claim_facts((given, reply[2], n), found, units)


def with_case(case, fact):
    """A fact with a sentence that begins with the step it is of."""
    given, holds, sentence, *beside = fact
    _, bits, method, n = case
    if not holds:
        sentence = f"method {method} from {bits:016x}, N={n}: {sentence}"
    return given, holds, sentence, *beside


def taken_steps(ask, rng, count):
    """Everything that is said of a step that is taken. Of both methods every
    verdict occurs, and a flat step."""
    drawn = drawn_steps(rng, count)
    replies = iter(ask([call for case in drawn for call in asked(*case)]))
    found = [(case, next(replies), [next(replies) for _ in DEPTHS],
              [next(replies) for _ in range(2)]) for case in drawn]
    after = iter(ask([call for case, reply, *_ in found
                      if reply[1] != steps.FLAT
                      for call in asked_next(case[0], case[2], case[3],
                                             reply)]))
    seen = set()
    for case, reply, judged, bounds in found:
        every = [*step_facts(case, reply, judged, bounds)]
        if reply[1] != steps.FLAT:
            every += next_facts(case, reply, judged, next(after),
                                [next(after) for _ in DEPTHS])
        seen.update((case[2], each[1], each[3]) for each in judged)
        for fact in every:
            yield with_case(case, fact)
    yield None, len(seen) == 8, f"of eight answers only {seen} occurred"


def zeros(ask, rng, count):
    """R41: plus zero and minus zero as estimate have the same answers."""
    drawn, calls = [], []
    for _ in range(count):
        given, _, method = draw_steps.taken(rng)
        n, d = draws.tolerance(rng), draws.depth(rng)
        drawn.append((given, method, n, d))
        for bits in (0, doubles.SIGN):
            calls += [wire.step(given, bits, method),
                      wire.step_judged(given, bits, method, n, d)]
    replies = iter(ask(calls))
    for given, method, n, d in drawn:
        plus, minus = ([next(replies) for _ in range(2)] for _ in range(2))
        yield (given, plus == minus and plus[0][0] == plus[1][0] == 0,
               f"method {method}, N={n}, depth {d}: {plus} from plus zero and "
               f"{minus} from minus zero")
