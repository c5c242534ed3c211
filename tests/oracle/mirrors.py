"""The library held against its own mirror, R59.

It is asked twice, for M and for -M with everything beside it mirrored. The
second answer must be the mirror of the first, whatever the rules say of both.
"""
import cases
import doubles
import draw_steps
import records
import wire
from draws import LEAST
from given import Grid

OTHER_ENTRY = {wire.LOWER_END: wire.UPPER_END,
               wire.UPPER_END: wire.LOWER_END}

# How a kind of case is drawn, and how many there are of each in a round.
GRID_ROUND = ((cases.GRID_END, 7), (cases.GRID_VERDICT, 7),
              (cases.GRID_ENCLOSURE, 3), (cases.GRID_PROPOSAL, 2),
              (cases.batch_case, 1))
DOUBLE_ROUND = ((cases.DOUBLE_END, 7), (cases.DOUBLE_VERDICT, 7),
                (cases.DOUBLE_ENCLOSURE, 3), (cases.DOUBLE_PROPOSAL, 2))
SETTLED_ROUND = ((cases.GRID_SETTLE, 1), (cases.DOUBLE_SETTLE, 1))
DISTANCE_ROUND = ((cases.GRID_DISTANCE, 1), (cases.DOUBLE_DISTANCE, 1))
STEP_ROUND = ((draw_steps.step_case, 1), (draw_steps.judged_case, 1))


def has_mirror(given, x=0):
    """0 is a problem of its own, where X and estimates have one sign only,
    and the least number has no negative of 32 bits."""
    return not given.zero and LEAST not in (given.m, x)


def mirror_claims(claims):
    """Each record mirrored that has a mirror; the rest stays."""
    whole, rest = records.split(claims)
    for place, (m, a, bits, *others) in enumerate(map(records.fields, whole)):
        if has_mirror(Grid(m, a)):
            whole[place] = records.record(-m, a, bits ^ doubles.SIGN, *others)
    return b"".join(whole) + rest


def mirror_call(call):
    given = call.given.mirror()
    if call.entry == wire.BATCH:
        return call._replace(claims=mirror_claims(call.claims))
    if call.entry in (wire.JUDGE, wire.SETTLE, wire.DISTANCE, *wire.STEPS):
        return call._replace(given=given, bits=call.bits ^ doubles.SIGN)
    return call._replace(entry=OTHER_ENTRY.get(call.entry, call.entry),
                         given=given, x=-call.x)


def mirror_reply(call, reply):
    """What the mirror of a call must answer where the call had this reply."""
    code, *numbers = reply
    if call.entry == wire.ENCLOSE:
        lower, upper, *zeros = numbers
        return code, -upper, -lower, *zeros
    if call.entry == wire.PROPOSE:
        angle, e_sin, e_cos, j = numbers
        return code, -angle, -e_sin, e_cos, j
    if call.entry == wire.BATCH:
        count, answers, claims = numbers
        return code, count, answers, mirror_claims(claims)
    if call.entry in wire.STEPS:
        step, bits, *others = numbers
        # Plus zero stays plus zero.
        return code, step, bits ^ doubles.SIGN if bits else 0, *others
    return reply


def draw(rng, kind):
    """A call of this kind that has a mirror."""
    while True:
        call = kind(rng)
        if call.entry == wire.BATCH or has_mirror(call.given, call.x):
            return call


def mirrors(ask, rng, count, kinds):
    """Calls of every entry that takes M, each beside its mirror."""
    each = [kind for kind, often in kinds for _ in range(often)]
    drawn = [draw(rng, each[number % len(each)]) for number in range(count)]
    replies = ask(drawn)
    mirrored = ask([mirror_call(call) for call in drawn])
    for call, reply, got in zip(drawn, replies, mirrored):
        yield (call.given, got == mirror_reply(call, reply),
               f"{call} has {reply}, and its mirror {got}")
