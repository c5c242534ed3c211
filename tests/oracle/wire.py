"""Calls of the library, by way of the driver program."""
import struct
import subprocess
from typing import NamedTuple

from given import Doubles, Flyby, Grid

# The driver's order. Behind these come the entries of doubles in the same
# order, each BATCH further on than its entry of the grid; sine, cosine, the
# steps, the flybys and the figures have none. The figures are the header's two
# functions of A, in one reply.
(SINE, LOWER_END, UPPER_END, ENCLOSE, PROPOSE, JUDGE, SETTLE, DISTANCE,
 COSINE, STEP, STEP_JUDGED, FLYBY_SINH, FLYBY_LOWER_END, FLYBY_UPPER_END,
 FLYBY_ENCLOSE, FLYBY_JUDGE, FIGURES, BATCH) = range(18)
NAMES = ("sine", "lower_end", "upper_end", "enclose", "propose", "judge",
         "settle", "distance", "cosine", "step", "step_judged", "flyby_sinh",
         "flyby_lower_end", "flyby_upper_end", "flyby_enclose", "flyby_judge",
         "figures", "judge_claims")
SERIES = (SINE, COSINE)
STEPS = (STEP, STEP_JUDGED)
FLYBYS = (FLYBY_SINH, FLYBY_LOWER_END, FLYBY_UPPER_END, FLYBY_ENCLOSE,
          FLYBY_JUDGE)

# M and X are signed, but for the X of sine and cosine. The method of a step,
# which is not signed either, stands in the place of X. Of a flyby nothing is
# signed, and its B stands in the place of A.
REQUEST = struct.Struct("<I2i3I3Q")
UNSIGNED_REQUEST = struct.Struct("<2Ii3I3Q")
FLYBY_REQUEST = struct.Struct("<6I3Q")
REPLY = struct.Struct("<5q")


class Call(NamedTuple):
    """A call with numbers, and what is given of M and e, Grid, Doubles or
    Flyby; what an entry does not take stays 0."""
    entry: int
    given: object = Grid(0, 0)
    x: int = 0
    n: int = 0
    depth: int = 0
    bits: int = 0
    method: int = 0


class Batch(NamedTuple):
    """A call with buffers. The answers buffer is lent with answers_len bytes;
    whatever stands behind them must not be touched."""
    claims: bytes
    answers: bytes
    answers_len: int
    entry: int = BATCH
    given: object = Grid(0, 0)


def sine(x, depth):
    return Call(SINE, x=x, depth=depth)


def lower(x, given, depth):
    return Call(LOWER_END, given, x, 0, depth)


def upper(x, given, depth):
    return Call(UPPER_END, given, x, 0, depth)


def enclose(given, depth):
    return Call(ENCLOSE, given, 0, 0, depth)


def propose(given):
    return Call(PROPOSE, given)


def judge(given, bits, n, depth):
    return Call(JUDGE, given, 0, n, depth, bits)


def settle(given, bits, n):
    return Call(SETTLE, given, 0, n, 0, bits)


def distance(given, bits):
    return Call(DISTANCE, given, bits=bits)


def cosine(x, depth):
    return Call(COSINE, x=x, depth=depth)


def step(given, bits, method):
    return Call(STEP, given, bits=bits, method=method)


def step_judged(given, bits, method, n, depth):
    return Call(STEP_JUDGED, given, 0, n, depth, bits, method)


def flyby_sinh(x):
    return Call(FLYBY_SINH, Flyby(0, 0), x)


def flyby_lower(x, given):
    return Call(FLYBY_LOWER_END, given, x)


def flyby_upper(x, given):
    return Call(FLYBY_UPPER_END, given, x)


def flyby_enclose(given):
    return Call(FLYBY_ENCLOSE, given)


def flyby_judge(given, bits, n):
    return Call(FLYBY_JUDGE, given, n=n, bits=bits)


def figures(a):
    return Call(FIGURES, Grid(0, a))


def name(call):
    """Of the entry, as it is in C, or figures."""
    ending = "_double" if isinstance(call.given, Doubles) else ""
    return NAMES[call.entry] + ending


def encode(call):
    entry, given = call.entry, call.given
    if entry in SERIES:
        return UNSIGNED_REQUEST.pack(entry, call.x, 0, 0, 0, call.depth, 0, 0,
                                     0)
    if entry in STEPS:
        return UNSIGNED_REQUEST.pack(entry, call.method, *given, call.n,
                                     call.depth, call.bits, 0, 0)
    if entry in FLYBYS:
        return FLYBY_REQUEST.pack(entry, call.x, *given, call.n, 0, call.bits,
                                  0, 0)
    if entry == BATCH:
        head = REQUEST.pack(BATCH, 0, 0, len(call.claims), call.answers_len,
                            len(call.answers), 0, 0, 0)
        return head + call.claims + call.answers
    if isinstance(given, Doubles):
        return REQUEST.pack(entry + BATCH, call.x, 0, 0, call.n, call.depth,
                            call.bits, *given)
    return REQUEST.pack(entry, call.x, *given, call.n, call.depth, call.bits,
                        0, 0)


def decode(calls, data):
    """The reply to each call: code and numbers, or for a batch code, count,
    the answers buffer and the claims afterwards. Of a step the second number
    is the 64 bits of a double, which have no sign."""
    replies, at = [], 0
    for call in calls:
        reply = REPLY.unpack_from(data, at)
        at += REPLY.size
        if call.entry == BATCH:
            middle = at + len(call.answers)
            end = middle + len(call.claims)
            reply = reply[:2] + (data[at:middle], data[middle:end])
            at = end
        elif call.entry in STEPS:
            reply = reply[:2] + (reply[2] % 2 ** 64,) + reply[3:]
        replies.append(reply)
    if at != len(data):
        raise ValueError(f"the driver wrote {len(data)} bytes, not {at}")
    return replies


def ask(driver, calls):
    """The library's replies; driver is the command that runs the driver."""
    done = subprocess.run(driver, input=b"".join(map(encode, calls)),
                          stdout=subprocess.PIPE, check=True)
    return decode(calls, done.stdout)
