"""Claim records, the batch and the program, R49 to R53."""
import rules
from given import Grid

SIZE = 20
# R53
PROGRAM_BYTES = 65_520


def record(m, a, bits, n, depth, reserved=0):
    """R49: M is in two's complement."""
    return (m.to_bytes(4, "little", signed=True) + a.to_bytes(4, "little")
            + bits.to_bytes(8, "little") + n.to_bytes(2, "little")
            + bytes([depth, reserved]))


def fields(claim):
    """R49: the six numbers of a record, in their order."""
    m = int.from_bytes(claim[:4], "little", signed=True)
    a, bits, n = (int.from_bytes(claim[start:stop], "little")
                  for start, stop in ((4, 8), (8, 16), (16, 18)))
    return m, a, bits, n, claim[18], claim[19]


def answer_byte(claim):
    """R50: a code where there is one, else the verdict."""
    m, a, bits, n, depth, reserved = fields(claim)
    if reserved != 0:
        return 9
    code, verdict = rules.judge(Grid(m, a), bits, n, depth)
    return code or verdict


def split(claims):
    """The whole records, and the bytes that are left."""
    whole = len(claims) - len(claims) % SIZE
    return ([claims[at:at + SIZE] for at in range(0, whole, SIZE)],
            claims[whole:])


def judge_claims(claims, answers, answers_len):
    """R51, R52: code, count and the answers buffer afterwards."""
    whole, rest = split(claims)
    if rest:
        return 7, 0, answers
    if answers_len < len(whole):
        return 8, 0, answers
    written = bytes(map(answer_byte, whole))
    return 0, len(whole), written + answers[len(whole):]


def program(data):
    """R53: what is written for an input."""
    if len(data) > PROGRAM_BYTES:
        return b""
    room = len(data) // SIZE
    code, count, written = judge_claims(data, bytes(room), room)
    return b"" if code else written[:count]
