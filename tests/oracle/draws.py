"""Single numbers, drawn from a seeded generator."""
import doubles
from limits import DEPTHS, T, TOLERANCE

# The signed numbers of 32 bits.
LEAST, GREATEST = -2 ** 31, 2 ** 31 - 1


def one_of(rng, ways):
    """A number drawn in one of these ways."""
    return rng.choice(ways)(rng)


def small(rng, bits):
    """A number below 2^bits whose length is random, so that small ones are
    as frequent as large ones."""
    return rng.getrandbits(rng.randrange(bits + 1))


ANGLES = (lambda rng: rng.randrange(T + 1),
          lambda rng: min(small(rng, 30), T),
          lambda rng: T - small(rng, 20))


def angle(rng):
    return one_of(rng, ANGLES)


def depth(rng):
    return rng.randrange(1, 6)


def tolerance(rng):
    return rng.choice((0, 1, small(rng, 16), rng.randrange(TOLERANCE + 1)))


def spoil(rng, value, limit, *others, once_in=400):
    """Now and then a value beyond its limit, or one of the others."""
    if rng.randrange(once_in):
        return value
    return rng.choice((limit + 1, limit + 1 + small(rng, 24),
                       2 ** 32 - 1 - small(rng, 24), *others))


def spoil_depth(rng, value):
    return spoil(rng, value, DEPTHS[-1], 0)


def spoil_signed(rng, value, limit):
    """Now and then a value at or beyond its limit of either sign, or any
    number of 32 bits."""
    if rng.randrange(300):
        return value
    size = rng.choice((limit, limit + 1, limit + 1 + small(rng, 24),
                       GREATEST - small(rng, 24)))
    return rng.choice((size, -size, LEAST,
                       rng.randrange(LEAST, GREATEST + 1)))


def spoil_double(rng, bits, limit):
    """Now and then a double beside its limit, which is in bits, one of every
    kind, or any 64 bits; of either sign."""
    if rng.randrange(300):
        return bits
    size = rng.choice((limit, limit + 1, limit + 1 + small(rng, 50),
                       rng.choice(doubles.every_kind()),
                       rng.getrandbits(64)))
    return size ^ rng.choice((0, doubles.SIGN))


def turned(rng, m):
    """An M at which a rule is about to turn, moved by a few units."""
    m += rng.choice((-1, 0, 0, 1, 2))
    if not rng.randrange(4):
        m += rng.choice((1, -1)) * small(rng, 10)
    return m


def estimate(rng, units, limit=T):
    """Bits of an estimate near the given units, on the grid or off it; at the
    limit it may be some part of a unit beyond."""
    units = min(max(units, 0), limit)
    places = rng.choice((0, 0, 1, 5, 22))
    part = rng.getrandbits(places)
    kind = rng.randrange(300)
    if kind == 0:
        return rng.getrandbits(64)
    if kind == 1:
        return rng.choice(doubles.every_kind())
    if kind == 2:
        return small(rng, 52)
    if kind == 3:
        return rng.choice((0, doubles.SIGN))
    return doubles.of_units(units, part, places)
