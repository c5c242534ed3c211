"""A problem, an estimate in units and N, about which a verdict is to turn.

What is called turning is such a function as draw_grid has: it gives an angle
and a problem of which it is, or just is not, an end at a depth.
"""
import draws
from draws import small
from limits import DEPTHS, TOLERANCE


def turning_claim(rng, turning, d):
    """With the estimate about N from an angle at which an end test turns at
    depth d."""
    x, given = turning(rng, d)
    n = draws.tolerance(rng)
    off = rng.choice((-n - 1, -n, n, n + 1, 0)) + rng.choice((-1, 0, 1))
    return given, x + off, n


def rooted_claim(rng, turning):
    """With the estimate about N from the root: how much more or less it is
    says which depth can tell."""
    x, given = turning(rng, DEPTHS[-1])
    far = small(rng, 17)
    n = far + rng.choice((1, -1)) * small(rng, rng.choice((8, 16)))
    return given, x + rng.choice((1, -1)) * far, min(max(n, 0), TOLERANCE)
