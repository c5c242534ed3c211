"""Every check of exact facts: which it is, and how many cases a run has."""
from functools import partial

import corners
import cosine_facts
import demands
import distance
import draw_doubles
import draw_grid
import draw_spent
import figures
import flyby_facts
import mirrors
import settle
import spent
import step_facts


def of(family, check):
    return partial(check, family=family)


def round_of(kinds, check=mirrors.mirrors):
    return partial(check, kinds=kinds)


# The kinds that are of spent terms, R61, and those of settled claims, R62.
SPENT_KINDS = ("spent sines", "spent ends")
SETTLED_KINDS = ("settled", "double settled", "settled mirrors",
                 "settled grid points", "corners' settled")
# Those whose facts about the root are of distances, R67 to R70.
DISTANCE_KINDS = ("distances", "double distances", "spent distances")
# Those of cosine, R71 to R74, and those of steps, R75 to R80, of which the
# first has facts about the root; and that of the operations which the rule of
# a step is made of.
COSINE_KINDS = ("cosine sums", "cosines", "spent cosines")
STEPS, OPERATIONS = "steps", "operations"
STEP_KINDS = (STEPS, "step zeros", "step mirrors")
# Those of flybys, R81 to R89.
FLYBY_KINDS = ("flyby sums", "flyby sinhs", "flyby ends", "flyby enclosures",
               "flyby verdicts")
# Those of the figures: R63, whose facts each have a width beside them, R64 and
# R65.
WIDTHS, INSIDE, FAR = "widths", "inside estimates", "far estimates"

# What checks each kind, how many cases a run has, how many make one piece of
# work.
KINDS = {
    "sums": (demands.sums, 500, 500),
    "brackets": (of(draw_doubles, demands.brackets), 400, 200),
    "sines": (demands.sines, 8_000, 2_000),
    "ends": (of(draw_grid, demands.ends), 12_000, 2_000),
    "known ends": (of(draw_grid, demands.known_ends), 4_000, 2_000),
    "enclosures": (of(draw_grid, demands.enclosures), 8_000, 1_000),
    "proposals": (of(draw_grid, demands.proposals), 12_000, 2_000),
    "verdicts": (of(draw_grid, demands.verdicts), 20_000, 4_000),
    "mirrors": (round_of(mirrors.GRID_ROUND), 10_000, 2_000),
    "double ends": (of(draw_doubles, demands.ends), 20_000, 2_000),
    "double known ends": (of(draw_doubles, demands.known_ends), 2_000, 1_000),
    "double enclosures": (of(draw_doubles, demands.enclosures), 24_000, 1_000),
    "double proposals": (of(draw_doubles, demands.proposals), 40_000, 2_000),
    "double verdicts": (of(draw_doubles, demands.verdicts), 48_000, 2_000),
    "double mirrors": (round_of(mirrors.DOUBLE_ROUND), 10_000, 2_000),
    "grid points": (round_of(corners.ROUND, corners.grid_points), 10_000,
                    2_000),
    "corners' ends": (corners.ends, 10_000, 2_000),
    "corners' enclosures": (corners.enclosures, 4_000, 1_000),
    "spent sines": (spent.sines, 5_000, 2_500),
    "spent ends": (spent.ends, 5_000, 2_500),
    "settled": (of(draw_grid, settle.settled), 16_000, 4_000),
    "double settled": (of(draw_doubles, settle.settled), 16_000, 4_000),
    "settled mirrors": (round_of(mirrors.SETTLED_ROUND), 8_000, 2_000),
    "settled grid points": (round_of(corners.SETTLED_ROUND,
                                     corners.grid_points), 8_000, 2_000),
    "corners' settled": (corners.settled, 8_000, 2_000),
    "distances": (of(draw_grid, distance.distances), 6_000, 500),
    "double distances": (of(draw_doubles, distance.distances), 6_000, 500),
    "spent distances": (of(draw_spent, distance.distances), 1_000, 500),
    "distance mirrors": (round_of(mirrors.DISTANCE_ROUND), 8_000, 2_000),
    "distance grid points": (round_of(corners.DISTANCE_ROUND,
                                      corners.grid_points), 8_000, 2_000),
    WIDTHS: (figures.widths, 110_000, 5_000),
    INSIDE: (figures.inside_estimates, 110_000, 5_000),
    FAR: (figures.far_estimates, 110_000, 5_000),
    "cosine sums": (cosine_facts.sums, 400, 400),
    "cosines": (cosine_facts.cosines, 8_000, 2_000),
    "spent cosines": (cosine_facts.spent_cosines, 5_000, 2_500),
    OPERATIONS: (step_facts.operations, 10_000, 5_000),
    STEPS: (step_facts.taken_steps, 12_000, 2_000),
    "step zeros": (step_facts.zeros, 8_000, 4_000),
    "step mirrors": (round_of(mirrors.STEP_ROUND), 10_000, 5_000),
    "flyby sums": (flyby_facts.sums, 400, 400),
    "flyby sinhs": (flyby_facts.sinhs, 10_000, 5_000),
    "flyby ends": (flyby_facts.ends, 12_000, 2_000),
    "flyby enclosures": (flyby_facts.enclosures, 20_000, 2_000),
    "flyby verdicts": (flyby_facts.verdicts, 24_000, 2_000),
    "rises": (figures.rises, 4_000, 2_000),
    "refusals": (figures.refusals, 4_000, 2_000),
}
