"""The grid and its limits, R2, R3 and R81."""

# R2, R3: units in a radian, and A for e = 1
UNIT = 2 ** 28
ONE = 268_435_456
# R3: the greatest size of M and that of X
H = 843_314_856
T = 843_314_920
# R3: every depth, and the greatest N
DEPTHS = (1, 2, 3, 4, 5)
TOLERANCE = 65_535
# R81: the greatest M, B and X of a flyby; the least B is that of e = 1
FLYBY_M = 2_147_483_647
FLYBY_B = 1_073_741_824
FLYBY_X = 536_870_912
# R61: the greatest angles at which 1, 2, 3 and 4 pairs spend the terms
SPENT = (14_417_715, 128_808_899, 341_821_575, 614_482_590)
