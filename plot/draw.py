"""Draws a picture from the numbers that its C program prints.

    python3 draw.py NAME < NUMBERS > SVG
"""
import sys

from distance import distance
from width import width

PICTURES = {"width": width, "distance": distance}


def main(arguments):
    if len(arguments) != 1 or arguments[0] not in PICTURES:
        print(__doc__, file=sys.stderr)
        return 2
    print(PICTURES[arguments[0]](sys.stdin).svg(), end="")
    return 0


if __name__ == "__main__":
    sys.exit(main(sys.argv[1:]))
