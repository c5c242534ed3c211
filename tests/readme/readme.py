"""Holds README.md to the repository and to what scripts/run prints.

    python3 readme.py README RUN

RUN is a file with the output of scripts/run. Any difference is printed, and
the exit status is then 1.
"""
import difflib
import os
import re
import sys
from fractions import Fraction
from pathlib import Path

LEFT_OUT = "..."
FIRST, LOOP = "examples/first.c", "examples/newton.c"
EXAMPLES = (FIRST, "examples/flattered.c", LOOP, "examples/flyby.c")
FOLDERS = "scripts|examples|docs|include|tests|bench|crates|plot"
ECCENTRICITIES = ("0", "0.5", "0.9", "0.99", "0.999")
ONE, N_MAX = 2 ** 28, 65535


def blocks(text, language):
    """The lines of each fenced block in that language."""
    found = re.findall(rf"^```{language}\n(.*?)^```$", text, re.M | re.S)
    return [block.splitlines() for block in found]


def sections(output):
    """What scripts/run prints below each of its headings, by heading."""
    parts = re.split(r"^\n-- (.*)\n", "\n" + output, flags=re.M)
    return {heading: part.splitlines()
            for heading, part in zip(parts[1::2], parts[2::2])}


def shows(shown, real):
    """Whether the shown lines are the real ones in order, where a line '...'
    stands for one or more that are left out."""
    if not shown:
        return not real
    if shown[0] == LEFT_OUT:
        return any(shows(shown[1:], real[skip:])
                   for skip in range(1, len(real) + 1))
    return shown[:1] == real[:1] and shows(shown[1:], real[1:])


def held(name, shown, real, may_leave_out=False):
    """Sentences where a block is not what it should be."""
    if shown == real or (may_leave_out and shows(shown, real)):
        return
    yield f"the block of {name} is not the real one:"
    yield from difflib.unified_diff(shown, real, "README.md", name, "", "", 3,
                                    "")


def function(source, name):
    """The lines of one function of a C file, with the comment above it."""
    found = re.search(rf"^/\* .* \*/\nstatic .*\b{name}\((?s:.*?)^}}$", source,
                      re.M)
    return found[0].splitlines() if found else []


def check_blocks(text, output):
    """The first block of code is the first example, the second the loop of
    judged steps; the blocks of output are those of all examples, of which any
    but the first may leave rows out."""
    shell, code, printed = (blocks(text, language)
                            for language in ("sh", "c", "text"))
    if (len(shell), len(code), len(printed),
            text.count("```")) != (1, 2, 4, 14):
        yield "there are other blocks than one sh, two c and four text"
        return
    yield from held(FIRST, code[0], Path(FIRST).read_text().splitlines())
    yield from held(LOOP, code[1], function(Path(LOOP).read_text(), "iterate"))
    run = sections(output)
    for name, shown in zip(EXAMPLES, printed):
        yield from held(f"{name}'s output", shown, run.get(name, []),
                        name != FIRST)


def figures(e):
    """A, the greatest width and the least N of R66, as digits, by counting:
    the first width whose next R63 rules out, and the first N of R64."""
    a = int(Fraction(e) * ONE)
    width = next(w for w in range(2, ONE) if (w - 1) * (ONE - a) >= 64 * a)
    least = next(n for n in range(1, N_MAX + 1)
                 if (n - 1) * (ONE - a) >= 64 * a)
    return [e, *map(str, (a, width, least))]


def check_figures(text):
    """README.md and the header have the same table of figures."""
    wanted = [figures(e) for e in ECCENTRICITIES]
    header = Path("include/stripeawn.h").read_text()
    tables = {"README.md": [
        [cell.strip().replace(",", "") for cell in line.strip("|").split("|")]
        for line in re.findall(r"^\| 0.*\|$", text, re.M)]}
    tables["the header"] = [line.split()[1:] for line in re.findall(
        r"^\*\*     0\S* +\d+ +\d+ +\d+$", header, re.M)]
    for name, rows in tables.items():
        if rows != wanted:
            yield f"the figures of {name} are {rows}, not {wanted}"


def check_run(output):
    """scripts/run ends with the answers to its two claims."""
    headings = list(sections(output).items())
    if not headings or [line.split() for line in headings[-1][1]] != [
            ["16", "18"]]:
        yield "scripts/run does not end with the answers 16 and 18"


def check_names(text):
    """Files, commands and the header's names are there."""
    header = Path("include/stripeawn.h").read_text()
    files = re.findall(rf"\b(?:{FOLDERS})/[\w./-]*\w", text)
    files += re.findall(r"\]\(([^)]*)\)", text)
    for name in sorted(set(files)):
        if not Path(name).is_file():
            yield f"no file {name}"
        elif name.startswith("scripts/") and not os.access(name, os.X_OK):
            yield f"{name} is no command"
    for name in sorted(set(re.findall(r"\bstripeawn_\w+", text, re.I))):
        if not re.search(rf"\b{name}\b", header):
            yield f"the header has no {name}"


def main(arguments):
    if len(arguments) != 2:
        print(__doc__, file=sys.stderr)
        return 2
    text, output = (Path(name).read_text() for name in arguments)
    wrong = [*check_blocks(text, output), *check_run(output),
             *check_names(text), *check_figures(text)]
    for sentence in wrong:
        print(f"readme: {sentence}")
    return 1 if wrong else 0


if __name__ == "__main__":
    sys.exit(main(sys.argv[1:]))
