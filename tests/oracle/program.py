"""Compares the program judge_claims with the written rules.

    python3 program.py COMMAND..

COMMAND reads a file of claims on standard input and writes its answers. Any
difference is printed, and the exit status is then 1.
"""
import random
import subprocess
import sys
from pathlib import Path

import cases
import edges
import records
import stated

# How long a program may take that has nothing to wait for.
SECONDS = 20


def files():
    """Names and contents: whole, damaged, truncated, and each length around
    the longest that is read."""
    rng = random.Random(1)
    every = b"".join(edges.every_record())
    longest = b"".join(cases.record(rng) for _ in range(3_276))
    yield "no claims", b""
    yield "the stated batch", stated.BATCH.claims
    yield "the stated batch of negative Ms", stated.NEGATIVE_BATCH.claims
    yield "every kind of record", every
    for cut in (1, 19, 20, 21, 39, 40, 41, len(every) - 1):
        yield f"cut to {cut} bytes", every[:cut]
    yield "65,500 bytes", longest[:-20]
    yield "65,519 bytes", longest[:-1]
    yield "65,520 bytes, the longest", longest
    yield "65,521 bytes", longest + b"\0"
    yield "65,540 bytes", longest + longest[:20]
    yield "131,040 bytes", longest + longest


def stored():
    """The gate's own files of claims, each with its stored answers."""
    for crate in sorted(Path("crates").glob("judge_claims*")):
        answers = crate / "stdout"
        yield (f"{crate.name}'s file", (crate / "stdin").read_bytes(),
               answers.read_bytes() if answers.exists() else b"")


def compare_files(command):
    """A sentence for each file, empty where the answers are right."""
    for name, data in files():
        done = subprocess.run(command, input=data, stdout=subprocess.PIPE,
                              check=True)
        wanted = records.program(data)
        yield "" if done.stdout == wanted else (
            f"{name}: {len(done.stdout)} bytes, wanted {len(wanted)}")
    for name, data, answers in stored():
        yield "" if answers == records.program(data) else (
            f"the stored answers of {name}")


def compare_open_pipe(command):
    """The like for the least input that is too long, on a pipe that stays
    open: there is nothing more to wait for."""
    data = bytes(records.PROGRAM_BYTES + 1)
    with subprocess.Popen(command, stdin=subprocess.PIPE,
                          stdout=subprocess.PIPE) as program:
        program.stdin.write(data)
        program.stdin.flush()
        try:
            program.wait(timeout=SECONDS)
        except subprocess.TimeoutExpired:
            program.kill()
            yield f"still waiting {SECONDS} s after {len(data):,} bytes"
            return
        written = program.stdout.read()
        yield f"{len(data):,} bytes are answered" if written else ""


def main(command):
    if not command:
        print(__doc__, file=sys.stderr)
        return 2
    found = [*compare_files(command), *compare_open_pipe(command)]
    wrong = [sentence for sentence in found if sentence]
    for sentence in wrong:
        print(f"program: DIFFERENT: {sentence}")
    print(f"program: {len(found)} files of claims compared, {len(wrong)} "
          "differences")
    return 1 if wrong else 0


if __name__ == "__main__":
    sys.exit(main(sys.argv[1:]))
