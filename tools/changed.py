#!/usr/bin/env python3
"""Says what changed in the crates' contracts and definitions since a commit, old and new side by side, as Markdown.

usage: python3 tools/changed.py COMMIT [CRATE=FOLDER ..]

Run at the top of the repository. For each crate a table has every item that differs between COMMIT and the tree:
- functions of src/*.rt that are public, or stand in a trait or in an impl of one: signature and clauses, up to the body;
- structs, enums, constants, type aliases, traits (without their functions), `impl Model` blocks and other ghost items;
- definitions of specs/*.antt, private ones too, each from its name on;
- lemmas of proofs/*.antt that are public and that README.md or docs/*.md (docs/PORT.md aside) have in backticks.
An item is found again by its crate and its name, wherever its file went. Where it is new, the old column has `-`. Where it is gone,
the new column has what tools/changed_gone.txt says states its promise now (a line is `CRATE ITEM | text`), else `gone`; of functions
and lemmas that are gone private ones, and those that no page names, are listed too. Attributes (`repr` aside), comments, blank space,
commas before a closing bracket and imports don't count. Items that differ only in the names of the codes (`bad_m`, now `BadM`) or of
the variable `refused` (now `zeros`) are named below the table. Of two long texts `..` stands for what they share in between.
CRATE=FOLDER takes that crate's new files from FOLDER (with src, specs and proofs) in place of the tree's.
How many rows there are of each kind, and the lines of changed_gone.txt that no row used, are said on standard error.
"""

import collections
import difflib
import io
import os
import re
import subprocess
import sys
import tarfile

from changed_items import definitions, lemmas, sources, squeeze

GONE = os.path.join(os.path.dirname(os.path.abspath(__file__)), "changed_gone.txt")
LONG = 900  # characters
KINDS = ["function", "type", "constant", "model", "ghost item", "definition", "lemma"]
CODES = "BadM BadA BadDepth BadEstimate BadN NoUpperEnd BadLength ShortAnswers BadReserved BadX NoFlybyEnd BadMethod".split()
PART = re.compile(r"crates/([^/]+)/(?:(src)/.*\.rt|(specs)/[^/]*\.antt|(proofs)/[^/]*\.antt)$")
PAGE = re.compile(r"README\.md|docs/(?!PORT\.md)[^/]*\.md")


def bare(text):
    """The text without what does not count."""
    text = re.sub(r"\s*([(){}\[\],;])\s*", r"\1", squeeze(text))
    return re.sub(r"[,;]+([)}\]])", r"\1", text)


def recoded(text):
    """The same, with today's names of the codes and of the variable that was `refused`."""
    for code in CODES:
        old = re.sub(r"(?<!^)([A-Z])", r"_\1", code).lower()
        text = re.sub(rf"(?<!\w){old}(?!\w)", code, text).replace(f"(failed {code})", code)
    return bare(re.sub(r"(?<![\w.])refused(?!\w)", "zeros", text))


# ---- what is compared


def of_commit(commit):
    """The files of a commit that are read, by name."""
    tar = subprocess.run(["git", "archive", commit, "crates", "docs", "README.md"], check=True, capture_output=True).stdout
    with tarfile.open(fileobj=io.BytesIO(tar)) as files:
        wanted = [f for f in files if f.isfile() and (PART.match(f.name) or PAGE.fullmatch(f.name))]
        return {f.name: files.extractfile(f).read().decode() for f in wanted}


def below(folder, name):
    """The files below a folder that are read, as if it were called `name`."""
    found = {}
    for where, folders, files in os.walk(folder):
        folders[:] = [f for f in folders if f not in ("out", "target")]
        for f in files:
            path = os.path.join(where, f)
            as_if = os.path.normpath(os.path.join(name, os.path.relpath(path, folder)))
            if PART.match(as_if) or PAGE.fullmatch(as_if):
                with open(path, encoding="utf-8") as text:
                    found[as_if] = text.read()
    return found


def of_tree(others):
    files = {**below("crates", "crates"), **below("docs", "docs")}
    with open("README.md", encoding="utf-8") as text:
        files["README.md"] = text.read()
    for crate, folder in others:
        files = {f: t for f, t in files.items() if not f.startswith(f"crates/{crate}/")}
        files.update(below(folder, f"crates/{crate}"))
    return files


def words_of(files):
    """What the pages have in backticks, as words."""
    words = set()
    for f, text in files.items():
        if PAGE.fullmatch(f):
            for code in re.findall(r"`([^`]+)`", re.sub(r"```.*?```", "", text, flags=re.S)):
                words.update(re.split(r"[\s.,;:/()\[\]{}]+", code))
    return words


def items_of(files, named):
    """The items of each crate."""
    out = collections.defaultdict(list)
    for f in sorted(files):
        m = PART.match(f)
        if m and not f.endswith("/Lib.antt"):
            text = files[f]
            out[m[1]] += sources(text, f) if m[2] else definitions(text, f) if m[3] else lemmas(text, f, named)
    return out


# ---- which belong together


def pairs_of(olds, news):
    """Items of one crate, kind and name, two by two: those with one text, in one file, then the rest in their order."""
    pairs, left = [], list(news)
    for same in (lambda a, b: bare(a.text) == bare(b.text), lambda a, b: a.file == b.file, lambda a, b: True):
        alone = []
        for a in olds:
            b = next((b for b in left if same(a, b)), None)
            if b is None:
                alone.append(a)
            else:
                left.remove(b)
                pairs.append((a, b))
        olds = alone
    return pairs + [(a, None) for a in olds] + [(None, b) for b in left]


def differing(olds, news):
    """The pairs of one crate that are listed, and the names of those that differ only in names of codes."""
    groups = collections.defaultdict(lambda: ([], []))
    for side, items in enumerate((olds, news)):
        for item in items:
            groups[KINDS.index(item.kind), item.name][side].append(item)
    rows, renamed = [], []
    for _, (a, b) in sorted(groups.items()):
        for old, new in pairs_of(a, b):
            if old and new and recoded(old.text) == recoded(new.text):
                if bare(old.text) != bare(new.text) and (old.shown or new.shown):
                    renamed.append(old.name)
            elif not new or new.shown or (old and old.shown):
                rows.append((old, new))
    return rows, renamed


# ---- as Markdown


def stated():
    """What states the promise of what is gone, by crate and item."""
    texts = {}
    if os.path.exists(GONE):
        with open(GONE, encoding="utf-8") as lines:
            for line in lines:
                if line.strip() and not line.startswith("#"):
                    item, text = line.split(" | ", 1)
                    texts[tuple(item.split(" ", 1))] = text.strip()
    return texts


def shortened(old, new):
    """Two texts, without the fields, equations and rows that both have in between."""
    if min(len(old.text), len(new.text)) < LONG:
        return old.text, new.text
    ends = r" (?=pub )" if old.text.startswith("record ") else rf" (?=∷ |{re.escape(old.name)} )"
    a, b = re.split(ends, old.text), re.split(ends, new.text)
    left, right = a[:1], b[:1]
    for how, i, k, j, l in difflib.SequenceMatcher(None, a[1:], b[1:], autojunk=False).get_opcodes():
        left += [".."] if how == "equal" else a[1 + i : 1 + k]
        right += [".."] if how == "equal" else b[1 + j : 1 + l]
    return " ".join(left), " ".join(right)


def code(text):
    mark = "``" if "`" in text else "`"
    return mark + text.replace("|", r"\|") + mark


def row(crate, old, new, texts, used):
    if old and new:
        return "| {} | {} |".format(*map(code, shortened(old, new)))
    if new:
        return f"| - | {code(new.text)} |"
    key = (crate, old.name)
    used.add(key)
    return "| {} | {} |".format(code(old.text), texts.get(key, "gone").replace("|", r"\|"))


def section(crate, rows, renamed, texts, used):
    """A crate's heading, its table, and what differs only in the names of codes."""
    lines = [f"## {crate}", ""]
    if rows:
        lines += ["| old | new |", "| --- | --- |"] + [row(crate, old, new, texts, used) for old, new in rows] + [""]
    if renamed:
        lines += ["Differ only in the names of codes: " + ", ".join(f"`{n}`" for n in renamed) + ".", ""]
    return "\n".join(lines)


def main(argv):
    if not argv or argv[0].startswith("-"):
        print(__doc__, file=sys.stderr)
        return 2
    before, after = of_commit(argv[0]), of_tree([a.split("=", 1) for a in argv[1:]])
    named = words_of(before) | words_of(after)
    olds, news, texts, used = items_of(before, named), items_of(after, named), stated(), set()
    counts = collections.Counter()
    print(f"# What changed since {argv[0]}\n")
    for crate in sorted(set(olds) | set(news)):
        rows, renamed = differing(olds[crate], news[crate])
        if rows or renamed:
            print(section(crate, rows, renamed, texts, used))
        counts.update(((old or new).kind, "changed" if old and new else "gone" if old else "new") for old, new in rows)
        counts["any kind", "renamed"] += len(renamed)
    for (kind, how), n in sorted(counts.items()):
        print(f"{kind}, {how}: {n}", file=sys.stderr)
    print("gone, and nothing said of it:", ", ".join(" ".join(k) for k in sorted(used - set(texts))) or "none", file=sys.stderr)
    print("said, and not gone:", ", ".join(" ".join(k) for k in texts if k not in used) or "none", file=sys.stderr)
    return 0


if __name__ == "__main__":
    sys.exit(main(sys.argv[1:]))
