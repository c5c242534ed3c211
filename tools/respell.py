#!/usr/bin/env python3
"""respell.py: the spelling of the repository's own names after port.py.

It goes by tokens, over crates/*/{src,specs,proofs,edits,must-fail}. Renamed
are definitions, lemmas and fields of specs/ and proofs/ alone:

- camel case becomes snake case: `sinhOf`, `sinh_of`;
- a definition of specs/, a field and a constructor have no dash: `a-check`,
  `a_check`;
- in a lemma's name a dash stays where it joins two names of definitions
  (`low-le-high`), and else becomes `_` (`low_zero`).

Types keep their capitals, and so do the symbols of the rules (Lo, Hi, S9, G,
T_units). Functions of src/, exported names and strings are not touched.
It stops where two names would fall together.
"""
import re
import sys
from dataclasses import dataclass
from pathlib import Path

ROOT = Path(__file__).resolve().parent.parent
MODIFIER = r"(?:(?:abbrev|unfoldable|pub|private|opaque)\s+)*"
DECLARED = re.compile(rf"^( *){MODIFIER}([^\s:(){{}},;.λ]+(?: [^\s:(){{}},;.λ]+)*) :(?: |$)")
KIND = re.compile(rf"^( *){MODIFIER}(record|data)\s+(\S+)")
TOKEN = re.compile(r"[^\s(){}\[\],;.`\"⟨⟩]+")
IMPORT = re.compile(r"^\s*(?:pub )?(?:ghost )?use ([^\s{;]+?)(?:\.\{([^}]*)\})?(?: as ([^\s;]+))?;?$")
WORDS = set("""le lt eq ne add sub mul div mod rem neg pow min max abs length take
drop append map sum set get zero suc cons nil not and or one true false""".split())
KEEPS = set("Type where let in of".split())
# Where two names would fall together: a test says `is`, and a lemma that would
# have a definition's name gets `_lem`.
APART = {"badA": "is_bad_a", "badM": "is_bad_m", "inOrder": "is_in_order",
         "belowZero": "is_below_zero", "above-by": "above_by_lem",
         "at-depth": "at_depth_lem", "below_by": "below_by_lem",
         "confirmed-by": "confirmed_by_lem", "judged-as": "judged_as_lem",
         "off-range": "off_range_lem", "refuted-by": "refuted_by_lem",
         "verdict-of": "verdict_of_lem"}
APART_IN = {"enclosure": {"lower-end": "lower_end_lem",
                          "upper-end": "upper_end_lem"}}
# Names that may fall together: no file has both, or one is a field.
MAY = {"lower_end", "upper_end", "mirror_end", "mirror_double", "off_by",
       "on_grid"}


def files(*parts):
    for part in parts:
        for path in sorted(ROOT.glob(f"crates/*/{part}/**/*")):
            if path.suffix in (".rt", ".antt", ".edit"):
                yield path


def section(path):
    return path.relative_to(ROOT).parts[2]


def declared(text):
    """(indent, name, inside) of each name that a file declares: inside is
    'record', 'data' or '' for the block that it stands in."""
    block, depth = "", 0
    for line in text.split("\n"):
        if not line.strip() or line.lstrip().startswith("--"):
            continue
        indent = len(line) - len(line.lstrip())
        if block and indent <= depth:
            block = ""
        kind = KIND.match(line)
        if kind:
            yield len(kind[1]), kind[3], kind[2] + " itself"
            block, depth = kind[2], indent
            continue
        found = DECLARED.match(line)
        if found:
            for name in found[2].split():
                yield indent, name, block
        for binder in re.findall(r"^infix[lr]? \d+ (.*)$", line):
            for name in binder.split():
                yield 0, name, ""


def own_names():
    """What is declared: definitions of specs/, lemmas, fields."""
    specs, lemmas, fields = set(), set(), set()
    for path in files("specs", "proofs"):
        if path.suffix != ".antt" or path.name == "Proof.antt":
            continue
        for indent, name, inside in declared(path.read_text()):
            if inside.endswith("itself"):
                continue
            if inside:
                fields.add(name)
            elif section(path) == "specs":
                specs.add(name)
            else:
                lemmas.add(name)
    return specs, lemmas, fields


def snake(name):
    """Camel case undone where the name begins with a small letter."""
    core = re.sub(r"(?<=[a-z0-9])([A-Z]+)(?=[a-z]|$|[^A-Za-z])",
                  lambda m: "_" + m[1].lower(), name)
    return re.sub(r"(?<=[a-z0-9])([A-Z])", lambda m: "_" + m[1].lower(), core)


def is_symbol(name):
    return "◌" in name or name in KEEPS or re.fullmatch(r"\W+", name)


def part_spelled(part):
    return snake(part) if part[:1].islower() or part[:1] == "_" else part


def spelled(name, lemma, definitions):
    """The name in today's spelling."""
    if is_symbol(name) or name.rstrip("+-") != name:
        return name
    name = name.replace("′", "'")
    parts = name.split("-")
    turned = [part_spelled(part) for part in parts]
    out = turned[0]
    for before, old, new in zip(parts, parts[1:], turned[1:]):
        joins = lemma and before in definitions and old in definitions
        out += ("-" if joins else "_") + new
    return out


def renamings():
    specs, lemmas, fields = own_names()
    definitions = specs | WORDS
    found = {}
    for name in specs | fields:
        found[name] = spelled(name, False, definitions)
    for name in lemmas - specs - fields:
        found[name] = spelled(name, True, definitions)
    found.update({old: new for old, new in APART.items() if old in found})
    changed = {old: new for old, new in found.items() if old != new}
    fallen = {}
    for old, new in found.items():
        fallen.setdefault(new, []).append(old)
    together = {new: olds for new, olds in fallen.items()
                if len(olds) > 1 and new not in MAY}
    return changed, together, specs, lemmas, fields


def foreign(text, changed):
    """Names of the mapping that a file imports from elsewhere, or that the
    prover makes for it."""
    found = set()
    for line in text.split("\n"):
        line = line.split("--")[0].rstrip()
        said = IMPORT.match(line.strip())
        if not said or not said[2]:
            continue
        if re.match(r"Rattle\.(std|core)\b", said[1]) or not said[1].startswith("Rattle."):
            for item in said[2].split(","):
                found.add(item.split(" as ")[-1].strip())
    return found & set(changed)


def aliases(text):
    """Modules of the repository that a file has under another name."""
    return {said[3] for said in map(IMPORT.match, text.split("\n"))
            if said and said[3] and said[1].startswith("Rattle.")}


@dataclass(frozen=True)
class Names:
    changed: dict
    fields: frozenset
    aliases: frozenset


def comment_at(line, mark):
    at = line.find(mark)
    return len(line) if at < 0 else at


def respell_code(code, names):
    """After a dot stands a field, or a name of a module under another name."""
    def turned(found):
        name = found[0]
        if name not in names.changed:
            return name
        before = code[:found.start()]
        if before.endswith(".") and name not in names.fields:
            alias = re.search(r"([^\s(){}\[\],;.`]+)\.$", before)
            if not alias or alias[1] not in names.aliases:
                return name
        return names.changed[name]
    return TOKEN.sub(turned, code)


def respell_line(line, names, mark):
    """Names in code, and in a comment those between backquotes."""
    at = comment_at(line, mark)
    said = re.sub(r"`[^`]*`", lambda m: respell_code(m[0], names), line[at:])
    return respell_code(line[:at], names) + said


def respell(text, names, mark):
    return "\n".join(respell_line(line, names, mark) for line in text.split("\n"))


def respell_edit(path, names_of):
    """The pairs of an edit by the names of the file that they change."""
    crate, target, out = path.parents[1], None, []
    for line in path.read_text().split("\n"):
        if line.startswith("file: "):
            target = crate / line[6:].strip()
        if line.startswith("at: ") and " " in line[4:]:
            head, _, name = line[4:].rpartition(" ")
            names, _ = names_of(crate / head)
            line = f"at: {head} {names.changed.get(name, name)}"
        elif line.startswith(("old:", "new:")):
            names, mark = names_of(target)
            line = line[:4] + respell_line(line[4:], names, mark)
        out.append(line)
    return "\n".join(out)


def main():
    changed, together, specs, lemmas, fields = renamings()
    if together:
        for new, olds in sorted(together.items()):
            print(f"fall together as {new}: {' '.join(sorted(olds))}")
        if "--force" not in sys.argv:
            raise SystemExit(1)
    if "--list" in sys.argv:
        for old in sorted(changed):
            print(old, changed[old])
        return
    texts = {path: path.read_text() for path in files("src", "specs", "proofs")}

    def names_of(path):
        text = texts.get(path, "")
        mark = "//" if path and path.suffix == ".rt" else "--"
        away = foreign(text, changed)
        own = APART_IN.get(path.relative_to(ROOT).parts[1], {}) if path else {}
        here = {k: v for k, v in (changed | own).items() if k not in away}
        return Names(here, frozenset(fields), frozenset(aliases(text))), mark

    turned = {}
    for path, text in texts.items():
        names, mark = names_of(path)
        turned[path] = respell(text, names, mark)
    for path in files("edits", "must-fail"):
        turned[path] = respell_edit(path, names_of)
    for path, text in turned.items():
        path.write_text(text)
    print(f"respell: {len(changed)} names")


if __name__ == "__main__":
    main()
