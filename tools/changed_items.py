"""Reads what tools/changed.py compares: the items of a source file of Rattle, the definitions of a file of specs, and the public lemmas
of a file of proofs, each with its text in one line, without comments and imports."""

import collections
import re

# shown: whether it is listed where it changed; what is gone is always listed
Item = collections.namedtuple("Item", "kind name text file shown")


def squeeze(text):
    return re.sub(r"\s+", " ", text).strip()


# ---- sources

STRING = r'"(?:\\.|[^"\\])*"'
HEAD = re.compile(
    r"(?P<pub>pub(\([^)]*\))?\s+)?(?:(?P<fn>(?:(?:const|unsafe|async|extern)\s+)*fn)\s+(?P<fname>\w+)"
    r"|(?P<word>struct|enum|trait|impl|mod|const|static|type|use)\b\s*(?P<name>[\w']*)|(?P<ghost>ghost)\s+(?P<gname>[\w']+))"
)
KINDS = {"const": "constant", "static": "constant", "ghost": "ghost item"}


def uncommented(text):
    """The text with comments as blanks."""
    return re.sub(STRING + r"|//[^\n]*", lambda m: m[0] if m[0][0] == '"' else " " * len(m[0]), text)


def unquoted(text):
    return re.sub(STRING, lambda m: " " * len(m[0]), text)


def closing(text, i):
    """Behind the bracket that closes the one at i."""
    deep = 0
    for k in range(i, len(text)):
        deep += (text[k] in "([{") - (text[k] in ")]}")
        if deep == 0:
            return k + 1
    return len(text)


def until(text, i, stops):
    """The first of `stops` from i on that stands in no bracket."""
    while i < len(text) and text[i] not in stops:
        i = closing(text, i) if text[i] in "([{" else i + 1
    return i


def head_end(text, i):
    """Where a function's head ends: at its body or its semicolon, behind all clauses."""
    while True:
        j = until(text, i, "{;")
        if j >= len(text) or text[j] == ";" or not re.search(r"\b(requires|ensures)\*?(\s+[\w']+)?\s*$", text[i:j]):
            return j
        i = closing(text, j)


def function_end(text, i):
    """Where a function ends, with its body."""
    j = head_end(text, i)
    return closing(text, j) if text[j] == "{" else j + 1


def owner_of(header):
    """What an impl's items are of: `Type`, or `<Type as Trait>`."""
    rest = squeeze(header)[4:].strip()
    if rest.startswith("<"):
        deep, k = 1, 1
        while deep:
            deep += (rest[k] == "<") - (rest[k] == ">")
            k += 1
        rest = rest[k:].strip()
    parts = re.split(r"\s+for\s+", re.sub(r"\s+where\b.*", "", rest))
    kind = re.sub(r"<.*", "", parts[-1]).strip()
    return f"<{kind} as {parts[0]}>" if len(parts) == 2 else kind


def sources(text, file):
    """The items of a source file."""
    text = uncommented(text)
    out = []
    walk((text, unquoted(text), file), 0, len(text), "", False, out)
    return out


def walk(source, i, end, owner, in_trait, out):
    """The items between i and end, which are of `owner`."""
    text, plain, _ = source
    layout = ""
    while i < end:
        m = HEAD.match(plain, i)
        if plain[i] == "#":
            j = closing(plain, plain.index("[", i))
            layout += text[i:j] + " " if "repr" in plain[i:j] else ""
            i = j
        elif m:
            i = read_item(source, m, owner, in_trait, layout, out)
            layout = ""
        else:
            i = re.compile(r"\w+|.", re.S).match(plain, i).end()


def read_item(source, m, owner, in_trait, layout, out):
    """One item from its head on; behind it."""
    text, plain, file = source
    start, path = m.start(), (owner + "::" if owner else "")
    if m["fn"]:
        shown = bool(m["pub"]) or in_trait or owner.startswith("<")
        head = text[start : m.start("fname")] + path + text[m.start("fname") : head_end(plain, m.end())]
        out.append(Item("function", path + m["fname"], squeeze(head), file, shown))
        return function_end(plain, m.end())
    word, name = m["word"] or "ghost", m["name"] or m["gname"] or ""
    if word in ("use", "mod") or name == "use" or (word == "type" and owner):
        return until(plain, m.end(), ";") + 1
    if word in ("impl", "trait"):
        return read_block(source, m, layout, out)
    j = until(plain, m.end(), ";" if word in ("const", "static", "type", "ghost") else "{;")
    stop = closing(plain, j) if plain[j] == "{" else j
    if not in_trait:
        at = m.start("name") if m["name"] else m.start("gname")
        whole = layout + text[start:at] + path + text[at:stop]
        out.append(Item(KINDS.get(word, "type"), path + name, squeeze(whole), file, True))
    return max(stop, j + 1)


def read_block(source, m, layout, out):
    """An impl or a trait, with the items in it; behind it. A trait's own text has all but its functions."""
    text, plain, file = source
    j = until(plain, m.start(), "{")
    stop, header = closing(plain, j), text[m.start() : j]
    if m["word"] == "trait":
        rest = rest_of_trait(text, plain, j + 1, stop - 1)
        out.append(Item("type", m["name"], layout + squeeze(header + "{ " + rest + " }"), file, True))
        walk(source, j + 1, stop - 1, m["name"], True, out)
    elif re.search(r"\bModel\s+for\b", header):
        out.append(Item("model", owner_of(header), squeeze(without_imports(text[m.start() : stop])), file, True))
    else:
        walk(source, j + 1, stop - 1, owner_of(header), False, out)
    return stop


def without_imports(text):
    return re.sub(r"\bghost\s+use\b[^;]*;", "", text)


def rest_of_trait(text, plain, i, end):
    out = ""
    while i < end:
        m = re.compile(r"fn\s+\w+").match(plain, i)
        if plain[i] == "#":
            i = closing(plain, plain.index("[", i))
        elif m:
            i = function_end(plain, m.end())
        else:
            word = re.compile(r"\w+|.", re.S).match(plain, i)
            out, i = out + text[i : word.end()], word.end()
    return without_imports(out)


# ---- definitions and lemmas

STARTS = re.compile(r"(abbrev|unfoldable|opaque|pub|record|data|instance)\s")
IMPORT = re.compile(r"(pub\s+)?(use|mod|open|module)\b")
DEFINITION = re.compile(r"(?:(?:abbrev|unfoldable|opaque|pub|instance)\s+)*((?:record|data)\s+)?(\S+)")
MODULE = re.compile(r"\s*(?:pub\s+)?module\s+\S+(.*)\bwhere\s*$")
PUBLIC = re.compile(r"\s*((?:abbrev|unfoldable|opaque)\s+)?pub\s+((?:record|data)\s+)?(?!use\b|mod\b|open\b)(\S+)")


def lines_of(text):
    return [re.sub(r"(^|\s)--(\s.*|-*)?$", "", line) for line in text.split("\n")]


def definitions(text, file):
    """The definitions of a file of specs, each from its name (of a record or data from that word) to the next one."""
    out, name, lines = [], None, []
    for line in lines_of(text) + ["use"]:
        if not (STARTS.match(line) or IMPORT.match(line)):
            lines.append(line)
            continue
        if name:
            out.append(Item("definition", name, squeeze(" ".join(lines)), file, True))
        m = DEFINITION.match(line)
        name = None if IMPORT.match(line) else m[2]
        lines = [line[m.start(1) if m[1] else m.start(2) :]]
    return out


def indent_of(line):
    return len(line) - len(line.lstrip())


def statement(lines, i, m):
    """From line i on the statement of what m has found there, of a definition with its equations."""
    text = lines[i][m.start(2) if m[2] else m.start(3) :]
    for line in lines[i + 1 :]:
        equation = m[1] and re.match(re.escape(m[3]) + r"(\s|$)", line.strip())
        if line.strip() and indent_of(line) <= indent_of(lines[i]) and not equation:
            break
        text += " " + line
    return squeeze(text)


def lemmas(text, file, named):
    """The public lemmas and definitions of a file of proofs, with the parameters of the modules that they stand in."""
    out, around, lines = [], [], lines_of(text)
    for i, line in enumerate(lines):
        if not line.strip():
            continue
        indent = indent_of(line)
        around = [a for a in around if a[0] < indent]
        module, m = MODULE.match(line), PUBLIC.match(line)
        if module:
            around.append((indent, squeeze(module[1])))
        elif m and all(a[1] is not None for a in around):
            within = " ".join(a[1] for a in around if a[1])
            of = f"(of {within}) " if within else ""
            kind = "definition" if m[1] or m[2] else "lemma"
            out.append(Item(kind, m[3], of + statement(lines, i, m), file, m[3] in named))
        if re.match(r"\s*(pub\s+)?(record|data)\b", line):
            around.append((indent, None))
    return out
