#!/usr/bin/env python3
"""Turns the edit files of an older Rattle to the spelling that port.py gave the files they edit.

usage: python3 tools/port_edits.py LANDED [--only TEXT] [--keep FOLDER] [--dry]

Run at the top of a repository right after the kit's port.py; LANDED is the commit that port.py was run on. Each
crates/*/edits/*.edit and crates/*/must-fail/*.edit of LANDED is made on scratch copies of LANDED, those that lie apart at once;
port.py turns the copies, and what it makes of an edited file is compared with the ported file of the working tree. Edits that
cannot be told from one another in a copy are made again, one in a file. Each edit is rewritten in place only where it, applied to
the ported file, gives what port.py makes of the edited one, up to blank space and the order of imports.

--only TEXT   only edits whose name has TEXT
--keep FOLDER port.py's copies of edited files are kept in FOLDER, and taken from there by the next run
--dry         nothing is written
"""

import concurrent.futures
import difflib
import glob
import hashlib
import json
import os
import re
import shutil
import subprocess
import sys
import tempfile

RT = shutil.which("rt") or sys.exit("rt is not on the PATH")
PORT = os.path.join(os.path.dirname(os.path.dirname(os.path.realpath(RT))), "port")
SIDE = 3  # copies turned side by side
GAP = 4  # edits of one copy lie this many lines apart


def run(*words, where=".", **more):
    return subprocess.run(words, cwd=where, check=True, capture_output=True, text=True, **more).stdout


class Edit:
    def __init__(self, name, text):
        self.name, self.lines, self.file, self.pairs = name, text.split("\n"), None, []
        self.trouble, self.looks = None, []
        for l in self.lines:
            if l.startswith("file: "):
                self.file = os.path.join(*name.split("/")[:2], l[6:].strip())
            elif l.startswith("old: "):
                self.pairs.append([l[5:], None])
            elif l.startswith("new:"):
                self.pairs[-1][1] = l[5:]

    def on(self, text):
        """The text with this edit, and for each pair (line, column, old, new) where it was made."""
        return apply(self.pairs, text)

    def written(self, pairs):
        """The edit file with these pairs in place of its own; all else stays."""
        out, at = [], None
        for l in self.lines:
            if l.startswith("old: ") or l.startswith("new:"):
                if at is None:
                    at = len(out)
                continue
            out.append(l)
        told = []
        for old, new in pairs:
            told += ["old: " + old, ("new: " + new) if new else "new: "]
        return "\n".join(out[:at] + told + out[at:])


def apply(pairs, text):
    where = []
    for old, new in pairs:
        n = count(text, old)
        if n != 1:
            raise ValueError(f"stands {n} times: {old}")
        i = text.index(old)
        where.append((text.count("\n", 0, i), i - (text.rfind("\n", 0, i) + 1), old, new))
        text = text[:i] + new + text[i + len(old):]
    return text, where


def count(text, old):
    n = i = 0
    while old and (i := text.find(old, i)) >= 0:
        n, i = n + 1, i + 1
    return n


# Tokens

RT = re.compile(r"[\w'·]+|\S")
ANTT = re.compile(r"[^\s(){}\[\];,.·]+|\S")


def tokens(text, rt):
    """[(token, begin, end)]; a comma that only ends a broken list is none."""
    out = [(m.group(), m.start(), m.end()) for m in (RT if rt else ANTT).finditer(text)]
    if not rt:
        return out
    return [t for k, t in enumerate(out) if not (t[0] == "," and k + 1 < len(out) and out[k + 1][0] in ")]}" and "\n" in text[t[2]:out[k + 1][1]])]


def alike(word):
    """A word as it is in both spellings."""
    w = re.sub(r"[_\-◌·⌜⌝′']", "", word)
    return (w or word.replace("·", ".").replace("_", "◌")).lower()


def bare(text, rt):
    return [a for a in (alike(t[0]) for t in tokens(text, rt)) if a not in ("⌜", "⌝")]


IMPORT = re.compile(r"(?m)^[ \t]*((?:pub |ghost )*use )([^;{\n]*?)(?:\{([^}]*)\})?(;?)[ \t]*$")


def plain(text, rt):
    """The text without regard to blank space, to the order of imports and to how they are gathered."""
    found = set()

    def take(m):
        path, names = m.group(2).strip(), m.group(3)
        if names is None:
            cut = path.rfind("::")
            path, names = (path[:cut + 2], path[cut + 2:]) if cut >= 0 else (path, "")
        found.update((m.group(1), path, n.strip()) for n in names.split(",") if n.strip() or "," not in names)
        return ""

    rest = IMPORT.sub(take, text)
    return sorted(found), [t[0] for t in tokens(rest, rt)]


# Rounds

def rounds(edits, texts, alone):
    """Lists of edits to be made on one copy."""
    out = []
    for e in edits:
        lines = {w[0] for w in e.on(texts[e.file])[1]}
        for r in out:
            mine = r.get(e.file, [])
            if mine and (alone or e.imports or any(o.imports for o, _ in mine)):
                continue
            if all(abs(a - b) > GAP for _, ls in mine for a in ls for b in lines):
                break
        else:
            out.append(r := {})
        r.setdefault(e.file, []).append((e, lines))
    return [{f: [e for e, _ in es] for f, es in r.items()} for r in out]


TURN = "import sys; sys.dont_write_bytecode = True; sys.path.insert(0, sys.argv[1]); import port; port.SAID = sys.argv[2]; sys.exit(port.main([]) or 0)"


def turn(landed, round_, texts, base, keep):
    """What port.py makes of the files of a round, and of each other file that comes out other than it stands here."""
    made = {f: merged(es, texts[f]) for f, es in round_.items()}
    key = hashlib.sha256(json.dumps([landed, sorted(made.items())]).encode()).hexdigest()[:20]
    store = keep and os.path.join(keep, key + ".json")
    if store and os.path.exists(store):
        with open(store) as f:
            return tuple(json.load(f))
    top = tempfile.mkdtemp(prefix="port-edits-")
    try:
        tree, tmp = os.path.join(top, "tree"), os.path.join(top, "tmp")
        os.makedirs(tree)
        os.makedirs(tmp)
        with subprocess.Popen(["git", "archive", landed], stdout=subprocess.PIPE) as a:
            subprocess.run(["tar", "-x", "-C", tree], stdin=a.stdout, check=True)
        for out in glob.glob(os.path.join(tree, "crates/*/out")):
            shutil.rmtree(out)
        for f, text in made.items():
            with open(os.path.join(tree, f), "w") as it:
                it.write(text)
        run("git", "init", "-q", ".", where=tree)
        run("git", "add", "-A", where=tree)
        run("git", "-c", "user.name=port", "-c", "user.email=port@localhost", "commit", "-qm", "landed, edited", where=tree)
        r = subprocess.run([sys.executable, "-c", TURN, PORT, os.path.join(top, "said")], cwd=tree, capture_output=True, text=True, env=os.environ | {"TMPDIR": tmp})
        if r.returncode:
            raise RuntimeError("port.py: " + (r.stdout + r.stderr)[-1000:])
        got, other = {}, []
        for f in base:
            try:
                with open(os.path.join(tree, f)) as it:
                    text = it.read()
            except OSError:
                text = ""
            if f in made:
                got[f] = text
            elif text != base[f]:
                other.append(f)
    finally:
        shutil.rmtree(top, ignore_errors=True)
    if store:
        os.makedirs(keep, exist_ok=True)
        with open(store, "w") as f:
            json.dump([got, other], f, ensure_ascii=False)
    return got, other


def merged(edits, text):
    """Edits of different lines, all made."""
    lines = text.split("\n")
    for e in edits:
        mine = e.on(text)[0].split("\n")
        for n, _, _, _ in e.on(text)[1]:
            lines[n] = mine[n]
    return "\n".join(lines)


# What an edit has become

def line_map(landed, ported, rt):
    """For each line of the ported file the line of the landed one that it comes from, about."""
    a = [" ".join(bare(l, rt)) for l in landed]
    b = [" ".join(bare(l, rt)) for l in ported]
    out = [0] * (len(b) + 1)
    for tag, i1, i2, j1, j2 in difflib.SequenceMatcher(None, a, b, autojunk=False).get_opcodes():
        for j in range(j1, j2):
            out[j] = i1 + (j - j1) * (i2 - i1) // (j2 - j1)
    out[len(b)] = len(a)
    return out


def hunks(p, q):
    return [o[1:] for o in difflib.SequenceMatcher(None, p, q, autojunk=False).get_opcodes() if o[0] != "equal"]


def told_apart(edits, landed, p, q, rt):
    """{edit: its hunks}, or None where some hunk is nobody's for certain."""
    back = line_map(landed.split("\n"), p, rt)
    out = {e: [] for e in edits}
    for h in hunks(p, q):
        lo, hi = back[h[0]], back[max(h[0], h[1] - 1)]
        far = []
        for e in edits:
            lines = [w[0] for w in e.on(landed)[1]]
            far.append((min(max(lo - n, n - hi, 0) for n in lines), e))
        far.sort(key=lambda x: x[0])
        if len(far) > 1 and (far[0][0] > 2 or far[1][0] - far[0][0] < 2):
            return None
        out[far[0][1]].append(h)
    return out


def changed(a, b, rt):
    """What goes and what comes, in words of both spellings, brackets apart."""
    a, b = ([w for w in bare(x, rt) if w not in "()"] for x in (a, b))
    gone, come = [], []
    for tag, i1, i2, j1, j2 in difflib.SequenceMatcher(None, a, b, autojunk=False).get_opcodes():
        if tag != "equal":
            gone += a[i1:i2]
            come += b[j1:j2]
    return sorted(gone), sorted(come)


def image(ops, t, end):
    """Where a bound of tokens lies on the other side."""
    k = t - 1 if end else t
    for tag, i1, i2, j1, j2 in ops:
        if i1 <= k < i2:
            if tag == "equal" or i2 - i1 == j2 - j1:
                return j1 + (k - i1) + (1 if end else 0)
            return j2 if end else j1
    return 0 if k < 0 else (ops[-1][4] if ops else 0)


def gathered(text):
    """A text on one line."""
    text = re.sub(r"(?<=[(\[])\s*\n\s*", "", text)
    text = re.sub(r",?\s*\n\s*(?=[)\]])", "", text)
    text = re.sub(r",\s*\n\s*(?=\})", " ", text)
    return re.sub(r"\s*\n\s*", " ", text)


class Change:
    """A range of tokens of one ported line, and what it becomes."""


def changes(p, q, rt):
    """The changes from the ported file to the edited one, at most one a line."""
    out = []
    for i1, i2, j1, j2 in hunks(p, q):
        # a whole line that comes in is told with the line before it
        while i1 == i2 or not any(l.strip() for l in p[i1:i2]):
            if i1 == 0:
                i2, j2 = i2 + 1, j2 + 1
            else:
                i1, j1 = i1 - 1, j1 - 1
        pt, qt = "\n".join(p[i1:i2]), "\n".join(q[j1:j2])
        a, b = tokens(pt, rt), tokens(qt, rt)
        x, y = [t[0] for t in a], [t[0] for t in b]
        if x == y:
            continue
        # what both begin and end with stays
        s = 0
        while s < min(len(x), len(y)) and x[s] == y[s]:
            s += 1
        e = 0
        while e < min(len(x), len(y)) - s and x[-1 - e] == y[-1 - e]:
            e += 1
        row = [i1 + pt.count("\n", 0, t[1]) for t in a]
        spans = [(s, len(x) - e, s, len(y) - e)]
        if len(x) - e - s > 0 and row[s] != row[len(x) - e - 1]:
            spans = []
            mid = difflib.SequenceMatcher(None, x[s:len(x) - e], y[s:len(y) - e], autojunk=False).get_opcodes()
            for tag, a1, a2, b1, b2 in mid:
                if tag == "equal":
                    continue
                a1, a2, b1, b2 = a1 + s, a2 + s, b1 + s, b2 + s
                if a1 == a2:
                    spans.append((a1, a2, b1, b2))
                    continue
                # line by line: the first line of a span takes what comes, but where as many lines come each takes its own
                rows = sorted(set(row[a1:a2]))
                brow = [j1 + qt.count("\n", 0, t[1]) for t in b]
                brows = sorted(set(brow[b1:b2]))
                at = b1
                for n, r in enumerate(rows):
                    k1 = next(k for k in range(a1, a2) if row[k] == r)
                    k2 = max(k for k in range(a1, a2) if row[k] == r) + 1
                    if len(rows) == len(brows):
                        to = max(k for k in range(b1, b2) if brow[k] == brows[n]) + 1
                    else:
                        to = b2
                    spans.append((k1, k2, at, to))
                    at = to
        # one span a line
        byrow = {}
        for a1, a2, b1, b2 in spans:
            r = row[a1] if a1 < a2 else row[a1 - 1] if a1 > 0 else row[0]
            if r in byrow:
                o = byrow[r]
                byrow[r] = (min(o[0], a1), max(o[1], a2), min(o[2], b1), max(o[3], b2))
            else:
                byrow[r] = (a1, a2, b1, b2)
        for r, (a1, a2, b1, b2) in sorted(byrow.items()):
            c = Change()
            c.row, c.a, c.b, c.pt, c.qt, c.span = r, a, b, pt, qt, (a1, a2, b1, b2)
            c.first, c.last = min(k for k in range(len(a)) if row[k] == r), max(k for k in range(len(a)) if row[k] == r) + 1
            c.more = j2 - j1 > i2 - i1
            c.line = p[r]
            out.append(c)
    return out


def one_import(cs, q):
    """An import that goes whole, where names come to another: the one takes the other's place on its line, as the landed edit had it."""
    lost = [c for c in cs if IMPORT.match(c.line) and c.span[0] == c.first and c.span[1] == c.last and c.span[2] == c.span[3]]
    more = [c for c in cs if IMPORT.match(c.line) and c.span[0] == c.span[1]]
    if len(lost) != 1 or len(more) != 1:
        return cs
    came = [t[0] for t in more[0].b[more[0].span[2]:more[0].span[3]] if t[0] != ","]
    lost[0].becomes = more[0].line[:more[0].line.index("{") + 1] + ", ".join(came) + more[0].line[more[0].line.index("}"):]
    return [c for c in cs if c is not more[0]]


def choose(c, cur, src, rt):
    """A pair for a change: cur is the ported text with the earlier pairs, src is (landed line, begin, end) of the old TEXT."""
    if hasattr(c, "becomes"):
        return c.line, c.becomes
    a1, a2, b1, b2 = c.span
    lo, hi = a1, a2
    blanks = False
    if src:
        line, begin, end = src
        lt = tokens(line, rt)
        ops = difflib.SequenceMatcher(None, [alike(t[0]) for t in lt], [alike(t[0]) for t in c.a[c.first:c.last]], autojunk=False).get_opcodes()
        t1 = next((k for k, t in enumerate(lt) if t[2] > begin), len(lt))
        t2 = max((k + 1 for k, t in enumerate(lt) if t[1] < end), default=0)
        if t1 < t2 and ops:
            lo, hi = min(a1, c.first + image(ops, t1, False)), max(a2, c.first + image(ops, t2, True))
            if lo > a2 or hi < a1:
                lo, hi = a1, a2
        blanks = begin == 0 and line[:1] == " " and lo == c.first
        if IMPORT.match(c.line) and len(c.line) <= 110:
            lo, hi = c.first, c.last
    lo, hi = max(lo, c.first), min(hi, c.last)
    # `f x .y` is now `(f x).y`: with its first bracket
    while lo > c.first and c.a[lo - 1][0] == "(" and sum((t[0] == "(") - (t[0] == ")") for t in c.a[lo:hi]) < 0:
        lo -= 1

    def text(lo, hi):
        x, y = b1 - (a1 - lo), b2 + (hi - a2)
        if lo >= hi or x < 0 or y > len(c.b):
            return None
        old = c.pt[c.a[lo][1]:c.a[hi - 1][2]]
        new = gathered(c.qt[c.b[x][1]:c.b[y - 1][2]]) if x < y else ""
        return old, new

    def better(lo, hi):
        for add in range(0, c.last - c.first + 1):
            for right in [(add + 1) // 2] + sorted(set(range(add + 1)) - {(add + 1) // 2}, key=lambda r: abs(2 * r - add)):
                l, h = lo - (add - right), hi + right
                if l < c.first or h > c.last:
                    continue
                t = text(l, h)
                if t and count(cur, t[0]) == 1 and (t[1] or (l, h) == (c.first, c.last)):
                    return l, h, t
        return None

    indent = c.line[:len(c.line) - len(c.line.lstrip())]
    got = picked(lo, hi, blanks, indent, text, better, c, cur)
    # a comma that ends a broken list
    if got and src and src[0][:src[2]].endswith(",") and count(cur, got[0] + ",") == 1 and c.line.endswith(got[0] + ","):
        got = got[0] + ",", got[1] + ","
    return got


def picked(lo, hi, blanks, indent, text, better, c, cur):
    if blanks:
        t = text(lo, hi)
        if t and count(cur, indent + t[0]) == 1:
            return indent + t[0], indent + t[1]
    got = better(lo, hi)
    if got:
        return got[2]
    t = text(c.first, c.last)
    if t and count(cur, indent + t[0]) == 1:
        return indent + t[0], indent + t[1]
    return None


def convert(e, landed, p, q, rt):
    """The pairs that make q of p, or a ValueError."""
    pl, ql = p.split("\n"), q.split("\n")
    back = line_map(landed.split("\n"), pl, rt)
    where = e.on(landed)[1]
    base = landed.split("\n")
    cs = changes(pl, ql, rt)
    if not cs:
        raise ValueError("port.py makes no difference of it")
    cs = one_import(cs, ql)
    # each change goes with the pair that it comes from: the nearest
    for c in cs:
        c.pair = min(range(len(where)), key=lambda k: (abs(where[k][0] - back[c.row]), k))
    same = len({w[0] for w in where}) < len(where)
    cs.sort(key=lambda c: (c.pair, c.row))
    cur, out = p, []
    for c in cs:
        n, col, old, _ = where[c.pair]
        src = (base[n], col, col + len(old)) if base[n][col:col + len(old)] == old else None
        if same and src:
            mine = [w for w in where if w[0] == n]
            if len(mine) > 1:
                src = (base[n], min(w[1] for w in mine), max(w[1] + len(w[2]) for w in mine))
        pair = choose(c, cur, src, rt)
        if pair is None:
            raise ValueError("no text of the line stands once: " + c.line)
        out.append(list(pair))
        cur = apply([pair], cur)[0]
        if c.more and not rt:
            e.looks.append("a line more, told on one: " + pair[1])
    if len(out) != len(e.pairs):
        e.looks.append(f"{len(e.pairs)} pairs became {len(out)}")
    if plain(cur, rt) != plain(q, rt):
        d = [l for l in difflib.unified_diff(q.split("\n"), cur.split("\n"), "wanted", "given", n=0, lineterm="")]
        raise ValueError("gives another text:\n    " + "\n    ".join(d[:12]))
    return out, cur == q


def main(argv):
    only = keep = None
    dry = "--dry" in argv
    argv = [a for a in argv if a != "--dry"]
    if "--only" in argv:
        i = argv.index("--only")
        only = argv[i + 1]
        del argv[i:i + 2]
    if "--keep" in argv:
        i = argv.index("--keep")
        keep = os.path.abspath(argv[i + 1])
        del argv[i:i + 2]
    if len(argv) != 1 or not os.path.isdir("crates"):
        print(__doc__)
        return 2
    landed = run("git", "rev-parse", "--verify", argv[0] + "^{commit}").strip()
    names = run("git", "-c", "core.quotePath=false", "ls-tree", "-r", "--name-only", landed, "crates/").split("\n")
    base, texts, edits = {}, {}, []
    for n in names:
        if n.endswith((".rt", ".antt")) and "/out/" not in n and os.path.exists(n):
            with open(n) as f:
                base[n] = f.read()
    for n in names:
        if re.fullmatch(r"crates/[^/]+/(edits|must-fail)/[^/]+\.edit", n):
            edits.append(Edit(n, run("git", "show", f"{landed}:{n}")))
    print(f"{len(edits)} edits", flush=True)
    if only:
        edits = [e for e in edits if only in e.name]
    for e in edits:
        if e.file not in base:
            e.trouble = f"no file {e.file}"
            continue
        if e.file not in texts:
            texts[e.file] = run("git", "show", f"{landed}:{e.file}")
        e.imports = any(re.match(r"\s*(pub |ghost )*use ", x) for pair in e.pairs for x in pair)
        try:
            e.on(texts[e.file])
        except ValueError as x:
            e.trouble = f"in LANDED its text {x}"
    todo = [e for e in edits if not e.trouble]
    done = {}
    for alone in (False, True):
        rs = rounds(todo, texts, alone)
        print(f"{len(todo)} edits, {'one in a file' if alone else 'apart'}: {len(rs)} rounds", flush=True)
        again = []
        with concurrent.futures.ThreadPoolExecutor(SIDE) as pool:
            for r, (got, other) in zip(rs, pool.map(lambda r: turn(landed, r, texts, base, keep), rs)):
                if other:
                    print(f"look: a round changes other files too: {', '.join(other)}", flush=True)
                for f, es in r.items():
                    rt = f.endswith(".rt")
                    p, q = base[f], got[f]
                    pl, ql = p.split("\n"), q.split("\n")
                    if len(es) == 1:
                        mine = {es[0]: hunks(pl, ql)}
                    else:
                        mine = told_apart(es, texts[f], pl, ql, rt)
                    for e in es:
                        e.trouble, e.looks = None, []
                        try:
                            if mine is None:
                                raise ValueError("not told apart")
                            want = pl[:]
                            for i1, i2, j1, j2 in sorted(mine[e], reverse=True):
                                want[i1:i2] = ql[j1:j2]
                            want = "\n".join(want)
                            pairs, exact = convert(e, texts[f], p, want, rt)
                            if changed(texts[f], e.on(texts[f])[0], rt) != changed(p, want, rt):
                                if len(es) > 1:
                                    raise ValueError("words other than the edit's change")
                                e.looks.append("words other than the edit's change")
                            if not exact:
                                e.looks.append("blank space or imports other than port.py's")
                            done[e] = (pairs, exact)
                        except ValueError as x:
                            e.trouble = str(x)
                            # what fails alone in its file fails again
                            if not alone and len(es) > 1:
                                again.append(e)
        todo = again
        if not todo:
            break
    good = [e for e in edits if e in done and not e.trouble]
    for e in edits:
        for l in e.looks:
            print(f"look: {e.name}: {l}")
    for e in edits:
        if e not in good:
            print(f"by hand: {e.name}: {e.trouble}")
    for e in good:
        if not dry:
            with open(e.name, "w") as f:
                f.write(e.written(done[e][0]))
    print(f"{len(good)} of {len(edits)} edits turned and verified, {sum(done[e][1] for e in good)} of them to the letter; {len(edits) - len(good)} by hand")
    return 0 if len(good) == len(edits) else 1


if __name__ == "__main__":
    raise SystemExit(main(sys.argv[1:]))
