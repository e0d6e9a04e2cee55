#!/usr/bin/env python3
"""Spells the definitions and lemmas of this repository as today's Rattle spells them.

usage: python3 tools/respell.py [--dry]     at the top of the repository, once, after the toolchain's port.py

Types and facts get camel case (`Keeps-runs` becomes `KeepsRuns`), every other word snake case (`fuse-body` becomes `fuse_body`).
A dash stays behind the name of a type that a word begins with, as in `Expr-discrete`.
Names of functions in src/, strings, comments and the names that Rattle makes of the code keep their spelling.
It prints what it renames, and stops where two names would fall together.
"""
import re
import sys
from pathlib import Path

ROOT = Path(".")
WORD = re.compile(r"(?<![\w'-])([^\W\d][\w']*(?:-[\w'₀-₉]+)*\??)(?![\w'?-])")
OWN_USE = re.compile(r"^\s*(?:pub )?(?:ghost )?use (Rattle\.(\w+)[^{;\n]*?)(?:\.\{([^}]*)\})?;?\s*$")
ANY_USE = re.compile(r"^\s*(?:pub )?(?:ghost )?use ([^{;\n]+?)(?:\.\{([^}]*)\})?;?\s*$")
HEAD = re.compile(r"^(\s*)((?:pub |abbrev |unfoldable |package )*)(data |record |ruleset )?(" + r"[^\W\d][\w'₀-₉-]*\??(?: [^\W\d][\w'₀-₉-]*\??)*" + r")((?: [({][^:]*:[^)}]*[)}])*) :(.*)$")


def crates():
    return sorted(p.name for p in (ROOT / "crates").iterdir() if (p / "src").is_dir())


def files(kind):
    for c in crates():
        for p in sorted((ROOT / "crates" / c).rglob("*." + kind)):
            if "out" not in p.parts:
                yield p


def is_generated(path):
    """Files whose top names are goals, invariants and the like: Rattle makes those names."""
    return path.name in ("Answers.antt", "Invariants.antt", "Choices.antt", "Proof.antt")


def declarations(path):
    """The names that a file declares: (name, whether it is a type, whether it is a lemma's file)."""
    lines = path.read_text().split("\n")
    lemma = "proofs" in path.parts
    for i, line in enumerate(lines):
        if line.lstrip().startswith("--"):
            continue
        m = re.search(r"deriving \w+ as ([^\s]+)", line)
        if m:
            yield m.group(1), False, False
        m = HEAD.match(line)
        if not m:
            m2 = re.match(r"^(infix[lr]?) \d+ (\S+)", line)
            continue
        indent, marks, kind, name, _, rest = m.groups()
        if is_generated(path) and re.search(r"\b(goal|given)\.", rest):
            continue
        text = rest
        j = i + 1
        while j < len(lines) and lines[j].startswith(indent + "    ") and not lines[j].lstrip().startswith("--") and not HEAD.match(lines[j]):
            text += " " + lines[j].strip()
            j += 1
        is_type = (kind or "").strip() in ("data", "record") or re.search(r"Type (\d+|ℓ)\s*(where)?\s*$", text) is not None
        for word in name.split():
            yield word, is_type, lemma


def camel(name):
    return "".join(p[:1].upper() + p[1:] for p in re.split("[-_]", name))


def own(module):
    m = re.match(r"Rattle\.(\w+)", module)
    return bool(m) and m.group(1) in crates()


def table():
    kinds, lemmas = {}, set()
    for p in files("antt"):
        for name, is_type, lemma in declarations(p):
            if is_type:
                kinds[name] = "type"
            else:
                kinds.setdefault(name, "lemma" if lemma else "word")
                if not lemma and kinds[name] == "lemma":
                    kinds[name] = "word"
    turned = {}
    for name, kind in kinds.items():
        if kind == "type":
            new = camel(name) if ("-" in name or name[:1].islower()) else name
        elif "-" not in name:
            continue
        else:
            # a word that begins with a type's name keeps the dash behind it
            m = re.match(r"([A-Z][\w']*)-(.*)", name)
            new = m.group(1) + "-" + m.group(2).replace("-", "_") if m else name.replace("-", "_")
        if new != name:
            turned[name] = new
    return kinds, turned


def turn_text(text, turned, outside, rt):
    """Replaces the names in a file's text, but for those that the file has from elsewhere, in comments and in strings."""
    out = []
    goals = set(re.findall(r"([^\s]+) : (?:goal|given)\.", text)) | set(re.findall(r"deriving \w+ as (\S+)", text))
    lines = text.split("\n")
    names = {n: t for n, t in turned.items() if n not in outside}
    for line in lines:
        mark = "//" if rt else "--"
        k = find_comment(line, mark)
        code, comment = line[:k], line[k:]
        if rt and '"' in code:
            out.append(line)
            continue
        use = ANY_USE.match(code)
        if use and not own(use.group(1)):
            out.append(line)
            continue
        code = WORD.sub(lambda m: replace(m, names, code), code)
        if not rt:
            code = WORD.sub(lambda m: local(m, goals | outside, code), code)
        comment = re.sub(r"`([^`]*)`", lambda m: "`" + WORD.sub(lambda w: names.get(w.group(1), w.group(0)) if m.group(1) == w.group(0) else w.group(0), m.group(1)) + "`", comment)
        out.append(code + comment)
    return "\n".join(out)


def local(m, kept, code):
    """The name of a variable: one that stands alone and is nobody else's."""
    word = m.group(1)
    if "-" not in word or word in kept or word[:1].isupper() or (m.start(1) and code[m.start(1) - 1] == "."):
        return m.group(0)
    return word.replace("-", "_")


def find_comment(line, mark):
    k = line.find(mark)
    while k != -1:
        before = line[:k]
        if before == "" or before[-1].isspace():
            return k
        k = line.find(mark, k + 1)
    return len(line)


# the parts of a path below which Rattle makes the names
MADE = {"goal", "given", "c", "l", "need"}


def replace(m, names, code):
    word = m.group(1)
    if word not in names:
        return m.group(0)
    start = m.start(1)
    if start and code[start - 1] == ".":
        head = re.search(r"([\w'·.-]*)\.$", code[:start])
        root = (head.group(1).split(".")[0] if head else "")
        if root in MADE or root == "":
            fields = FIELDS
            return names[word] if word in fields and root not in ("goal", "given") else m.group(0)
    return names[word]


FIELDS = set()


def record_fields():
    found = set()
    for p in files("antt"):
        if is_generated(p):
            continue
        inside = False
        for line in p.read_text().split("\n"):
            if re.match(r"\s*(pub )?record ", line):
                inside = True
                continue
            if inside and line.strip() and not line.startswith((" ", "\t")):
                inside = False
            m = re.match(r"\s+(?:pub )?([^\W\d][\w'-]*) :", line)
            if inside and m:
                found.add(m.group(1))
    return found


def main():
    dry = "--dry" in sys.argv
    global FIELDS
    FIELDS = record_fields()
    kinds, turned = table()
    # names that fall together
    by_new = {}
    for old, new in turned.items():
        by_new.setdefault(new, []).append(old)
    existing = set(kinds) - set(turned)
    clash = {n: o for n, o in by_new.items() if len(o) > 1 or n in existing}
    words = set()
    for p in list(files("antt")) + list(files("rt")):
        for line in p.read_text().split("\n"):
            k = find_comment(line, "//" if p.suffix == ".rt" else "--")
            words |= {w for w in WORD.findall(line[:k])}
    seen = {n: o for n, o in by_new.items() if n in words and n not in clash}
    for old in sorted(turned):
        print(f"{old}\t{turned[old]}\t{kinds[old]}")
    for n, o in sorted(clash.items()):
        print(f"clash: {n}: {', '.join(o)}{' and itself' if n in existing else ''}", file=sys.stderr)
    for n, o in sorted(seen.items()):
        print(f"seen: {n}: {', '.join(o)}", file=sys.stderr)
    print(f"{len(turned)} names", file=sys.stderr)
    if dry:
        return 0
    for p in list(files("antt")) + list(files("rt")):
        text = p.read_text()
        outside = set()
        for line in text.split("\n"):
            m = ANY_USE.match(line)
            if m and not own(m.group(1)) and m.group(2):
                outside |= {w.strip().split(" as ")[-1] for w in m.group(2).split(",")}
        new = turn_text(text, turned, outside, p.suffix == ".rt")
        if new != text:
            p.write_text(new)
    return 0


if __name__ == "__main__":
    sys.exit(main())
