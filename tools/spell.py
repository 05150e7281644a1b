#!/usr/bin/env python3
"""Spells the repository's own definitions and lemmas in snake case, once, after the kit's port.py and before anything is proved.

usage: python3 tools/spell.py [--list]      at the top of the repository

Own names are what .antt files below crates/ define. A capital inside a name and a dash become an underscore; a dash stays before `append`, `length` and
`map` after a definition's name. Left alone are facts and types (a capital first), answers to goals, and all that Rust code names. Where a lemma would fall
together with a definition, or with a word of the library, it gets `_lem`. --list prints the renamings and writes nothing.
"""
import collections
import os
import re
import sys

ID = r"[A-Za-z_][\w'\-]*"
TOKEN = re.compile(r"(?<![\w'\-◌])" + ID)
DEFINED = re.compile(r"^\s*(?:(?:unfoldable|abbrev|pub|mutual)\s+)*(record|data|ruleset|module)?\s*(" + ID + r")\s*((?:[({][^:=]*:[^)}]*[)}]\s*)*):(?![:=])\s*(.*)$")
ANSWER = re.compile(r"(\{[^}]*\}\s*→\s*)?(tie|lts)\.(Need|invariant|decreases)")
# names that the rule would let mean two things: a lemma and a record's field, or a definition and a record's field
BY_HAND = {("promises", "is-step"): "stepped", ("promises", "firstQuad"): "first_quad_at", ("promises", "quadCount"): "quad_count_at"}


def files(ext):
    for root, dirs, names in sorted(os.walk("crates")):
        dirs[:] = sorted(d for d in dirs if d != "out")
        for n in sorted(names):
            if n.endswith(ext):
                yield os.path.join(root, n)


def text(path):
    with open(path, encoding="utf-8") as f:
        return f.read()


def snake(word):
    if not word or word[0].isupper():
        return word
    return re.sub(r"(?<=[a-z0-9])([A-Z])", lambda m: "_" + m.group(1).lower(), word)


def defined():
    """Own names: for each, the files that define it and as what; and the names of answers to goals."""
    own, kinds, answers = collections.defaultdict(set), collections.defaultdict(set), set()
    for path in files(".antt"):
        inside = None
        for line in text(path).split("\n"):
            indent = len(line) - len(line.lstrip())
            if re.match(r"\s*(?:(?:unfoldable|abbrev|pub)\s+)*record ", line):
                inside = indent
            m = DEFINED.match(line)
            if not m or m.group(1) == "module":
                continue
            kind, name = m.group(1), m.group(2)
            if path.endswith("Proof.antt") and (ANSWER.match(m.group(4)) or name.endswith(("-spec", "_spec"))):
                answers.add(name)
                continue
            if inside is not None and kind is None and indent > inside:
                kinds[name].add("field")
            else:
                if inside is not None and indent <= inside and kind is None:
                    inside = None
                kinds[name].add(kind or ("definition" if "/specs/" in path else "lemma"))
            own[name].add(path)
    return own, kinds, answers


def imported(text):
    """The library's words that a file imports."""
    found = set()
    for m in re.finditer(r"\buse ([\w.]+)\.\{([^}]*)\}", text):
        if not re.match(r"Rattle\.(?!std\b)", m.group(1)):
            found |= set(TOKEN.findall(m.group(2)))
    return found


def words_of_the_library():
    return set().union(*(imported(text(path)) for ext in (".antt", ".rt") for path in files(ext)))


def renamings():
    own, kinds, answers = defined()
    spec = {snake(n) for n in own if "definition" in kinds[n] and "-" not in n}
    library = words_of_the_library()

    def plain(name):
        out, *rest = [snake(p) for p in name.split("-")]
        for part in rest:
            out += ("-" if out in spec and part in ("append", "length", "map") else "_") + part
        return out

    alike = collections.defaultdict(list)
    for name in own:
        if name not in answers:
            alike[plain(name)].append(name)
    to = {}
    for new, names in alike.items():
        for name in names:
            lemma = kinds[name] == {"lemma"}
            others = [n for n in names if n != name and (kinds[n] != {"lemma"} or ("-" in n, n) < ("-" in name, name))]
            to[name] = new + "_lem" if lemma and (others or new in library and new != name) else new
    return {a: b for a, b in to.items() if a != b}, own, kinds


def spell(old, crate, to, fields, rust):
    """A file's text, respelled: in a comment only what stands in backquotes or has a capital inside; in Rust code only clauses and ghost lines."""

    theirs = imported(old)

    def spelled(line, comment):
        def one(m):
            name, before = m.group(0), line[: m.start()]
            new = BY_HAND.get((crate, name)) or to.get(name)
            if new is None or name in theirs:
                return name
            if comment and before.count("`") % 2 == 0 and not re.search("[a-z0-9][A-Z]", name):
                return name
            # behind a dot: a module's item, or a field of a record of ours; all else there is Rust's name
            if before.endswith(".") and name not in fields and not re.search(r"(?:^|[^\w'.])[A-Z]\w*(?:\.\w+)*\.$", before):
                return name
            return new

        return TOKEN.sub(one, line)

    out, open_braces, ghost = [], 0, False
    for line in old.split("\n"):
        code, mark, rest = (line, "", "")
        at = re.search(r"(^|\s)//" if rust else r"(^|\s)--(?=\s|$)", line)
        if at:
            code, rest = line[: at.start()], line[at.start() :]
        if rust:
            if not ghost and re.match(r"\s*(ghost\b|requires|ensures)", code):
                ghost, open_braces = True, 0
            here = ghost
            if ghost:
                open_braces += code.count("{") - code.count("}")
                ghost = open_braces > 0
            out.append((spelled(code, False) if here else code) + (spelled(rest, True) if rest else ""))
        else:
            out.append(spelled(code, False) + (spelled(rest, True) if rest else ""))
    return "\n".join(out)


def main():
    to, own, kinds = renamings()
    if sys.argv[1:] == ["--list"]:
        print("\n".join(f"{a} {b}" for a, b in sorted(to.items())))
        return 0
    fields = {n for n in own if "field" in kinds[n]}
    for path in list(files(".antt")) + list(files(".rt")):
        old = text(path)
        new = spell(old, path.split(os.sep)[1], to, fields, path.endswith(".rt"))
        if new != old:
            with open(path, "w", encoding="utf-8") as f:
                f.write(new)
    return 0


if __name__ == "__main__":
    sys.exit(main())
