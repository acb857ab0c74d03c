#!/usr/bin/env python3
"""Brings the repository's own definitions, lemmas and fields from kebab-case to today's spelling.

usage: tools/respell.py [--list]      at the top of the repository, once, after port.py; --list only prints what it would rename

A word is in snake case, a type or a fact in camel case: `rank-of` becomes `rank_of`, `Below-limit` becomes `BelowLimit`. A single capital
letter is a number of the geometry and keeps its own word: `P-to` becomes `P_to`. Names of the kit's library keep their dashes, and so do the
names that Rattle makes of the code. In comments only what stands in backticks is a name.
"""
import collections
import pathlib
import re
import sys

KIT = pathlib.Path("/opt/rattle/rattle")
# What may stand in a name: all but white space and the signs that antt puts between names.
NAME = re.compile(r"[^\s(){}\[\];,.\"⌜⌝`]+")
MODS = r"(?:(?:pub|abbrev|unfoldable|private|record|data|inductive|mutual|opaque|ruleset)\s+)*"
HEAD = re.compile(r"(?m)^[ \t]*(?:\|[ \t]+)?" + MODS + r"([^\s:(){}\[\];,.\"`]+)[ \t]*(?=:[ \n]|\{|\(|where|=[ \n])")
DASHED = re.compile(r"[\w'₀-₉+]-[\w'₀-₉+]")


# Names that would fall together with another, as they are called now.
OTHERWISE = {"In-words": "AsWords", "In-numbers": "AsNumbers", "Row-of": "IsRowOf"}


def dashed(name):
    return bool(DASHED.search(name)) and "◌" not in name and not name.startswith("--")


def spelled(name):
    """The name as today's style has it."""
    if name in OTHERWISE:
        return OTHERWISE[name]
    parts = re.split(r"(?<=[\w'₀-₉+])-(?=[\w'₀-₉+])", name)
    if parts[0][:1].isupper() and not re.fullmatch(r"[A-Z]([+][A-Z])?", parts[0]):
        return "".join(p[:1].upper() + p[1:] for p in parts)
    return "_".join(parts)


def texts(top, *ends):
    for path in sorted(top.rglob("*")):
        if path.is_file() and path.suffix in ends and "out" not in path.relative_to(top).parts:
            yield path, path.read_text(encoding="utf-8")


def declared(text):
    return {m.group(1) for m in HEAD.finditer(re.sub(r"(?m)--[ ].*$", "", text)) if dashed(m.group(1))}


def library():
    """The dashed names of the kit's own files."""
    names = set()
    for _, text in texts(KIT, ".antt"):
        names |= {n for n in NAME.findall(re.sub(r"(?m)--[ ].*$", "", text)) if dashed(n)}
    return names


def imported(text):
    """The names that a file takes from the kit."""
    names = set()
    for m in re.finditer(r"(?m)^(?:pub )?(?:ghost )?use ([^\s{;]+)\.\{([^}]*)\}", text):
        module = m.group(1)
        crate = re.match(r"Rattle\.(\w+)\.", module)
        if not (crate and crate.group(1) in OWN):
            names |= {n.split(" as ")[0].strip() for n in m.group(2).split(",")}
    return names


def renamed(text, names, kept, comment):
    """The text with its names respelled: those of `names` that the file takes from no library, in comments where they stand in backticks."""
    def one(m):
        word = m.group(0)
        return names[word] if word in names and word not in kept else word

    def line(text):
        code, mark, said = text, "", ""
        at = re.search(comment, text)
        if at:
            code, mark, said = text[:at.start()], at.group(0), text[at.end():]
        said = re.sub(r"`[^`]*`", lambda m: NAME.sub(one, m.group(0)), said)
        return NAME.sub(one, code) + mark + said

    return "\n".join(line(l) for l in text.split("\n"))


def edited(line, names):
    """A line of a must-fail edit, with today's names and its projections tight, as port.py writes them elsewhere."""
    said, mark, text = line.partition(": ")
    if said not in ("old", "new") or not mark:
        return line
    text = re.sub(r"(?<=[\w)'₀-₉]) \.(?=[a-zA-Z0-9])", ".", text)
    return said + mark + NAME.sub(lambda m: names.get(m.group(0), m.group(0)), text)


def main(argv):
    top = pathlib.Path(".")
    crates = top / "crates"
    antt = list(texts(crates, ".antt"))
    rust = list(texts(crates, ".rt"))
    kit = library()
    own = set()
    for path, text in antt:
        if path.name != "Proof.antt":
            own |= declared(text)
    # Names bound inside a definition are respelled with it, where they aren't the library's.
    bound = set()
    for path, text in antt:
        if path.name != "Proof.antt" and "specs" in path.parts or path.parent.name == "proofs":
            code = re.sub(r"(?m)--[ ].*$", "", text)
            bound |= {n for n in NAME.findall(code) if dashed(n) and n not in kit}
    names = {n: spelled(n) for n in sorted(own | bound)}
    names = {old: new for old, new in names.items() if old != new}
    into = collections.defaultdict(set)
    for old, new in names.items():
        into[new].add(old)
    there = set()
    for path, text in antt + rust:
        there |= set(NAME.findall(re.sub(r"(?m)(?:--[ ]|//).*$", "", text)))
    if "--list" in argv:
        for old, new in names.items():
            print(old, new, "own" if old in own else "bound", *(["THERE"] if new in there else []), *(["LIBRARY"] if old in kit else []),
                  *(["TOGETHER"] if len(into[new]) > 1 else []))
        return 0
    for path, text in antt:
        only = {o: n for o, n in names.items() if o in own} if path.name == "Proof.antt" else names
        path.write_text(renamed(text, only, imported(text), r"--[ ]"), encoding="utf-8")
    own_names = {o: n for o, n in names.items() if o in own}
    for path, text in rust:
        path.write_text(renamed(text, own_names, imported(text), r"//"), encoding="utf-8")
    for path, text in texts(crates, ".edit"):
        path.write_text("\n".join(edited(l, own_names) for l in text.split("\n")), encoding="utf-8")
    return 0


if __name__ == "__main__":
    OWN = {p.name for p in pathlib.Path("crates").iterdir() if p.is_dir()}
    raise SystemExit(main(sys.argv[1:]))
