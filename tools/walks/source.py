"""Reads the Rattle source: functions with their contracts and bodies, structs, and what a name leads to."""
from __future__ import annotations

import re
from pathlib import Path
from typing import NamedTuple

CLOSING = {"(": ")", "{": "}"}


class Misfit(Exception):
    """What does not fit, in one line."""


class Item(NamedTuple):
    """Where a function or a struct stands."""
    crate: str
    modules: tuple[str, ...]
    name: str

    def __str__(self) -> str:
        return "::".join([self.crate, *self.modules, self.name])

    @property
    def key(self) -> str:
        """Its name in the logic: `calls·face·read-page` for `calls::face::read_page`."""
        return str(self).replace("::", "·").replace("_", "-")

    def module(self, library: str, own: str) -> str:
        """Its antt module among the `proofs` or the `specs`, as the crate `own` names it."""
        root = f"Rattle·{self.crate}·{library}.{library}" if self.crate == own else f"Rattle·{self.crate}.{library}"
        return ".".join([root, *(["declared"] if library == "specs" else []), *self.modules, self.name])


class Clause(NamedTuple):
    """A `requires` or an `ensures`: whose it is, the fact between ⌜ and ⌝, and the name that an `ensures` gives the result."""
    of: Item
    fact: str
    result: str


class Function(NamedTuple):
    item: Item
    file: File
    params: list[tuple[str, str]]
    result: str
    requires: Clause | None
    ensures: Clause
    body: str


def closing(text: str, at: int) -> int:
    """The place of the bracket that closes the one at `at`."""
    depth = 0
    for i in range(at, len(text)):
        depth += (text[i] == text[at]) - (text[i] == CLOSING[text[at]])
        if depth == 0:
            return i
    raise Misfit(f"a bracket is not closed: {text[at:at + 40]} ..")


def split_list(text: str) -> list[str]:
    """The parts between commas; the last comma may be there or not."""
    return [" ".join(part.split()) for part in text.split(",") if part.strip()]


def typed_names(text: str) -> list[tuple[str, str]]:
    """'pub a: u32, mut b: Record, c: &[u32]' in pairs."""
    pairs = [part.removeprefix("pub ").removeprefix("mut ").partition(": ") for part in split_list(text)]
    return [(name, kind) for name, _, kind in pairs]


def clause(item: Item, texts: list[str]) -> Clause | None:
    if not texts:
        return None
    m = re.fullmatch(r"\s*(?:λ\s*(\w+)\s*\.)?\s*⌜(.*)⌝\s*", texts[0], re.S)
    if not m or len(texts) > 1:
        raise Misfit(f"'{item}' has two clauses of a kind, or one that is not of the form ⌜ fact ⌝ or λ r. ⌜ fact ⌝")
    return Clause(item, " ".join(m[2].split()), m[1] or "")


class File:
    """One file of a crate, which is one module."""

    def __init__(self, path: Path, crate: str, modules: tuple[str, ...]):
        self.crate, self.modules = crate, modules
        self.text = re.sub(r"//[^\n]*", "", path.read_text())
        paths = [m.split("::") for m in re.findall(r"^(?:pub )?use ([\w:]+);", self.text, re.M)]
        self.uses = {path[-1]: [crate if segment == "crate" else segment for segment in path] for path in paths}
        self.ghosts: dict[str, tuple[str, str]] = {}  # of `ghost use M.{a as b};`: b -> M, 'a as b'
        for module, names in re.findall(r"^ghost use ([^;{]+)\.{([^}]*)};", self.text, re.M):
            self.ghosts.update({entry.split()[-1]: (module, entry) for entry in split_list(names)})

    def leads_to(self, path: str) -> Item:
        """The item that a path of this file names."""
        first, *rest = path.split("::")
        segments = self.uses.get(first, [self.crate] if first == "crate" else [first] if rest else [self.crate, *self.modules, first]) + rest
        return Item(segments[0], tuple(segments[1:-1]), segments[-1])


class Source:
    """The crates of a repository."""

    def __init__(self, root: Path):
        self.root = root

    def files(self, crate: str) -> list[File]:
        folder = self.root / "crates" / crate / "src"
        if not folder.is_dir():
            raise Misfit(f"there is no crate '{crate}' in {self.root / 'crates'}")
        paths = [(path, path.relative_to(folder).with_suffix("").parts) for path in sorted(folder.rglob("*.rt"))]
        return [File(path, crate, () if parts in (("lib",), ("main",)) else parts) for path, parts in paths]

    def found(self, item: Item, what: str, bracket: str) -> tuple[File, int]:
        """The file of a function or a struct, and the place of the bracket after its name."""
        for file in self.files(item.crate):
            if file.modules == item.modules and (m := re.search(rf"\b{what} {item.name}\s*{re.escape(bracket)}", file.text)):
                return file, m.end() - 1
        raise Misfit(f"there is no '{what} {item}{bracket}' in crates/{item.crate}/src")

    def fields(self, struct: Item) -> list[tuple[str, str]]:
        file, at = self.found(struct, "struct", "{")
        return typed_names(file.text[at + 1:closing(file.text, at)])

    def counted(self, file: File, text: str) -> str:
        """That text of a file with a number for each constant that is a length or an argument: [u32; 16] for [u32; SEEN]."""

        def number(m: re.Match) -> str:
            const = file.leads_to(m[0])
            there, at = self.found(const, "const", ":")
            if value := re.compile(r": usize = (\d+);").match(there.text, at):
                return value[1]
            raise Misfit(f"'{const}' is no usize with a number for its value")

        return re.sub(r"(?<![\w:])(?:\w+::)*[A-Z][A-Z0-9_]+(?=[,)\]])", number, text)

    def function(self, item: Item) -> Function:
        file, at = self.found(item, "fn", "(")
        text, end = file.text, closing(file.text, at)
        params, result = typed_names(self.counted(file, text[at + 1:end])), re.compile(r"\s*->\s*([\w:]+)").match(text, end + 1)
        clauses: dict[str, list[str]] = {"requires": [], "ensures": []}
        end = result.end() - 1 if result else end
        while m := re.compile(r"\s*(?:(requires|ensures)\b[^{]*)?{").match(text, end + 1):
            start, end = m.end(), closing(text, m.end() - 1)
            if not m[1]:
                break
            clauses[m[1]].append(text[start:end])
        ensures = clause(item, clauses["ensures"])
        if not m or not ensures:
            raise Misfit(f"'{item}' has no body or no `ensures`")
        body = " ".join(text[start:end].split())
        return Function(item, file, params, result[1] if result else "", clause(item, clauses["requires"]), ensures, body)

    def functions(self, crate: str) -> list[tuple[Item, str, str]]:
        """All functions of a crate, with the text of their parameters, and the text from there to the next function."""
        found = []
        for file in self.files(crate):
            starts = list(re.finditer(r"\bfn (\w+)\s*\(", file.text))
            for m, following in zip(starts, [*(m.start() for m in starts[1:]), len(file.text)]):
                end = closing(file.text, m.end() - 1)
                found.append((Item(crate, file.modules, m[1]), file.text[m.end():end], file.text[end:following]))
        return found

    def named(self, crate: str, name: str) -> Item:
        """The function of that name, wherever in the crate it stands."""
        found = [item for item, _, _ in self.functions(crate) if item.name == name]
        if len(found) != 1:
            raise Misfit(f"crate '{crate}' has {len(found) or 'no'} function '{name}'")
        return found[0]

    def walked(self, crate: str) -> list[Item]:
        """The functions with a reference to a struct, or to a slice of structs, among their parameters, or which lend such a parameter."""
        def lends(params: str, rest: str) -> bool:
            structs = [name for name, kind in typed_names(params) if re.match(r"\[?(\w+::)*[A-Z]", kind)]
            return any(re.search(rf"&\s*(mut )?{name}\b(?![\[.])", rest) for name in structs)

        return [item for item, params, rest in self.functions(crate)
                if re.search(r"&\s*(mut )?\[?(\w+::)*[A-Z]", params) or lends(params, rest)]

    def law(self, crate: str, name: str) -> str:
        """The module of the crate that has the law."""
        for library in ("specs", "proofs"):
            folder = self.root / "crates" / crate / library
            for path in sorted(folder.rglob("*.antt")):
                if re.search(rf"^\s*pub (?:{re.escape(name)} :|use .*\bas {re.escape(name)}[,}}])", path.read_text(), re.M):
                    return ".".join([f"Rattle·{crate}·{library}", library, *path.relative_to(folder).with_suffix("").parts])
        raise Misfit(f"crate '{crate}' has no law '{name}' in its specs/ or proofs/, which the walk cites")
