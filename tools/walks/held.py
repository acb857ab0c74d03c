"""The locals that a walked function lends: arrays of zeros that it makes, and the copies of its parameters by value."""
from __future__ import annotations

from context import Context
from kinds import Array, Kind
from params import ByValue, ThinLent
from text import named


class Local(ThinLent):
    """A local that is lent as `&mut x`."""

    own = True

    def __init__(self, name: str, local: int, to: Kind, first: str):
        self.name, self.x, self.local, self.to = f"&mut {name}", name.replace("_", "-"), local, to
        self.list, self.known, self.place, self.cell = first, f"is·{self.x}", f"l·{local} 0", f"cell {local}"
        self.machine = f"(vptr {self.place})"

    def make(self, c: Context) -> None:
        """The statement that makes it."""
        raise NotImplementedError

    def lend_on(self, c: Context, local: int) -> None:
        c.assign(local, "(addr ! (from ! (stop !)))", "(tt, tt)")

    def lends(self, number: int, items: str, known: str) -> str:
        """The rule by which it is lent."""
        return f"lends-local ! tt {self.to.row} (named {number}) l·{self.local} {items} ({self.to.machine(items)} ∷ [])"

    def lend(self, c: Context, number: int, items: str, known: str, made: str) -> None:
        c.rule(self.to.plain(items, known).owned, 0, ["own local"]).front(self.cell, "own local")
        c.bind(self.lends(number, items, known), made, 2, [f"fresh {self.x}", f"lent {self.x}", f"kept {self.x}"]).line()

    def come_back(self, c: Context, n: str, items: str, last: str, known: str) -> None:
        x, back = self.x, f"local-back ! tt {self.to.row} ({self.to.vals}) ({self.to.tells}) l·{self.local} {last}"
        c.front(f"fresh {x}", f"kept {x}", f"last {x}").bind(back, self.known_after(n, known), 3, [self.cell]).line()

    def known_after(self, n: str, known: str) -> str:
        return f"is{n}·{self.x}"


class LocalArray(Local):
    """`let mut x = [0u32; n];`. Its first list is a variable, of which the walk has that it is zeros: so no proof that the check computes
    with has n elements."""

    def __init__(self, name: str, local: int, to: Array):
        super().__init__(name, local, to, f"l·{name.replace('_', '-')}")
        self.on = [f"(tyRef erased mut {to.machine_type})"]
        self.zeros = (f"zeros·{self.x}", f"{self.list} ≡ replicate {to.n} 0")
        self.made = [(self.list, "List ℕ"), self.zeros, (self.known, to.known(self.list))]  # what is known once it is made

    def held(self, items: str) -> str:
        """What its local owns, at that list."""
        return f"‵ (fat fullShare {self.to.machine_type} l·{self.local} 0 {self.to.machine(items)})"

    def make(self, c: Context) -> None:
        n, fits = self.to.n, f"{self.to.of.width} (lit< tt)"
        c.assign(self.local, f"(rep ! {n} (lit ! tt))", f"(zeros-typed {fits} 𝓤 H A W {n})")
        c.front(self.cell).bind(f"zeroed ! {fits} {n} l·{self.local}", named(self.made), 1, [self.cell]).line()


class Copied(Local):
    """A parameter by value that is lent as `&mut x`: the code copies it to a local first. What lies behind a reference is raw, that is
    without the names of its types, and the local is not."""

    how = "mut"

    def __init__(self, p: ByValue, local: int):
        super().__init__(p.name, local, p.kind, p.value)
        self.param, self.behind = p, p.kind.type
        self.on = [f"(tyRef erased {self.how} (pointee ({p.kind.row} .written)))"]

    def make(self, c: Context) -> None:
        c.assign(self.local, f"(of-opd ! {c.load(self.param.local)})", self.param.typing)

    def lend(self, c: Context, number: int, items: str, known: str, made: str) -> None:
        c.front(self.cell).rule(f"as-raw ! {self.to.machine_type} l·{self.local} {self.to.machine(items)}")
        super().lend(c, number, items, known, made)

    def come_back(self, c: Context, n: str, items: str, last: str, known: str) -> None:
        super().come_back(c, n, items, last, known)
        c.rule(f"as-named ! {self.to.machine_type} l·{self.local} {self.to.machine(last)}").line()


class Shared(Copied):
    """The same, lent as `&x`: it is as it was then."""

    mut, how = False, "imm"

    def __init__(self, p: ByValue, local: int):
        super().__init__(p, local)
        self.name = f"&{p.name}"

    def row_at(self, named: int, lifetime: str) -> str:
        return f"ShrRef (named {named}) {lifetime} {self.to.row}"

    def lends(self, number: int, items: str, known: str) -> str:
        return f"shares-local ! tt {self.to.row} (named {number}) l·{self.local} {items} ({self.to.machine(items)} ∷ [])"

    def back(self, items: str) -> str:
        """The rule by which it comes back."""
        return f"shared-back ! tt {self.to.row} ({self.to.vals}) ({self.to.tells}) l·{self.local} {items}"

    def come_back(self, c: Context, n: str, items: str, last: str, known: str) -> None:
        c.front(f"fresh {self.x}", f"kept {self.x}").rule(self.back(items), 2, [self.cell])
        c.rule(f"as-named ! {self.to.machine_type} l·{self.local} {self.to.machine(items)}").line()

    def known_after(self, n: str, known: str) -> str:
        return known


class Elements(Shared):
    """An array by value, whose elements are lent as a slice by `&x`."""

    def __init__(self, p: ByValue, local: int):
        super().__init__(p, local)
        self.of, self.n = p.kind.of, p.kind.n
        self.machine = f"(sliceVal (l·{local}, 0) {self.n})"
        self.on += [f"(sliceTy (tyRef erased imm (pointee ({self.of.row} .written))))"]

    def at(self, name: str, items: str) -> str:
        return f"slice {self.of.row} {self.place} {name} {items}"

    def row_at(self, named: int, lifetime: str) -> str:
        return f"ShrSlice (named {named}) {lifetime} {self.of.row}"

    def lend_on(self, c: Context, local: int) -> None:
        super().lend_on(c, local - 1)
        fits = "(tt, (tt, (record { fits = lit< tt }, tt)))"
        c.assign(local, f"(agg ! (and-then ! {c.load(local - 1)} (and-then ! (lit ! tt) (no-more !))))", fits)

    def lends(self, number: int, items: str, known: str) -> str:
        held = f"l·{self.local} {items} ({self.to.machine(items)} ∷ [])"
        return f"shares-elements ! tt {self.of.row} tt (named {number}) {self.n} {held} ({known} .1 .0 .1) (lit< tt, lit< tt)"

    def back(self, items: str) -> str:
        return f"elements-back ! tt {self.of.row} ({self.of.vals}) ({self.of.tells}) {self.n} l·{self.local} {items}"
