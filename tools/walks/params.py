"""The parameters of a walked function, and what the parts of a walk say of each."""
from __future__ import annotations

import re

from context import Context
from kinds import USIZE, Array, Kind, Number, Struct, kind_of
from source import Function, Misfit
from text import part, token


class Param:
    """A parameter of the walked function. Its parts in the walk are named by a letter and x, as κ·chip, its lifetime."""

    binders: str       # what it is made of
    made_of: str       # that, out of all arguments
    type: str          # of its value in the contract
    value: str
    machine_type: str
    machine: str
    typing: str        # that the machine value is of its type
    row: str
    stay: str          # how it stands at exit, ..
    goes: str          # .. and the law of that, with what it takes
    vals: str          # that its value is one machine value
    tells: str         # that owning it tells which
    mut = False

    def __init__(self, name: str, place: int):
        self.name, self.x, self.local = name, name.replace("_", "-"), place + 1
        self.arg, self.related = f"(a{part(place)})", f"(are{part(place)})"  # it, and the relation to its machine value, among all


class ByValue(Param):
    """A number, a struct or an array."""

    def __init__(self, name: str, place: int, kind: Kind):
        super().__init__(name, place)
        self.kind, self.plain = kind, kind.plain(f"v·{self.x}", f"is·{self.x}")
        self.type, self.value, self.machine_type, self.machine, self.typing, self.row, _ = self.plain
        self.binders = f"(v·{self.x} : {kind.type}) (is·{self.x} : {kind.known(self.value)})"
        self.made_of = f"{self.arg} {kind.knows(self.arg, self.related)}"
        self.vals, self.tells = kind.vals, kind.tells
        self.stay, self.goes = f"stay-none (λ _. {self.row}) yes", f"none (λ _. {self.row}) yes (λ κs x f. refl)"


class Reference(Param):
    """What slices and references to a struct or an array share: a lifetime, by its number, and a place."""

    given = False  # whether a callee has it for good

    def __init__(self, name: str, place: int, lifetime: int, mut: bool, to: Kind):
        super().__init__(name, place)
        x, arg, self.lifetime, self.mut, self.to = self.x, self.arg, lifetime, mut, to
        self.token = token(f"κ·{x}", f"q·{x}")
        self.binders = f"(κ·{x} : Lft) (q·{x} : Share) (b·{x} o·{x} : ℕ) (γ·{x} : GName)"
        self.made_of = f"(κs{part(lifetime)}) (qs{part(lifetime)}) ({arg} .ptr .0) ({arg} .ptr .1) ({arg} .name) ({arg} .now)"
        self.slot, self.how = f"tt (plain (λ _. {to.row}))", "mut" if mut else "imm"
        self.target = f"(pointee ({to.row} .written))" if isinstance(to, Struct) else to.machine_type


class Lendable:
    """What is lent to a callee: a slice, an array behind a `&mut`, or a local (held.py). In contracts it is a list, or a struct, which
    is called its list here too. Of its list so far a walk has a proof, `known`: of a slice, that it is as long as at entry; of a local,
    how it lies there; else none."""

    x: str
    name: str          # as an argument
    local: int
    own = False        # whether it is a local of the function's own, and no parameter
    mut: bool
    sized: bool        # whether its length is told by its list alone, and not by its type
    list: str          # its first list, ..
    known: str         # .. and the proof of it
    behind = "List ℕ"  # the type of that
    type: str          # of the reference in contracts
    machine: str       # the machine value of the reference
    on: list[str]      # the machine types of the locals by which it is lent on

    def at(self, name: str, items: str) -> str:
        """The value of the reference in contracts, under a ghost name and at a list."""
        raise NotImplementedError

    def row_at(self, named: int, lifetime: str) -> str:
        """The row of the reference, for a lifetime that the callee has by that number."""
        raise NotImplementedError

    def last(self, items: str, name: str) -> str:
        """That the last list under that name is known."""
        raise NotImplementedError

    def lend_on(self, c: Context, local: int) -> None:
        """The statements that lend it on, by as many locals up to this."""
        raise NotImplementedError

    def lend(self, c: Context, number: int, items: str, known: str, made: str) -> None:
        """It is lent for a lifetime that is made for the call: `fresh x`, `lent x` and `kept x`. Binds the names `made`."""
        raise NotImplementedError

    def come_back(self, c: Context, n: str, items: str, last: str, known: str) -> None:
        """It comes back from the call of that number, and has another list."""
        raise NotImplementedError

    def known_after(self, n: str, known: str) -> str:
        """What is known then of its list, by what was known before the call."""
        return known


class Listed(Reference, Lendable):
    """A parameter that is lent to callees."""

    def __init__(self, name: str, place: int, lifetime: int, mut: bool, to: Kind):
        super().__init__(name, place, lifetime, mut, to)
        self.place = f"b·{self.x} o·{self.x}"
        self.list, self.row = f"l·{self.x}", self.row_at(lifetime, f"κ·{self.x}")
        self.value = self.at(f"γ·{self.x}", self.list)

    def owned(self, items: str) -> str:
        """What it owns, at that list."""
        return f"‵ ({self.row} .own ({self.at(f'γ·{self.x}', items)}) ({self.machine} ∷ []))"

    def stands(self, given: bool) -> None:
        """How a `&mut` stands at exit: given for good to a callee, or still owned."""
        self.given = given
        self.stay = f"{'gave' if given else 'stay'}-{self.form} ({self.lifetime} ∷ []) {self.slot}"
        self.goes = f"{'gave-' if given else ''}{self.form} {self.lifetime} {self.slot}"


class Slice(Listed):
    """A `&mut [u32]`, a `&[u32]`, or a `&[Struct]`."""

    form, sized, known = "slice", True, "refl"

    def __init__(self, name: str, place: int, lifetime: int, mut: bool, to: Kind):
        super().__init__(name, place, lifetime, mut, to)
        x = self.x
        self.binders += f" (l·{x} : List {to.type}) (room·{x} : Room {to.row} (length l·{x}))"
        self.made_of += f" ({self.related} .0 .1)"
        self.type = f"RefT (List {to.type})"
        self.machine_type, self.machine = f"(sliceTy (tyRef (named {lifetime}) {self.how} {self.target}))", f"(sliceVal (b·{x}, o·{x}) (length l·{x}))"
        self.typing = f"(tt, (tt, (record {{ fits = room·{x} .0 }}, tt)))"
        self.length = USIZE.plain(f"(length l·{x})", f"(refl, room·{x} .0)")
        self.vals, self.tells = "slice-vals", f"{'mut' if mut else 'shr'}-slice-tells (named {lifetime}) (κs{part(lifetime)}) {to.row}"
        self.stay, self.goes = f"stay-none-slice ({lifetime} ∷ []) {self.slot} yes", f"none-slice ({lifetime} ∷ []) {self.slot} yes"
        self.on = [f"(tyRef erased mut {self.target})", f"(sliceTy (tyRef erased mut {self.target}))"]
        if mut:
            self.stands(given=False)

    def at(self, name: str, items: str) -> str:
        return f"slice {self.to.row} {self.place} {name} {items}"

    def row_at(self, named: int, lifetime: str) -> str:
        return f"{'MutSlice' if self.mut else 'ShrSlice'} (named {named}) {lifetime} {self.to.row}"

    def last(self, items: str, name: str = "") -> str:
        return f"‵ (finally {self.to.row} {name or f'γ·{self.x}'} {items})"

    def lend_on(self, c: Context, local: int) -> None:
        place = f"(fld ! refl (hop ! (look-in ! {c.cell(self.local)} (sub ! 0 refl (whole !))) (stop !)))"
        c.assign(local - 1, f"(addr ! (from ! {place}))", "(tt, tt)")
        c.assign(local, f"(agg ! (and-then ! {c.load(local - 1)} (and-then ! {c.load_field(self.local, 1)} (no-more !))))", self.typing)

    def lend(self, c: Context, number: int, items: str, known: str, made: str) -> None:
        x, lends = self.x, f"lends-again ! tt {self.to.row} (named {self.lifetime}) (named {number})"
        c.front(f"own {x}", f"token {x}")
        c.bind(f"{lends} {self.place} {items} (length l·{x})", made, 2, [f"fresh {x}", f"lent {x}", f"kept {x}"]).line()

    def come_back(self, c: Context, n: str, items: str, last: str, known: str) -> None:
        x, back = self.x, f"comes-back ! tt {self.to.row} (named {self.lifetime}) {self.place}"
        c.front(f"fresh {x}", f"kept {x}", f"last {x}")
        c.rule(f"{back} {items} {last} {known} d{n}·{x} room·{x}", 3, [f"own {x}", f"token {x}"]).line()

    def known_after(self, n: str, known: str) -> str:
        return f"d{n}·{self.x}" if known == "refl" else f"(d{n}·{self.x} ∙ {known})"


class ThinLent(Lendable):
    """What a local that is lent as `&mut` and an array behind a `&mut` share: the reference to it, which points to `place`."""

    mut, sized, typing = True, False, "(tt, tt)"
    place: str
    to: Kind

    @property
    def type(self) -> str:
        return f"RefT {self.to.type}"

    def at(self, name: str, items: str) -> str:
        return f"to-one {self.to.row} {self.place} {name} {items}"

    def row_at(self, named: int, lifetime: str) -> str:
        return f"MutRef (named {named}) {lifetime} {self.to.row}"

    def last(self, items: str, name: str = "") -> str:
        return f"‵ (fres {name or f'γ·{self.x}'} ({self.to.row} .coded .code {items}))"


class ArrayRef(ThinLent, Listed):
    """A `&mut [u32; n]` or a `&mut [u64; n]`."""

    form, known = "ref", "tt"

    def __init__(self, name: str, place: int, lifetime: int, mut: bool, to: Array):
        super().__init__(name, place, lifetime, mut, to)
        self.slot = f"tt (arrayOf (plain (λ _. {to.of.row})) {to.n})"
        self.binders += f" ({self.list} : List ℕ)"
        self.machine_type, self.machine = f"(tyRef (named {lifetime}) mut {self.target})", f"(vptr {self.place})"
        self.vals, self.tells = "ptr-vals", f"mut-tells (named {lifetime}) (κs{part(lifetime)}) {to.row}"
        self.on = [f"(tyRef erased mut {self.target})"]
        self.stands(given=False)

    def lend_on(self, c: Context, local: int) -> None:
        c.assign(local, f"(addr ! (from ! (hop ! (look ! {c.cell(self.local)} refl) (stop !))))", "(tt, tt)")

    def lend(self, c: Context, number: int, items: str, known: str, made: str) -> None:
        x, lends = self.x, f"lends-ref-again ! tt {self.to.row} (named {self.lifetime}) (named {number}) {self.place} {items}"
        c.front(f"own {x}", f"token {x}").bind(lends, made, 2, [f"fresh {x}", f"lent {x}", f"kept {x}"]).line()

    def come_back(self, c: Context, n: str, items: str, last: str, known: str) -> None:
        x, back = self.x, f"ref-comes-back ! tt {self.to.row} (named {self.lifetime}) {self.place} {items} {last}"
        c.front(f"fresh {x}", f"kept {x}", f"last {x}").rule(back, 3, [f"own {x}", f"token {x}"]).line()


class Record(Reference):
    """A `&mut Record` or a `&Record`."""

    def __init__(self, name: str, place: int, lifetime: int, mut: bool, to: Kind):
        super().__init__(name, place, lifetime, mut, to)
        x, self.old = self.x, f"v·{self.x}"
        self.binders += f" (v·{x} : {to.type})"
        self.type, self.value = f"RefT {to.type}", f"record {{ ptr = (b·{x}, o·{x}); name = γ·{x}; now = v·{x} }}"
        self.machine_type, self.machine = f"(tyRef (named {lifetime}) {self.how} {self.target})", f"(vptr b·{x} o·{x})"
        self.typing, self.vals = "(tt, tt)", "ptr-vals"
        self.row = f"{'MutRef' if mut else 'ShrRef'} (named {lifetime}) κ·{x} {to.row}"
        self.tells = f"{'mut' if mut else 'shr'}-tells (named {lifetime}) (κs{part(lifetime)}) {to.row}"
        self.stay = f"stay-ref ({lifetime} ∷ []) {self.slot}" if mut else f"stay-none-ref ({lifetime} ∷ []) {self.slot} yes"
        self.goes = f"ref {lifetime} {self.slot}" if mut else f"none-ref ({lifetime} ∷ []) {self.slot} yes"


def params_of(f: Function) -> list[Param]:
    """The parameters of a function."""
    params: list[Param] = []
    for place, (name, text) in enumerate(f.params):
        m = re.fullmatch(r"(?P<ref>& ?(?P<mut>mut )?)?(?P<slice>\[)?(?P<to>[\w:]+)(?:; (?P<n>\d+))?\]?", text)
        to = m and kind_of(m["to"], f)
        lifetime = sum(isinstance(p, Reference) for p in params)
        if m and not m["ref"] and bool(m["slice"]) == bool(m["n"]):
            params.append(ByValue(name, place, Array(to, m["n"]) if m["n"] else to))
        elif m and m["n"] and m["ref"] and m["mut"] and isinstance(to, Number):
            params.append(ArrayRef(name, place, lifetime, True, Array(to, m["n"])))
        elif m and m["ref"] and not m["n"] and (isinstance(to, Number) or not m["mut"] if m["slice"] else isinstance(to, Struct)):
            params.append((Slice if m["slice"] else Record)(name, place, lifetime, bool(m["mut"]), to))
        else:
            raise Misfit(f"'{f.item}': a walk has no parameter '{name}: {text}'")
    return params
