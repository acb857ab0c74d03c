"""Numbers, structs and arrays of numbers, and what the parts of a walk say of each."""
from __future__ import annotations

from typing import NamedTuple

from source import Function, Item, Misfit

WIDTHS = {"u32": "w32", "u64": "w64", "usize": "w64"}


class Plain(NamedTuple):
    """A value that is a number, a struct or an array."""
    type: str          # in contracts
    value: str
    machine_type: str
    machine: str       # its machine value
    typing: str        # that this is of the machine type
    row: str
    owned: str         # the rule that makes what it owns


class Kind:
    """The type of such values. What a walk knows of one is the type's relation, `Is`, to its machine value."""

    type: str          # in contracts
    row: str
    machine_type: str
    vals: str          # that a value is one machine value
    tells: str         # that the relation tells which
    lawful: str        # that the machine value is of its type
    makes: str         # that the relation makes what a value owns

    def machine(self, value: str) -> str:
        """The machine value."""
        raise NotImplementedError

    def knows(self, value: str, related: str) -> str:
        """A proof of `known`, by one that the value is related to some machine value."""
        raise NotImplementedError

    def known(self, value: str) -> str:
        return f"Is {self.row} {value} ({self.machine(value)} ∷ [])"

    @property
    def relation(self) -> str:
        """The row, its relation, and that what is owned shows it."""
        return f"{self.row} (Is {self.row}) (shows 𝓤 H A {self.row})"

    def plain(self, value: str, proof: str) -> Plain:
        """A value, with a proof of what is known of it."""
        return Plain(self.type, value, self.machine_type, self.machine(value), f"({self.lawful} .typed {value} _ {proof} .0)", self.row,
                     f"owned ! {self.row} (Is {self.row}) {self.makes} {value} _ {proof}")


class Number(Kind):
    """u32, u64 or usize."""

    def __init__(self, name: str):
        self.name = self.row = name
        self.width = WIDTHS[name]
        self.type, self.machine_type, self.makes = "ℕ", f"(tyInt {self.width})", f"(uint-makes 𝓤 H A W {self.width})"
        self.vals, self.tells, self.lawful = f"uint-vals {self.width}", f"uint-tells {self.width}", f"uint-lawful 𝓤 H A W {self.width}"

    def machine(self, value: str) -> str:
        return f"(vint {self.width} {value})"

    def knows(self, value: str, related: str) -> str:
        return f"(refl, {related} .1)"


class Struct(Kind):
    """A struct S. Of it a walk has D·S, its type in contracts, and T·S and L·S, the modules of its row and its laws."""

    def __init__(self, item: Item):
        self.item, self.name = item, item.name
        self.type, self.row, self.machine_type = f"D·{self.name}", f"T·{self.name}.the-row", f"L·{self.name}.mir"
        self.laws = f"T·{self.name}.the-type L·{self.name}.the-laws"
        self.vals, self.tells, self.lawful = f"LL.vals {self.laws}", f"LL.tells {self.laws}", f"LL.lawful {self.laws} 𝓤 H A W"
        self.makes = f"(LL.makes T·{self.name}.the-type L·{self.name}.the-plain 𝓤 H A)"
        self.copies = f"(LL.copy T·{self.name}.the-type L·{self.name}.the-copy 𝓤 H A W)"

    def machine(self, value: str) -> str:
        return f"(LL.val {self.laws} {value})"

    def knows(self, value: str, related: str) -> str:
        return f"(LL.owes {self.laws} {value} (LL.owed {self.laws} {value} _ {related}))"

    @property
    def row_laws(self) -> str:
        return f"{self.relation} ({self.vals}) ({self.tells})"

    def uses(self, own: str) -> str:
        s, proofs = self.name, self.item.module("proofs", own)
        return f"use {self.item.module('specs', own)}.{{{s} as D·{s}}}\nuse {proofs} as T·{s}\nuse {proofs}.Laws as L·{s}\n"


class Array(Kind):
    """[u32; n], [u64; n] or [Struct; n]: in contracts a list."""

    def __init__(self, of: Kind, n: str):
        self.of, self.n = of, n
        self.type, self.row, self.machine_type = f"(List {of.type})", f"(Array {of.row} {n})", f"(tyArray {of.machine_type} {n})"
        self.vals, self.tells = f"array-vals ({of.vals})", f"array-tells {of.row} ({of.vals}) ({of.tells}) {n}"
        self.lawful, self.makes = f"array-lawful 𝓤 H A W {of.row} ({of.lawful}) {n}", f"(array-makes 𝓤 H A W {of.row} {of.makes} {n})"

    def machine(self, value: str) -> str:
        return f"(only ({self.vals} {value}))"

    def knows(self, value: str, related: str) -> str:
        return f"(subst (Is {self.row} {value}) ({self.tells} {value} _ {related}) {related})"


U32, USIZE = Number("u32"), Number("usize")


def kind_of(name: str, f: Function) -> Kind:
    """The type of that name in the function's file."""
    if name in WIDTHS:
        return Number(name)
    if not name.split("::")[-1][:1].isupper():
        raise Misfit(f"'{f.item}': a walk has no '{name}', but u32, u64, usize and structs")
    return Struct(f.file.leads_to(name))
