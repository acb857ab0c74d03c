"""One call of a walk: what the callee is given, and the steps from the arguments to what comes back."""
from __future__ import annotations

from typing import NamedTuple

from context import Context
from kinds import Kind, Plain, kind_of
from params import Lendable
from source import Function, Misfit
from text import LOGIC, MACHINE, Terms, arrow, binders, cons, named, nested, nested_type, part, token

Pairs = list[tuple[str, str]]  # variables, with types


class Given(NamedTuple):
    """What the walk has to give to a call, where the call stands."""
    values: dict[str, tuple[int, Plain]]       # by name, numbers and structs: their locals, and what they are
    lists: dict[Lendable, tuple[str, str]]     # of what can be lent its list there, and what is known of it
    depends: Pairs                             # the variables that these depend on, ..
    facts: Pairs                               # .. and those that the proofs of them have
    kept: list[Lendable]                       # what is lent and needed after the call, but for `&` slices
    needs: str                                 # a proof of the callee's `requires`


class Lent:
    """What a call is lent."""

    def __init__(self, p: Lendable, n: str, place: int, number: int, comes_back: bool, items: str, known: str):
        self.p, self.x, self.items, self.known, self.comes_back = p, p.x, items, known, comes_back
        self.last = f"(zs{n}{part(place)})" if p.mut else items  # its list after the call
        self.number, self.made, self.name = number, f"ν{n}·{p.x}", f"γ·{p.x}"  # of its lifetime in the callee; one made for the call; its name
        self.lifetime, self.share, self.token_name = f"κ·{p.x}", f"q·{p.x}", f"token {p.x}"
        if comes_back:
            self.name, self.lifetime, self.share, self.token_name = f"δ{n}·{p.x}", f"({self.made} ∷ [])", "fullShare", f"fresh {p.x}"
        self.type, self.value, self.machine, self.row = p.type, p.at(self.name, items), p.machine, p.row_at(number, self.lifetime)
        # the variables that its value in the call depends on: what is made for the call, and the place of a local
        self.binds = [(self.made, "ℕ"), (self.name, "GName")] if comes_back else []
        self.binds += [(f"l·{p.local}", "ℕ")] if p.own else []


class Call:
    """The call of number k of a walk; its names end in ·k. The callee's result is of the kind `out`."""

    def __init__(self, k: int, callee: Function, out: Kind, names: list[str], given: Given):
        self.k, self.n, self.callee, self.out, self.given = k, f"·{k}", callee, out, given
        if len(names) != len(callee.params):
            raise Misfit(f"'{callee.item}' takes {len(callee.params)} arguments, and is given {len(names)}")
        lists = {p.name: p for p in given.lists}
        self.args: list[Plain | Lent] = []
        self.operands: list[int | None] = []  # a local, or none where the argument is a number or a local that is lent
        for place, name in enumerate(names):
            if p := lists.get(name):
                number = sum(isinstance(a, Lent) for a in self.args)
                operand = None if p.own else p.local
                arg = Lent(p, self.n, place, number, p in given.kept, *given.lists[p])
            elif name in given.values:
                operand, arg = given.values[name]
            elif name.isdigit():
                operand, arg = None, kind_of(callee.params[place][1], callee).plain(name, "(refl, lit< tt)")
            else:
                raise Misfit(f"'{callee.item}' is given '{name}', which is no local or parameter that a walk can give")
            self.operands.append(operand)
            self.args.append(arg)
        self.lent = [a for a in self.args if isinstance(a, Lent)]
        self.muts = [a for a in self.lent if a.p.mut]
        self.locals, self.listed = ([a for a in self.lent if a.p.own == own] for own in (True, False))
        self.anew = [a for a in self.lent if a.p.mut or a.p.own]  # lent by a reference that is made for the call; a `&` slice is copied
        self.lent_on: dict[Lent, int] = {}  # of each of those the last of the locals by which it is lent on
        self.state = given.depends + [pair for a in self.lent for pair in a.binds]
        self.to, self.ca, self.cv, self.gives = (f"({name}{self.n} {named(self.state)})" for name in ("to", "ca", "cv", "gives"))
        self.contract, self.lifetimes = f"Callee{self.n} 𝓤 H A mm rn", nested(a.lifetime for a in self.lent)
        # what is known after the call: the result, the last values of all arguments, what the `ensures` says of them, what is known of
        # the result, that each last list of a slice is as long as the one given, and how a local lies there; in the `post`,
        # that the result is related to the machine value w
        self.result = out.plain(f"r{self.n}", f"is{self.n}")
        self.lasts = nested_type(a.p.behind if a in self.muts else "Unit {0}" for a in self.args)
        self.values: Pairs = [(f"r{self.n}", out.type), (f"zs{self.n}", self.lasts)]
        self.did = (f"did{self.n}", f"Did{self.n} {named(given.depends + self.values)}")
        self.known = (f"is{self.n}", out.known(f"r{self.n}"))
        self.lengths: Pairs = [(f"d{self.n}·{a.x}", f"length {a.last} ≡ length {a.items}") for a in self.muts if a.p.sized]
        lie: Pairs = [(a.p.known_after(self.n, a.known), a.p.to.known(a.last)) for a in self.locals]
        self.results: Pairs = [*self.values, self.did, self.known, *self.lengths, *lie]
        self.heard: Pairs = [*self.values, self.did, (f"was{self.n}", f"Is {out.row} r{self.n} (w{self.n} ∷ [])"), *self.lengths]
        self.knows = out.knows(f"r{self.n}", f"was{self.n}")

    def number_locals(self, first: int) -> list[str]:
        """Gives what is lent anew the locals by which it is lent on, from `first` on; their machine types."""
        types: list[str] = []
        for a in self.anew:
            types += a.p.on
            self.lent_on[a] = first + len(types) - 1
        self.extra_locals = range(first, first + len(types))
        return types

    # ---- The definitions of the call

    def uses(self, own: str) -> str:
        n, module = self.n, self.callee.item.module("proofs", own)
        return f"use {module} as callee{n}\nuse {module}.Symbol as symbol{n}\nuse {module}.Met as met{n}\nuse {module}.Symbol.{{name as #{n}}}\n"

    def statement(self) -> str:
        n = self.n
        return f"""\
abbrev Callee{n} : {LOGIC} {MACHINE} → Contract 𝓤
Callee{n} 𝓤 H A mm rn = tripleOf 𝓤 H A callee{n}.signature (callee{n}.spec 𝓤 H A mm rn)
"""

    def fact(self) -> str:
        """What the callee's `ensures` says."""
        args = {name: a for (name, _), a in zip(self.callee.params, self.args)}
        lent = {name: a for name, a in args.items() if isinstance(a, Lent)}
        return Terms({name: a.value for name, a in args.items() if name not in lent}, {name: a.items for name, a in lent.items()},
                     {name: a.last for name, a in lent.items()}, f"r{self.n}").say(self.callee.ensures)

    def definitions(self) -> str:
        """What the callee ensures; the arguments; what its triple binds outside; what the walk gives; that the `pre` is met; the `post`."""
        n, of, at, told = self.n, arrow(self.state), named(self.state), self.given.depends + self.values
        return f"""\
  abbrev Did{n} : {arrow(told)}Type 0
  Did{n} {named(told)} = {self.fact()}
  abbrev ca{n} : {of}{nested_type(a.type for a in self.args)}
  ca{n} {at} = {nested(a.value for a in self.args)}
  abbrev cv{n} : {of}{nested_type(["List Val"] * len(self.args))}
  cv{n} {at} = {nested(f"{a.machine} ∷ []" for a in self.args)}
  abbrev to{n} : {of}{self.contract} .Ghost
  to{n} {at} = (({self.lifetimes}, {nested(a.share for a in self.lent)}, tt, {self.ca}, {self.cv}), tt)
  abbrev gives{n} : {of}List (Item 𝓤)
  gives{n} {at} = {cons(self.given_items().values())}
{self.pre()}
{self.post()}"""

    def tokens(self) -> dict[str, str]:
        return {a.token_name: token(a.lifetime, a.share) for a in self.lent}

    def given_items(self) -> dict[str, str]:
        """What the walk gives: the tokens, and what the callee is to own of all that it is lent."""
        return {**self.tokens(), **{f"lent {a.x}": f"‵ ({a.row} .own ({a.value}) ({a.machine} ∷ []))" for a in self.lent}}

    def come_items(self) -> dict[str, str]:
        """What comes back: the tokens, and of each `&mut` that its last list is known."""
        return {**self.tokens(), **{f"last {a.x}": a.p.last(a.last, a.name) for a in self.muts}}

    def pre(self) -> str:
        """That what is given, with what numbers and structs own, is the callee's `pre`."""
        pairs, c = self.state + self.given.facts, Context(self.given_items())
        c.join(list(self.tokens()), "tokens").line().rule("nothing !", 0, ["args"])
        for a in reversed(self.args):
            if isinstance(a, Plain):
                c.front("args").add(a.owned, "args")
            else:
                c.front(f"lent {a.x}", "args").rule("fjoin !", 2, ["args"])
        c.front("tokens", "args").line().rule(f"says ! ({self.given.needs})" if self.callee.requires else "join !").rule("frame !")
        return f"""\
  calling{self.n} : {arrow(pairs)}ent 𝓤 (⋆ 𝓤 H A {self.gives}) ({self.contract} .pre {self.to})
  calling{self.n} {named(pairs)} =
        qed W {self.gives} ∵ {c.text("done !")}"""

    def post(self) -> str:
        """The callee's `post` taken apart."""
        n, out, c, call = self.n, self.out, Context(["post"]), f"{self.lifetimes} {self.ca}"
        tokens = " ⊛ ".join([*self.tokens().values(), "‵ ftrue"])
        c.rule(f"use1 W (later (some (λ (r{n} : {out.type}). (({tokens}) ⊛ ‵ ({out.row} .own r{n} (w{n} ∷ []))) ⊛ "
               f"raw (ensured 𝓤 H A callee{n}.ended (callee{n}.clauses 𝓤 H A mm rn) {call} tt r{n})))) (id⊢ 𝓤 _)")
        c.rule("await ! soaks").bind("pick !", f"r{n}").rule("split !", 1, ["tokens and result", "ensured"]).front("ensured").line()
        c.rule(f"use1 W (some (λ (zs{n} : {self.lasts}). ‵ (lasts callee{n}.ended {call} zs{n}) ⊛ raw (fact 𝓤 ({self.did[1]})))) (id⊢ 𝓤 _)")
        c.bind("pick !", f"zs{n}").rule("split !", 1, ["lasts", "fact"]).front("fact").bind(f"heard ! ({self.did[1]})", f"did{n}", 1).line()
        for a in self.args:
            c.front("lasts").rule("fsplit !", 1, ["one", "lasts"])
            if a not in self.muts:
                c.rule("drop !", 1)
            elif a.p.sized:
                c.rule("fsplit !", 1, [f"last {a.x}", "same length"]).front("same length").bind("feqL !", f"d{n}·{a.x}", 1)
            else:
                c.rename("one", f"last {a.x}")
        c.drop("lasts").front("tokens and result").rule("split !", 1, ["tokens", "result"]).front("result")
        c.bind(f"peeks ! {out.relation} r{n} (w{n} ∷ [])", f"was{n}").drop("result").line()
        for name in self.tokens():
            c.front("tokens").rule("split !", 1, [name, "tokens"])
        c.drop("tokens").front(*self.come_items())
        return f"""\
  come{n} : {arrow(self.state)}(w{n} : Val) (Γ : List (Item 𝓤)) {{G : Goal 𝓤 H}} (soaks : Soaks G)
      → ({binders(self.heard)} → Sq W ({" ∷ ".join([*self.come_items().values(), "Γ"])}) G) → Sq W (raw ({self.contract} .post {self.to} w{n}) ∷ Γ) G
  come{n} {named(self.state)} w{n} Γ soaks so =
        {c.text("so " + named(self.heard))}"""

    # ---- The steps

    def steps(self, c: Context, slot: int, how: str) -> None:
        """From what the walk has of all that is lent to the result in the local `slot`, and what it has of that after the call."""
        n, out, items = self.n, self.out, self.given_items()
        for a in self.anew:
            a.p.lend_on(c, self.lent_on[a])
        for a in self.lent:
            self.lend(c, a)
        calling = f"calling{n} {named(self.state + self.given.facts)}"
        c.front(*items).rule(f"cut {self.gives} (raw ({self.contract} .pre {self.to}) ∷ []) _ ({calling})", len(items), ["pre"]).line()
        operands = "no-more !"
        for a, operand in reversed(list(zip(self.args, self.operands))):
            local = self.lent_on.get(a, operand) if isinstance(a, Lent) else operand
            read = "(lit ! tt)" if local is None else c.load(local)
            operands = f"and-then ! {read} ({operands})"
        c.bind(f"calls-at ! fm ({self.contract}) known{n} {self.to} ({operands})", f"w{n}", 1, ["post"]).line()
        c.bind(f"come{n} {named(self.state)} w{n} _ tt", named(self.heard), 1, list(self.come_items())).line()
        c.rule(f"land ! (from ! (stop !)) ({how} ! {c.cell(slot)} refl ({out.lawful} .typed r{n} _ was{n} .0))")
        tells, cell = f"(ap only ({out.tells} r{n} _ was{n}))", f"(λ (v : Val). ‵ (fat fullShare {out.machine_type} l·{slot} 0 v))"
        c.rule(f"rewrite ! {c.cell(slot)} {cell} {tells} refl").line()
        for a in (a for a in self.lent if a.comes_back):
            a.p.come_back(c, n, a.items, a.last, a.known)

    def lend(self, c: Context, a: Lent) -> None:
        """What comes back is lent for a lifetime made for the call; of a `&` slice a copy is made."""
        p, x = a.p, a.x
        if a.comes_back:
            p.lend(c, a.number, a.items, a.known, f"{a.made} {a.name}")
        elif p.mut:
            c.rename(f"own {x}", f"lent {x}")
        else:
            one, copies = p.owned(p.list), f"shr-slice-copy 𝓤 H A W (named {p.lifetime}) κ·{x} {p.to.row}"
            c.front(f"own {x}").rule(f"use1 W ({one} ⊛ {one}) ({copies} .twice ({p.value}) ({p.machine} ∷ []))")
            c.rule("split !", 1, [f"lent {x}", f"own {x}"]).line()
