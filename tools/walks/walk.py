"""The parts of a printed file, in its order, and the steps of a walk that the shapes share."""
from __future__ import annotations

from calls import Call
from context import Context
from kinds import Array, Plain, Struct, kind_of
from params import ByValue, Listed, Param, Reference, params_of
from source import Clause, Function, Misfit, Source
from text import LOGIC, MACHINE, RULES, Terms, cited_by, cons, imports_for, kebab, nested, nested_type, use_lines, words_of


class Walk:
    """A walked function. A shape sets up the calls and the locals, and has two methods: `own_definitions`, what stands before the walk,
    and `body(c)`, which prints the statements after the entry and returns what the walk ends in."""

    def __init__(self, source: Source, f: Function):
        self.source, self.f, self.own = source, f, f.item.crate
        self.params = params_of(f)
        self.refs = [p for p in self.params if isinstance(p, Reference)]
        self.listed = [p for p in self.refs if isinstance(p, Listed)]
        self.muts = [p for p in self.listed if p.mut]
        self.by_name = {p.name: p for p in self.params}
        self.plain = {p.name: (p.local, p.plain) for p in self.params if isinstance(p, ByValue)}  # numbers and structs, and their locals
        self.types: list[str] = []       # the machine types of all locals
        self.calls: list[Call] = []
        self.cites: dict[str, str] = {}  # what the walk cites of the repository's definitions and laws, and the modules
        self.lifetimes, self.shares = nested(f"κ·{p.x}" for p in self.refs), nested(f"q·{p.x}" for p in self.refs)
        self.contract = "walked·.ended stayed (walked·.clauses 𝓤 H A mm rn)"
        self.ghost = f"(({self.lifetimes}, {self.shares}, tt, a, vals), tt)"

    def cite(self, clause: Clause | None, f: Function) -> None:
        for entry, module in (cited_by(clause, f.file, self.own) if clause else {}).items():
            if self.cites.setdefault(entry, module) != module:
                raise Misfit(f"'{self.f.item}': contracts cite two '{entry}', of {module} and of {self.cites[entry]}")

    def law(self, name: str) -> str:
        """The law of that name for this function, which the crate has."""
        law = f"{kebab(self.f.item.name)}-{name}"
        self.cites[law] = self.source.law(self.own, law)
        return law

    @property
    def cells(self) -> list[str]:
        return [f"{what} {i}" for i in reversed(range(len(self.types))) for what in ("cell", "dies")]

    @property
    def cell_names(self) -> str:
        return " ".join(f"l·{i}" for i in range(len(self.types)))

    def cell(self, i: int, value: str = "") -> str:
        """What a local owns, full or empty."""
        return f"‵ (fat fullShare {self.types[i]} l·{i} 0 {value})" if value else f"‵ (froom {self.types[i]} l·{i} 0)"

    @property
    def known(self) -> str:
        """What the walk knows of the callees."""
        triples = (f"(known{call.n} : Triple 𝓤 (𝓣 .C #{call.n}) (Callee{call.n} 𝓤 H A mm rn))" for call in self.calls)
        return " ".join(["(fm : FmC 𝓤 H (W .laws) (𝓣 .C))", *triples])

    @property
    def fm_known(self) -> str:
        return " ".join(["fm", *(f"known{call.n}" for call in self.calls)])

    # ---- The parts of the file

    def file(self, command: str) -> str:
        self.cite(self.f.requires, self.f)
        for call in self.calls:
            self.cite(call.callee.ensures, call.callee)
        body = "\n".join([self.statements(), self.module(), self.own_definitions(), self.walk(), self.closing()])
        return f"""\
-- Printed by `{command}`; do not edit. `{self.f.item}` meets its contract: a walk of its MIR. Assumes nothing.
{imports_for(body)}{self.uses(body)}
{body}
"""

    def uses(self, body: str) -> str:
        """The `use` lines of the repository's own modules."""
        kinds = [*(call.out for call in self.calls), *(p.to for p in self.refs), *(p.kind for p in self.params if isinstance(p, ByValue))]
        parts = (kind.of if isinstance(kind, Array) else kind for kind in [*kinds, kind_of(self.f.result, self.f)])
        structs = {kind.name: kind for kind in parts if isinstance(kind, Struct)}
        module = self.f.item.module("proofs", self.own)
        return "".join([
            "use denote.Struct.Laws as LL\n", *(s.uses(self.own) for s in structs.values()), *(call.uses(self.own) for call in self.calls),
            f"use {module} as walked·\nuse {module}.Key.{{name as #walked}}\nuse {module}.Statement as stated\n"
            f"use {module}.Code as code\nuse {module}.Code.Mir as piece\n",
            use_lines([(rule, "Rattle·walks.specs.Rules") for rule in RULES if rule in words_of(body)]), use_lines(self.cites.items())])

    def statements(self) -> str:
        """How each parameter stands at exit, and the callees' contracts."""
        return "\n".join([f"""\
abbrev stayed : Stays (walked·.ended .signature .params) (walked·.ended .kept)
stayed = {nested(p.stay for p in self.params)}
""", *(call.statement() for call in self.calls)])

    def module(self) -> str:
        """The module's head, with what the parameters are made of; the arguments, their machine values, and what is to hold at exit."""
        terms = Terms({name: value.value for name, (_, value) in self.plain.items()}, {p.name: p.list for p in self.listed})
        needed = f" (needed : {terms.say(self.f.requires)})" if self.f.requires else ""
        return f"""\
module _ {LOGIC} (W : Given 𝓤 H A) {MACHINE} {" ".join(p.binders for p in self.params)}{needed} where
  abbrev a : {nested_type(p.type for p in self.params)}
  a = {nested(p.value for p in self.params)}
  abbrev vals : {nested_type(["List Val"] * len(self.params))}
  vals = {nested(f"{p.machine} ∷ []" for p in self.params)}
  abbrev Post : Val → SProp 𝓤
  Post = walkOf 𝓤 H A {self.contract} .post {self.ghost}"""

    def environment(self) -> str:
        """The head of a module for lemmas inside the walk: the tables, and the locals."""
        return f"""\
  module _ (𝓣 : Tables 𝓤 H) {self.known} ({self.cell_names} : ℕ) where
    abbrev En : Env 𝓤 H
    En = {cons(f"({t}, l·{i})" for i, t in enumerate(self.types))}"""

    def walk(self) -> str:
        """The walk itself, from the entry: room for the locals, the parameters in theirs, and what these own, `own x` of each reference
        and `token x` of its lifetime; then the body."""
        c, values = Context([*self.cells, "tokens", "params"]), cons(p.machine for p in self.params)
        for i in range(len(self.types)):
            c.bind("alloc1 !", f"l·{i}")
        c.rule("alloc0 !").rule("params1 !").line()
        for p in self.params:
            c.rule(f"pass1 ! (init ! {c.cell(p.local)} refl {p.typing})")
        c.rule("pass0 !").line()
        for p in self.params:
            c.front("params").rule("fsplit !", 1, [f"own {p.x}", "params"])
            if isinstance(p, ByValue):
                c.drop(f"own {p.x}")
        for p in self.refs:
            c.front("tokens").rule("split !", 1, [f"token {p.x}", "tokens"])
        last = self.body(c.line())
        tokens = " ⊛ ".join([*(p.token for p in self.refs), "‵ ftrue"])
        return f"""\
  walk : (𝓣 : Tables 𝓤 H) {self.known}
      → ent 𝓤 (onEntry 𝓤 H A walked·.signature {self.lifetimes} {self.shares} a vals) (WpFn 𝓤 H (𝓣 .C) (𝓣 .Λ) code.function ({values}) Post)
  walk 𝓣 {self.fm_known} =
        qed W (({tokens}) ∷ ‵ (owns ({cons(p.row for p in self.params)}) a vals) ∷ []) ∵ enter ! (𝓣 .C) (𝓣 .Λ) code.function ({values}) _ $
        {c.text(last)}
"""

    def closing(self) -> str:
        """The closing lines: the walk of any arguments, taken to the contract, and that to the function's routine."""
        n, spec, run = len(self.refs), f"{kebab(self.f.item.name)}-spec", "(WpFn 𝓤 H (𝓣 .C) (𝓣 .Λ) code.function)"
        logic, machine, tables = "𝓤 H (𝓖 .A)", "(𝓜 .mem) (𝓡 .run)", "tables 𝓤 H 𝓜 𝓡 code.env"
        walk = f"walk 𝓤 H A W mm rn {' '.join(p.made_of for p in self.params)}"
        met = f"via 𝓤 _ (fst∗ 𝓤 _ (emp 𝓤)) ({walk} 𝓣 {self.fm_known})"
        if self.f.requires:
            terms = Terms({p.name: p.arg for p in self.params if p not in self.refs}, {p.name: f"({p.arg} .now)" for p in self.refs})
            met = f"needs 𝓤 ({terms.say(self.f.requires)}) _ (λ needed. {walk} needed 𝓣 {self.fm_known})"
        goes = [p.goes.split(" ", 1) for p in self.params]
        cited = "".join(f"\n    (cited 𝓤 H (Callee{call.n} {logic} {machine}) 𝓜 𝓡 code.env #{call.n} symbol{call.n}.routine "
                        f"code.calls-{call.callee.item.key} (met{call.n}.met 𝓤 H 𝓜 𝓖 𝓡))" for call in self.calls)
        return f"""\
module _ {LOGIC} (W : Given 𝓤 H A) {MACHINE} where
  walks : (𝓣 : Tables 𝓤 H) {self.known} → Walks 𝓤 H A walked·.ended stayed {run} (walked·.clauses 𝓤 H A mm rn)
  walks 𝓣 {self.fm_known} =
      walked 𝓤 H A {self.contract} {run} (λ κs. {nested(p.vals for p in self.params)}) (λ κs. {nested(p.tells for p in self.params)})
      (λ κs qs bounds a gh are. {met})
  all-go : AllGo 𝓤 H A W {n} (walked·.signature .params) (walked·.ended .kept) stayed
  all-go = {nested(f"goes-{law} 𝓤 H A W {n} {by}" for law, by in goes)}

pub {spec} : {{M : Type 1}} → stated.statement M
unfolding code.routine tablesOf
{spec} 𝓤 H 𝓜 𝓖 𝓡 =
    let W = givenOf 𝓤 H 𝓜 𝓖 in let 𝓣 = tablesOf 𝓤 H 𝓜 ({tables}) in
    entered 𝓤 H (tripleOf {logic} walked·.signature (walked·.spec {logic} {machine})) ({tables} .C) ({tables} .Λ) #walked code.function
    (code.unfolded 𝓤 H 𝓜 𝓡)
    (walk-meets {logic} walked·.ended stayed W (all-go {logic} W {machine}) (walked·.clauses {logic} {machine}) {run}
    (WpFn-mono 𝓤 H (W .laws) 𝓣 code.function) (walks {logic} W {machine} 𝓣 (fmOf 𝓤 H (W .laws) 𝓣){cited}))"""

    # ---- The exit

    def leave(self, c: Context, full, keep: list[str]) -> None:
        """`return`: the locals are freed, those that are full too, and the entries `keep` are left."""
        c.rule(f"returns ! (look ! {c.cell(0)} refl)").line()
        c.front(*(f"{what} {i}" for i in range(len(self.types)) for what in ("cell", "dies"))).line()
        held = cons(f"holds {t} l·{i} _" if i in full else f"bare {t} l·{i}" for i, t in enumerate(self.types))
        c.rule(f"frees-all ! ({held})", 2 * len(self.types)).line().keep(keep)

    def ends(self, c: Context, had: str, result: Plain, lasts: dict[Param, tuple[str, str]], proof: str) -> str:
        """A proof that what is had at exit, of tokens and references, makes the `ensures`, by the proof.

        `lasts` has the last value of each `&mut` and that it fits: of a slice, that its list is as long as the old.
        """
        c.join([f"token {p.x}" for p in self.refs], "tokens").rule("frame !", 1).rule("nothing !", 0, ["args"])
        for p in reversed(self.params):
            if isinstance(p, ByValue):
                c.front("args").add(p.plain.owned, "args")
            else:
                c.front(f"{'last' if p.given else 'own'} {p.x}", "args").rule("fjoin !", 2, ["args"])
        c.rule(result.owned, 0, ["result"]).front("args", "result")
        values, proofs = (nested(lasts[p][which] if p in lasts else "tt" for p in self.params) for which in (0, 1))
        ended = f"ends-at 𝓤 H A {self.contract} W {self.ghost} {result.machine} {result.value} {values} {proofs}"
        return f"qed W ({had}) ∵ suffices ! _ ({ended}) $\n        says ! ({proof}) $ {c.text('done !')}"
