"""The shape of a function over a lent record: it copies the record, makes calls by value, and stores the record that the last one gives.

    pub fn read(rec: &mut Record, g: Geometry, page: u32, chip: &mut [u32], counts: &mut [u32]) -> u32
    {
        let r = *rec;
        let n = chip.len();                                      any number of these, or none
        let mut seen = [0u64; 16];                               and of these, at u32 or u64
        let out = read_step(r, n, 5, g, page, chip, counts, &mut seen);
        *rec = out.rec;
        out.answer
    }

There may be several calls: each is given any of r, the lengths, the parameters, numbers, a local array as `&mut seen`, and the results of
calls before it.
With `rec: &Record` there is no store, and the last call may be the end of the body, if it returns the answer itself.
Each call is a lemma, `call·k`: a rule that takes what the call needs off the front of the context, with any rest Γ, and puts what comes
back there. So its walk has a small context, which takes half the memory.
"""
from __future__ import annotations

import re
from typing import NamedTuple

from calls import Call, Given, Pairs
from context import Context
from held import LocalArray
from kinds import U32, WIDTHS, Array, Number, Plain, Struct, kind_of
from params import Record, Slice
from source import Function, Misfit, Source, split_list
from text import binders, cons, field, kebab, named, part
from walk import Walk


class Body(NamedTuple):
    """The statements of such a function."""
    copy: str                                  # let copy = *rec;
    lengths: list[tuple[str, str]]             # let name = slice.len();
    arrays: list[tuple[str, str, str]]         # let mut name = [0u32; n];
    calls: list[tuple[str, str, list[str]]]    # let name = callee(arguments); the name of a call at the end is ""
    record_field: str                          # *rec = last.record_field;
    answer_field: str                          # last.answer_field


def read_body(f: Function, rec: Record) -> Body:
    statements = [s.strip() for s in re.split(r";(?![^\[]*\])", f.body)] + ["its end"]

    def taken(pattern: str) -> re.Match | None:
        """The next statement, if it has this form."""
        m = re.fullmatch(pattern, statements[0])
        return statements.pop(0) and m if m else None

    def asked(pattern: str, shown: str) -> str:
        if m := taken(pattern):
            return m[1]
        raise Misfit(f"'{f.item}' has '{statements[0]}' where the shape has '{shown}'")

    copy = asked(rf"let (\w+) = \*{rec.name}", f"let r = *{rec.name};")
    lengths, arrays, calls = [], [], []
    while m := taken(r"let (\w+) = (\w+)\.len\(\)"):
        lengths.append((m[1], m[2]))
    while m := taken(rf"let mut (\w+) = \[0({'|'.join(WIDTHS)}); (\d+)\]"):
        arrays.append((m[1], m[2], m[3]))
    while m := taken(r"let (\w+) = ([\w:]+)\((.*)\)"):
        calls.append((m[1], m[2], split_list(m[3])))
    if not rec.mut and (m := taken(r"([\w:]+)\((.*)\)")):
        return Body(copy, lengths, arrays, [*calls, ("", m[1], split_list(m[2]))], "", "")
    last = calls[-1][0] if calls else asked("()", "let out = step(r, ..);")
    record_field = asked(rf"\*{rec.name} = {last}\.(\w+)", f"*{rec.name} = {last}.rec;") if rec.mut else ""
    return Body(copy, lengths, arrays, calls, record_field, asked(rf"{last}\.(\w+)", f"{last}.answer"))


class OverRecord(Walk):

    def __init__(self, source: Source, f: Function):
        super().__init__(source, f)
        self.rec, *others = [p for p in self.params if isinstance(p, Record)]
        if others or f.result != "u32":
            raise Misfit(f"'{f.item}' has more than one record, or returns no u32")
        rec, body = self.rec, read_body(f, self.rec)
        self.types = [U32.machine_type, *(p.machine_type for p in self.params)]
        self.opened = (f"is·{rec.x}", rec.to.known(rec.old))     # what is known once the record is open
        self.copy = self.local(body.copy, rec.to.plain(rec.old, f"is·{rec.x}"))
        self.lengths = [(self.local(name, self.slice(x).length), self.slice(x)) for name, x in body.lengths]
        self.arrays = [self.array(name, Array(Number(of), n)) for name, of, n in body.arrays]
        self.first_lists: Pairs = [(p.list, "List ℕ") for p in self.arrays]
        # of all that can be lent its list so far, and what is known of it
        self.lists = {p: (p.list, p.known) for p in [*self.listed, *self.arrays]}
        callees = [source.function(f.file.leads_to(path)) for _, path, _ in body.calls]
        outs = [kind_of(callee.result, callee) for callee in callees]
        self.slots = [self.local(name, out.plain(f"r·{k}", f"is·{k}")) if name else 0
                      for k, ((name, _, _), out) in enumerate(zip(body.calls, outs), 1)]
        self.named_locals = len(self.types)
        for k, ((_, _, names), callee, out) in enumerate(zip(body.calls, callees, outs), 1):
            later = {x for _, _, others in body.calls[k:] for x in others}
            self.add_call(Call(k, callee, out, names, self.given(callee, [p for p in self.muts if p.name in later] + self.arrays)))
        self.last, self.answer_at = self.calls[-1], None
        self.answer, self.answer_known = self.last.result.value, self.last.known[0]
        if body.answer_field:
            self.answer, self.answer_at, related = self.of_last(body.answer_field, "u32")
            self.answer_known = U32.knows(self.answer, f"({related})")
        elif outs[-1].row != "u32":
            raise Misfit(f"'{f.item}' ends in a call that returns no u32")
        if rec.mut:
            value, self.record_at, related = self.of_last(body.record_field, rec.to.name)
            self.new = rec.to.plain(value, f"({related})")

    def local(self, name: str, value: Plain) -> int:
        self.types.append(value.machine_type)
        self.plain[name] = (len(self.types) - 1, value)
        return len(self.types) - 1

    def array(self, name: str, to: Array) -> LocalArray:
        self.types.append(to.machine_type)
        return LocalArray(name, len(self.types) - 1, to)

    def slice(self, name: str) -> Slice:
        if not isinstance(p := self.by_name.get(name), Slice):
            raise Misfit(f"'{self.f.item}': '{name}' is no slice")
        return p

    def of_last(self, name: str, kind: str) -> tuple[str, int, str]:
        """A field of the last result: its value, its place, and the relation to its machine value."""
        n, out = self.last.n, self.last.out
        fields = [(each, of.split("::")[-1]) for each, of in self.source.fields(out.item)] if isinstance(out, Struct) else []
        if (name, kind) not in fields:
            raise Misfit(f"'{self.f.item}': '{self.last.callee.result}' has no field '{name}: {kind}'")
        i = fields.index((name, kind))
        return f"(r{n} .{field(name)})", i, f"LL.owed {out.laws} r{n} _ is{n}{part(i)}"

    def given(self, callee: Function, kept: list[Slice]) -> Given:
        """What the next call is given."""
        depends, needs = [*self.first_lists, *(pair for call in self.calls for pair in call.values)], ""
        facts = [self.opened, *(call.known for call in self.calls)]
        if callee.requires:
            proofs = [p.zeros for p in self.arrays if self.lists[p][0] == p.list] + [call.did for call in self.calls]
            facts += proofs
            needs = " ".join([self.law(f"before-{kebab(callee.item.name)}"), *(["needed"] if self.f.requires else []), named(proofs)])
        return Given(dict(self.plain), dict(self.lists), depends, facts, kept, needs)

    def add_call(self, call: Call) -> None:
        self.calls.append(call)
        self.types += call.number_locals(len(self.types))
        for a in call.muts:
            self.lists[a.p] = (a.last, a.p.known_after(call.n, a.known))
            if a in call.listed:
                a.p.stands(given=not a.comes_back)

    # ---- The calls as lemmas

    def own_definitions(self) -> str:
        lemmas, statement = [self.environment()], 2 + len(self.lengths) + len(self.arrays)
        for call in self.calls:
            following = statement + len(call.extra_locals) + 1
            lemmas.append(self.lemma(call, statement, following))
            statement = following
        return "\n".join([*(call.definitions() for call in self.calls), self.exits(), *lemmas])

    def before(self, call: Call) -> Pairs:
        """What is known before a call."""
        made = [pair for p in self.arrays for pair in p.made]
        return [self.opened, *made, *(pair for earlier in self.calls[:call.k - 1] for pair in earlier.results)]

    def taken(self, call: Call) -> dict[str, str]:
        """What a call takes off the front of the context."""
        items = {f"own {a.x}": a.p.owned(a.items) for a in call.listed}
        items.update({f"token {a.x}": a.p.token for a in call.listed})
        items.update({f"cell {i}": self.cell(i, a.machine) for i, a in zip(call.operands, call.args) if i is not None})
        items.update({f"cell {a.p.local}": a.p.held(a.items) for a in call.locals})
        return {**items, **{f"cell {i}": self.cell(i) for i in [self.slots[call.k - 1], *call.extra_locals]}}

    def put(self, call: Call) -> dict[str, str]:
        """What it puts there."""
        gone, slot = [a for a in call.muts if not a.comes_back], self.slots[call.k - 1]
        items = {f"last {a.x}" if a in gone else f"own {a.x}": (a.p.last if a in gone else a.p.owned)(a.last) for a in call.listed}
        items.update({name: item for name, item in self.taken(call).items() if not name.startswith("own")})
        items.update({f"cell {a.p.local}": a.p.held(a.last) for a in call.locals})
        return {**items, f"cell {slot}": self.cell(slot, call.result.machine)}

    def lemma(self, call: Call, statement: int, following: int) -> str:
        c, put = Context(self.taken(call)), self.put(call)
        call.steps(c, self.slots[call.k - 1], "init")
        c.forget(call.extra_locals).front(*put)
        before, after = (f"Sq W ({' ∷ '.join([*items.values(), 'Γ'])}) (runs (𝓣 .C) (𝓣 .Λ) En piece.t-{at} (atRet En Post))"
                         for items, at in ((self.taken(call), statement), (put, following)))
        results = " ".join(call.knows if pair == call.known else pair[0] for pair in call.results)
        return f"""\
    call{call.n} : {binders(self.before(call))} (Γ : List (Item 𝓤))
        → ({binders(call.results)} → {after})
        → {before}
    call{call.n} {named(self.before(call))} Γ so =
        {c.text(f"so {results}")}"""

    # ---- The exit, and the walk

    def exit_items(self) -> dict[str, str]:
        """What the walk has at exit: the borrow of the record, the tokens, and what is had of each slice."""
        x, row, old = self.rec.x, self.rec.to.row, self.rec.old
        items = {"seen": f"‵ (fres γ·{x} ({row} .coded .code {old}))",
                 "borrow": f"‵ (fshr-bor κ·{x} (λ s. partAt {row} s {old} b·{x} o·{x}))"}
        if self.rec.mut:
            items = {"seen": f"‵ (fobs γ·{x} ({row} .coded .code {self.new.value}))",
                     "borrow": f"‵ (fbor κ·{x} (Body (mem {row}) b·{x} o·{x} γ·{x}))"}
        items.update({f"token {p.x}": p.token for p in self.refs})
        return {**items, **{f"last {p.x}" if p.given else f"own {p.x}": (p.last if p.given else p.owned)(self.lists[p][0]) for p in self.listed}}

    def exits(self) -> str:
        """That what the walk has at exit, and what the callees ensure, make the `ensures`: with one call, both say the same."""
        items, rec, facts = self.exit_items(), self.rec, [call.did[0] for call in self.calls]
        c, had = Context(items), cons(items.values())
        c.front("seen", "borrow").rule(f"feqI ! (List Val) ({rec.machine} ∷ []) ({rec.machine} ∷ []) refl", 0, ["place"])
        c.rule("fjoin3 !", 3, [f"own {rec.x}"])
        lasts = {p: (self.lists[p][0], f"e·{p.x}" if p.sized else p.known) for p in self.muts} | ({rec: (self.new.value, "tt")} if rec.mut else {})
        proof = " ".join([self.law("by"), *facts]) if len(facts) > 1 else facts[0]
        pairs = self.first_lists + [pair for call in self.calls for pair in [*call.values, call.did]] + [("ans", U32.known(self.answer))]
        pairs += [(f"e·{p.x}", f"length {self.lists[p][0]} ≡ length l·{p.x}") for p in self.muts if p.sized]
        return f"""\
  exits : {binders(pairs)} → ent 𝓤 (⋆ 𝓤 H A ({had})) (Post {U32.machine(self.answer)})
  exits {named(pairs)} =
        {self.ends(c, had, U32.plain(self.answer, "ans"), lasts, proof)}"""

    def body(self, c: Context) -> str:
        self.open_record(c)
        for local, p in self.lengths:
            c.assign(local, f"(of-opd ! {c.load_field(p.local, 1)})", p.length.typing)
        for p in self.arrays:
            p.make(c)
        for call in self.calls:
            taken, lemma = self.taken(call), f"call{call.n} 𝓣 {self.fm_known} {self.cell_names} {named(self.before(call))} _"
            c.front(*taken).bind(lemma, named(call.results), len(taken), list(self.put(call))).line()
        if self.rec.mut:
            new = c.load_field(self.slots[-1], self.record_at)
            c.rule(f"assigns ! (of-opd ! {new}) {self.through(c)} (store-raw ! {c.at('record')} refl {self.new.typing})").line()
        if self.answer_at is not None:
            c.assign(0, f"(of-opd ! {c.load_field(self.slots[-1], self.answer_at)})", U32.plain(self.answer, self.answer_known).typing)
        if self.rec.mut:
            self.close_record(c)
        self.leave(c, range(self.named_locals), list(self.exit_items()))
        results = [name for name, _ in self.first_lists] + [name for call in self.calls for name, _ in [*call.values, call.did]]
        return f"by ! (exits {' '.join(results)} {self.answer_known} {' '.join(self.lists[p][1] for p in self.muts if p.sized)})"

    def through(self, c: Context) -> str:
        return f"(from ! (hop ! (look ! {c.cell(self.rec.local)} refl) (stop !)))"

    def open_record(self, c: Context) -> None:
        """The borrow of the record is opened, and `let r = *rec;`. A shared one is shut again at once."""
        x, s, old, place = self.rec.x, self.rec.to, self.rec.old, f"b·{self.rec.x} o·{self.rec.x}"
        opened = ["record", "own record", "opened"]
        c.front(f"own {x}").rule("fsplit3 !", 1, ["place", "seen", "borrow"]).drop("place")
        if self.rec.mut:
            c.front("seen", "borrow", f"token {x}").bind(f"opens ! tt {s.row} {{h = {old}}} {place}", "vs", 3, [*opened, "seen", "auth"])
        else:
            c.front("borrow", f"token {x}").bind(f"looks ! tt {s.row_laws} {s.copies} {old} {place}", "q′ vs", 2, [*opened, "borrow"])
        c.rule(f"spelt ! {s.row_laws} {'fullShare' if self.rec.mut else 'q′'} {old} vs {place}").front("own record")
        c.bind(f"peeks ! {s.relation} {old} ({s.machine(old)} ∷ [])", f"is·{x}").line()
        c.assign(self.copy, f"(of-opd ! (load ! {self.through(c)} (look-raw ! {c.at('record')} refl)))", s.plain(old, f"is·{x}").typing)
        if self.rec.mut:
            c.drop("own record").line()
        else:
            c.front(*opened).rule(f"shuts ! tt {s.row} q′ {old} ({s.machine(old)} ∷ []) {place}", 3, [f"token {x}"]).line()

    def close_record(self, c: Context) -> None:
        """The borrow of the record is closed, at the new record."""
        x, new = self.rec.x, self.new
        c.rule(new.owned, 0, ["own record"]).front("record", "own record", "opened", "seen", "auth")
        c.rule(f"closes ! tt {self.rec.to.row} {new.value} ({new.machine} ∷ []) b·{x} o·{x}", 5, ["seen", "borrow", f"token {x}"]).line()
