"""The shape of a caller: it has structs by value, lends them to one call, and gives back what the call left.

    pub fn run(mut rec: Record, g: Geometry, requests: [Request; 8], chip: &mut [u32], counts: &mut [u32]) -> Out
    {
        let answer = served(&mut rec, g, &requests, chip, counts);
        Out { answer, rec }
    }

The call is given any of the parameters: a struct by value as `&mut x` or `&x` too, an array of structs as `&x`, which the callee has as
a slice. The fields of the result, in its order, are the answer and what was lent as `&mut`. Where nothing was, the call may be the whole
body: `checked(&rec, g, chip)`.
"""
from __future__ import annotations

import re
from typing import NamedTuple

from calls import Call, Given, Lent
from context import Context
from held import Copied, Elements, Shared
from kinds import Array, Struct, kind_of
from params import ByValue, Param
from source import Function, Misfit, Source, split_list
from text import binders, cons, field, named, nested
from walk import Walk

SHOWN = "let answer = callee(&mut rec, ..); Out { answer, rec }, or callee(&rec, ..)"
CALL = r"(?P<callee>[\w:]+)\((?P<args>[^()]*)\)"
SHAPE = re.compile(rf"let (?P<answer>\w+) = {CALL}; (?P<out>[\w:]+) {{ (?P<fields>[\w, ]*) }}")
ALONE = re.compile(CALL)


class Field(NamedTuple):
    """A field of the result."""
    local: int         # from which it is made, ..
    of: Lent | None    # .. a copy of what was lent, where it is not the answer: that lies in memory
    value: str
    known: str


class Caller(Walk):

    def __init__(self, source: Source, f: Function):
        super().__init__(source, f)
        made = SHAPE.fullmatch(f.body)
        if not (m := made or ALONE.fullmatch(f.body)):
            raise Misfit(f"'{f.item}' is not of the shape of a caller: {SHOWN}")
        callee, names = source.function(f.file.leads_to(m["callee"])), split_list(m["args"])
        if callee.requires:
            raise Misfit(f"'{callee.item}' has a `requires`, and a caller proves none")
        self.out, answer = kind_of(f.result, f), kind_of(callee.result, callee)
        # the locals: the result, the parameters, the copies of those that are lent, and the answer where it is no result
        self.types = [self.out.machine_type, *(p.machine_type for p in self.params)]
        self.held: list[Copied] = []
        for p in self.params:
            self.hold(p, names)
        self.slot = len(self.types) if made else 0
        self.types += [answer.machine_type] if made else []
        lists = {p: (p.list, p.known) for p in [*self.listed, *self.held]}
        self.call = Call(1, callee, answer, names, Given(self.plain, lists, [], [], self.held, ""))
        self.calls = [self.call]
        self.types += self.call.number_locals(len(self.types))
        for a in self.call.listed:
            if a.p.mut:
                a.p.stands(given=True)
        self.value, self.known_of_value = self.call.result.value, self.call.knows
        self.fields: dict[str, Field] = {}
        if made:
            self.make_result(m["out"], m["answer"], split_list(m["fields"]))
        elif self.out.row != answer.row:
            raise Misfit(f"'{f.item}' returns no '{callee.result}', as its callee does")

    def hold(self, p: Param, names: list[str]) -> None:
        """A parameter by value that is lent has a local for its copy."""
        how = {f"&mut {p.name}", f"&{p.name}"} & set(names)
        if not how or not isinstance(p, ByValue):
            return
        of = p.kind.of if isinstance(p.kind, Array) else p.kind
        if not isinstance(of, Struct) or (isinstance(p.kind, Array) and f"&{p.name}" not in how):
            raise Misfit(f"'{self.f.item}' lends '{how.pop()}', which is no struct, and no array of structs as `&`")
        shape = Copied if f"&mut {p.name}" in how else Elements if isinstance(p.kind, Array) else Shared
        self.held.append(shape(p, len(self.types)))
        self.types.append(p.machine_type)

    def make_result(self, out: str, answer: str, names: list[str]) -> None:
        """The fields of the result, and what it is then."""
        fields = self.source.fields(self.out.item) if isinstance(self.out, Struct) else []
        lent = {a.p.param.name: a for a in self.call.locals if a.p.mut}
        if out != self.f.result or names != [name for name, _ in fields] or sorted(names) != sorted([answer, *lent]):
            raise Misfit(f"'{self.f.item}' does not end in '{self.f.result}' of the answer and what was lent as `&mut`, in the order of its fields")
        for name in names:
            if a := lent.get(name):
                self.fields[name] = Field(len(self.types), a, a.last, a.p.known_after(self.call.n, a.known))
                self.types.append(a.p.to.machine_type)
            else:
                self.fields[name] = Field(self.slot, None, self.value, self.known_of_value)
        self.value = f"(made {named(self.call.values)})"
        self.known_of_value = f"(LL.owes {self.out.laws} {self.value} {nested(each.known for each in self.fields.values())})"

    # ---- The definitions, and the walk

    def own_definitions(self) -> str:
        values = "; ".join(f"{field(name)} = {each.value}" for name, each in self.fields.items())
        made = f"""\
  abbrev made : {binders(self.call.values)} → {self.out.type}
  made {named(self.call.values)} = record {{ {values} }}"""
        return "\n".join([*([made] if self.fields else []), self.call.definitions(), self.exits()])

    def exit_items(self) -> dict[str, str]:
        """What the walk has at exit: the tokens, and what is had of each slice."""
        items, lasts = {f"token {p.x}": p.token for p in self.refs}, {a.p: a.last for a in self.call.muts}
        return {**items, **{f"last {p.x}" if p.given else f"own {p.x}": p.last(lasts[p]) if p.given else p.owned(p.list) for p in self.listed}}

    def exits(self) -> str:
        """That what the walk has at exit, and what the callee ensures, make the `ensures`: both say the same."""
        items, muts = self.exit_items(), [a for a in self.call.listed if a.p.mut]
        had, lasts = cons(items.values()), {a.p: (a.last, f"e·{a.x}" if a.p.sized else a.p.known) for a in muts}
        pairs = [*self.call.values, self.call.did, ("ans", self.out.known(self.value))]
        pairs += [(f"e·{a.x}", f"length {a.last} ≡ length l·{a.x}") for a in muts if a.p.sized]
        return f"""\
  exits : {binders(pairs)} → ent 𝓤 (⋆ 𝓤 H A ({had})) (Post {self.out.machine(self.value)})
  exits {named(pairs)} =
        {self.ends(Context(items), had, self.out.plain(self.value, "ans"), lasts, self.call.did[0])}"""

    def body(self, c: Context) -> str:
        for p in self.held:
            p.make(c)
        self.call.steps(c, self.slot, "init")
        if self.fields:
            self.put_result(c)
        self.leave(c, range(len(self.types)), list(self.exit_items()))
        return f"by ! (exits {named([*self.call.values, self.call.did])} {self.known_of_value} {named(self.call.lengths)})"

    def put_result(self, c: Context) -> None:
        """The statements that make the result."""
        for each in self.fields.values():
            if each.of:
                c.assign(each.local, f"(of-opd ! {c.load(each.of.p.local)})", each.of.p.to.plain(each.value, each.known).typing)
        operands = "no-more !"
        for each in reversed(self.fields.values()):
            operands = f"and-then ! {c.load(each.local)} ({operands})"
        c.assign(0, f"(agg ! ({operands}))", self.out.plain(self.value, self.known_of_value).typing)
