"""The shape of a run: a loop over a lent slice of structs, each of which goes to the callee by value with the state so far.

    pub fn serve_all(first: Running, rs: &[Request], g: Geometry, chip: &mut [u32]) -> Running
    {
        let mut i = 0;
        let mut cur = first;
        while i < rs.len() {
            cur = serve(cur, i, rs[i], g, chip);
            i += 1;
        }
        cur
    }

The `&mut` slices are lent to the callee again in each turn, for a lifetime that is made for the call. `St` is a state of the loop: how
many requests were served, the struct so far, each slice's list, and `ran`, that the run's `ensures` holds of the requests so far.
"""
from __future__ import annotations

import re

from calls import Call, Given
from context import Context
from kinds import USIZE, Struct, kind_of
from params import ByValue, Listed, Slice
from source import Function, Misfit, Source, split_list
from text import Terms, cons, field
from walk import Walk

SHOWN = "let mut i = 0; let mut cur = first; while i < rs.len() { cur = serve(cur, i, rs[i], ..); i += 1; } cur"
SHAPE = re.compile(r"let mut (?P<i>\w+) = 0; let mut (?P<cur>\w+) = (?P<first>\w+); while (?P=i) < (?P<rs>\w+)\.len\(\) { "
                   r"(?P=cur) = (?P<callee>[\w:]+)\((?P<args>[^()]*)\); (?P=i) \+= 1; } (?P=cur)")
GOAL = "Sq W (At st) (runs (𝓣 .C) (𝓣 .Λ) En piece.turn-1 (anyQ (Turned st)))"


class Run(Walk):

    def __init__(self, source: Source, f: Function):
        super().__init__(source, f)
        if not (m := SHAPE.fullmatch(f.body)):
            raise Misfit(f"'{f.item}' is not of the shape of a run: {SHOWN}")
        self.first, self.rs, self.out = self.by_name.get(m["first"]), self.by_name.get(m["rs"]), kind_of(f.result, f)
        if not (isinstance(self.rs, Slice) and isinstance(self.rs.to, Struct)):
            raise Misfit(f"'{f.item}': '{m['rs']}' is no slice of structs")
        if not (isinstance(self.first, ByValue) and self.first.type == self.out.type):
            raise Misfit(f"'{f.item}': '{m['first']}' is not of the type that is returned")
        fields = source.fields(self.rs.to.item)
        if {kind for _, kind in fields} != {"u32"}:
            raise Misfit(f"'{self.rs.to.item}' has other fields than u32")
        self.bytes, self.zeros = 4 * len(fields), "; ".join(f"{field(name)} = 0" for name, _ in fields)
        # the locals: the result, the parameters, and i, cur, scratch, test, place, read
        self.types = [self.out.machine_type, *(p.machine_type for p in self.params)]
        self.i, self.cur, self.scratch, self.test, self.place, self.read = range(len(self.types), len(self.types) + 6)
        self.types += [USIZE.machine_type, self.out.machine_type, USIZE.machine_type, "tyBool", "tyPtr", self.rs.to.machine_type]
        self.element = f"l·{self.rs.x} (st .i) no-request"
        self.state = self.out.plain("(st .cur)", "(st .is)")
        self.index = USIZE.plain("(st .i)", "(refl, i-fits st less)")
        self.request = self.rs.to.plain(f"(getD {self.element})", "g")
        self.less = ("less", f"st .i < length l·{self.rs.x}")
        self.add_call(source.function(f.file.leads_to(m["callee"])), split_list(m["args"]), [m["cur"], m["i"], f"{m['rs']}[{m['i']}]"])
        self.at_exit = [*(f"own {p.x}" for p in self.listed), *(f"token {p.x}" for p in self.refs)]
        self.at_turn = self.at_exit + self.cells

    def add_call(self, callee: Function, names: list[str], lead: list[str]) -> None:
        if names[:3] != lead:
            raise Misfit(f"'{self.f.item}': the callee's first arguments are not {', '.join(lead)}")
        if callee.requires and not self.f.requires:
            raise Misfit(f"'{callee.item}' has a `requires`, and '{self.f.item}' has none")
        values = {**self.plain, **dict(zip(lead, ((self.cur, self.state), (self.i, self.index), (self.read, self.request))))}
        lists = {p: self.so_far(p) if p.mut else (p.list, p.known) for p in self.listed}
        facts = [self.less, ("g", self.rs.to.known(self.request.value))]
        needs = f"{self.law('ready')} less (st .ran) needed" if callee.requires else ""
        self.call = Call(1, callee, self.out, names, Given(values, lists, [("st", "St")], facts, self.muts, needs))
        self.calls = [self.call]
        self.types += self.call.number_locals(len(self.types))

    def so_far(self, p: Listed) -> tuple[str, str]:
        """The list of a `&mut` in the state st, and what is known of it."""
        return f"(st .z·{p.x})", f"(st .e·{p.x})" if p.sized else p.known

    def lists(self, lists: dict[Listed, tuple[str, str]]) -> str:
        """The fields of a state for these lists."""
        return "".join(f"z·{p.x} = {items}; " + (f"e·{p.x} = {known}; " if p.sized else "") for p, (items, known) in lists.items())

    def ran(self, state: str, before: str, index: str) -> str:
        """What the run's `ensures` says of the first requests, where it has the length of all: the state, the lists, and their number."""
        length = rf"length \(now \(«?{self.rs.name}»? \.entry\)\)"
        clause = self.f.ensures._replace(fact=re.sub(rf"\({length}\)|{length}", "#served", self.f.ensures.fact))
        values, lists = {name: value.value for name, (_, value) in self.plain.items()}, {p.name: p.list for p in self.listed}
        return Terms({**values, "#served": index}, lists, {**lists, **{p.name: f"({before}z·{p.x})" for p in self.muts}}, state).say(clause)

    # ---- The definitions

    def own_definitions(self) -> str:
        self.cite(self.f.ensures, self.f)
        return "\n".join([self.states(), self.call.definitions(), self.exits(), self.loop()])

    def states(self) -> str:
        """The states of the loop, and the order in which they end."""
        rs, of = f"l·{self.rs.x}", f"(st : St) → {self.less[1]} → "
        lists = "".join(f"\n    z·{p.x} : List ℕ" + (f"\n    e·{p.x} : length z·{p.x} ≡ length l·{p.x}" if p.sized else "") for p in self.muts)
        return f"""\
  abbrev no-request : {self.rs.to.type}
  no-request = record {{ {self.zeros} }}
  record St : Type 0 where
    i : ℕ
    top : i ≤ length {rs}
    cur : {self.out.type}
    is : {self.out.known("cur")}{lists}
    ran : {self.ran("cur", "", "i")}
  abbrev Nearer : St → St → Type 0
  Nearer t st = length {rs} - t .i < length {rs} - st .i
  Nearer-wf : WellFounded Nearer
  Nearer-wf = InvImage·wf (λ (st : St). length {rs} - st .i) (Nat·lt-wfRel .wf)
  i-fits : {of}st .i < 2 ^ 64
  i-fits st less = omega (arith, room·{self.rs.x} .0)
  place-fits : {of}st .i * {self.bytes} < 2 ^ 64
  place-fits st less = omega (arith, room·{self.rs.x} .1)
  next-fits : {of}st .i + 1 < 2 ^ 64
  next-fits st less = omega (arith, room·{self.rs.x} .0)"""

    def item(self, entry: str) -> str:
        """What an entry of `at_turn` is, in the state st."""
        what, name = entry.split(" ", 1)
        if what in ("token", "own"):
            p = next(p for p in self.listed if p.x == name)
            return p.token if what == "token" else p.owned(f"(st .z·{p.x})" if p.mut else p.list)
        i, full = int(name), {self.i: self.index.machine, self.cur: self.state.machine, **{p.local: p.machine for p in self.params}}
        return f"‵ (fdies {self.types[i]} l·{i})" if what == "dies" else self.cell(i, full.get(i, ""))

    def exits(self) -> str:
        """That what the walk has at exit, in a state where all requests were served, makes the `ensures`."""
        had = cons(map(self.item, self.at_exit))
        proof = f"subst (λ (m : ℕ). {self.ran('(st .cur)', 'st .', 'm')}) all (st .ran)"
        lasts = {p: self.so_far(p) for p in self.muts}
        return f"""\
  exits : (st : St) → st .i ≡ length l·{self.rs.x} → ent 𝓤 (⋆ 𝓤 H A ({had})) (Post {self.state.machine})
  exits st all =
        {self.ends(Context(self.at_exit), had, self.state, lasts, proof)}"""

    def loop(self) -> str:
        """The loop: a turn that serves a request, the turn that finds none left, and that the turns end."""
        rs, lists = f"l·{self.rs.x}", self.lists({p: (p.list, p.known) for p in self.muts})
        after = "(afterSeq 𝓤 H (Wp 𝓤 H (𝓣 .C) (𝓣 .Λ) En piece.t-4 (atReturn 𝓤 H En Post)) (atReturn 𝓤 H En Post))"
        return f"""\
{self.environment()}
    abbrev At : St → List (Item 𝓤)
    At st = {cons(map(self.item, self.at_turn))}
    abbrev Turned : St → Out → SProp 𝓤
    Turned st = afterTurn 𝓤 H (Below 𝓤 H A Nearer At st) (afterBlock 𝓤 H {after})
    more : (st : St) → {self.less[1]} → {GOAL}
    unfolding afterTurn
    more st less =
        {self.turn()}
    ends : (st : St) → st .i ≡ length {rs} → {GOAL}
    unfolding afterTurn
    ends st all =
        {self.last_turn()}
    turns : (st : St) → {GOAL}
    turns st = go (eq-or-lt-of-le (st .top))
      where
        go : (st .i ≡ length {rs}) ⊎ ({self.less[1]}) → {GOAL}
        go (inl e) = ends st e
        go (inr l) = more st l
    abbrev begin : St
    begin = record {{ i = 0; top = zero-le; cur = {self.first.value}; is = is·{self.first.x}; {lists}ran = {self.law("none")} }}
    looping : Sq W (At begin) (runs (𝓣 .C) (𝓣 .Λ) En piece.t-3 (atRet En Post))
    looping = first ! $ blocks ! $ loops ! 𝓣 Nearer Nearer-wf At turns begin"""

    # ---- The walks

    def turn(self) -> str:
        """A turn: the test, the request, the call, and i += 1."""
        c, call, fits = Context(self.at_turn), self.call, "record { fits = next-fits st less }"
        self.loop_test(c, f"lt-ltb (st .i) (length l·{self.rs.x}) less")
        c.rule(f"stays ! {c.load(self.test)}").line()
        self.read_request(c)
        call.steps(c, self.cur, "store")
        c.rule(f"assigns-last ! (bin ! {c.load(self.i)} (lit ! tt) ({fits})) (from ! (stop !)) (store ! {c.cell(self.i)} refl (tt, {fits}))").line()
        c.forget([self.scratch, self.test, self.place, self.read, *call.extra_locals]).keep(self.at_turn)
        lists = {p: self.so_far(p) for p in self.muts} | {a.p: (a.last, a.p.known_after(call.n, a.known)) for a in call.muts}
        next_state = (f"i = st .i + 1; top = omega arith; cur = r·1; is = {call.knows}; {self.lists(lists)}"
                      f"ran = {self.law('more')} less (st .ran) did·1")
        return c.text(f"again ! Nearer At st (record {{ {next_state} }}) (omega arith)")

    def last_turn(self) -> str:
        """The turn that finds no request left, and what follows the loop."""
        c = Context(self.at_turn)
        self.loop_test(c, f"le-ltb (st .i) (length l·{self.rs.x}) (le-of-eq (sym all))")
        c.rule(f"leaves-loop ! {c.load(self.test)}").rule("exec ! (𝓣 .C) (𝓣 .Λ) En piece.t-4 (atRet En Post)").line()
        c.assign(0, f"(of-opd ! {c.load(self.cur)})", self.state.typing)
        self.leave(c, [0, self.i, self.cur, self.scratch, self.test, *(p.local for p in self.params)], self.at_exit)
        return c.text("by ! (exits st all)")

    def loop_test(self, c: Context, answer: str) -> None:
        """i < rs.len()"""
        c.assign(self.scratch, f"(of-opd ! {c.load_field(self.rs.local, 1)})", self.rs.length.typing)
        c.assign(self.test, f"(bin ! {c.load(self.i)} {c.load(self.scratch)} tt)", "(tt, tt)")
        c.rule(f"rewrite ! {c.cell(self.test)} (λ (t : Bool). {self.cell(self.test, '(vbool t)')}) ({answer}) refl").line()

    def read_request(self, c: Context) -> None:
        """rs[i] is copied to a local: its place is computed, the borrow of the requests is opened, and shut again."""
        x, s, fits, place = self.rs.x, self.rs.to, "record { fits = place-fits st less }", f"b·{self.rs.x} o·{self.rs.x}"
        c.assign(self.scratch, f"(bin ! {c.load(self.i)} (lit ! tt) ({fits}))", f"(tt, {fits})", "store")
        c.assign(self.place, f"(bin ! {c.load_field(self.rs.local, 0)} {c.load(self.scratch)} tt)", "(tt, tt)")
        there, is_there = self.cell(self.place, f"(vptr b·{x} p)"), f"(sym (place-is {self.bytes} o·{x} (st .i)))"
        c.rule(f"rewrite ! {c.cell(self.place)} (λ (p : ℕ). {there}) {is_there} refl").line()
        c.front(f"own {x}").rule("fsplit !", 1, ["room", "rest"]).front("rest").rule("fsplit !", 1, ["seen", "borrow"])
        c.front("borrow", f"token {x}").bind(f"looks-slice ! tt {s.row_laws} {s.copies} l·{x} {place}", "q′", 2, ["row", "opened", "borrow"])
        c.bind(f"elem-out ! {s.row_laws} q′ {self.element} {place} less", "g", 1, ["element", "own element", "others"]).line()
        through = f"(from ! (hop ! (look ! {c.cell(self.place)} refl) (stop !)))"
        c.assign(self.read, f"(of-opd ! (load ! {through} (look-raw ! {c.at('element')} refl)))", self.request.typing)
        back = f"elem-back ! {s.row} q′ {self.element} ({self.request.machine} ∷ []) {place} less"
        c.front("element", "own element", "others").rule(back, 3, ["row"])
        c.front("row", "opened").rule(f"shuts-slice ! tt {s.row} q′ l·{x} {place}", 2, [f"token {x}"])
        c.front("seen", "borrow").rule("fjoin !", 2, ["rest"]).front("room", "rest").rule("fjoin !", 2, [f"own {x}"]).line()

    def body(self, c: Context) -> str:
        """let mut i = 0; let mut cur = first; and the loop."""
        c.assign(self.i, "(of-opd ! (lit ! tt))", "(tt, record { fits = lit< tt })")
        c.assign(self.cur, f"(of-opd ! {c.load(self.first.local)})", self.first.typing).keep(self.at_turn)
        return f"looping 𝓣 {self.fm_known} {self.cell_names}"
