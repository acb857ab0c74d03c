"""The context of a walk, simulated, and the text of the walk so far."""
from __future__ import annotations

from text import cons


class Context:
    """A walk is a chain of rules, `rule ! .. $ rule ! .. $ ..`. At each rule the prover has a list of what the function has there: a
    cell for each local, the tokens of the lifetimes, what the parameters own. A rule speaks of entries by their positions, takes
    entries off the front of the list, and puts others there. This class keeps the list as names, and so knows the positions:
    `front("tokens", "args")` prints `move ! (7 ∷ 2 ∷ []) $` with the numbers of the place. What a rule takes and gives is told to
    `rule` and `bind`: how many entries, and the names of the new ones. Were that wrong, later positions would be wrong, and the check
    would refuse the walk there: nothing wrong can pass for proved.

    Entries: `cell i`, `dies i`: a local, and the right to free it. `tokens`: all tokens in one. `params`: what all the parameters own.
    `args`: what a callee is to own, or at exit what is had of the parameters. Of a parameter x: `token x`; `own x`, what it owns;
    `last x`, that its last list is known. Of what a call is lent: `lent x`, what the callee is to own of it; where it comes back,
    `fresh x`, the token of the lifetime made for the call, and `kept x`, what the walk keeps meanwhile.
    """

    def __init__(self, names):
        self.names = list(names)
        self.lines: list[list[str]] = [[]]
        self.open = 0  # the brackets to close at the end, one for each λ

    def at(self, name: str) -> int:
        return self.names.index(name)

    def cell(self, local: int) -> int:
        return self.at(f"cell {local}")

    def rule(self, text: str, takes: int = 0, gives=()) -> Context:
        self.lines[-1].append(f"{text} $")
        self.names[:takes] = gives
        return self

    def bind(self, text: str, variables: str, takes: int = 0, gives=()) -> Context:
        """A rule whose last argument is a function: the rest of the walk is its body."""
        self.lines[-1].append(f"{text} (λ {variables}.")
        self.names[:takes] = gives
        self.open += 1
        return self

    def line(self) -> Context:
        """A new line of the text."""
        self.lines.append([])
        return self

    def text(self, last: str) -> str:
        """The whole walk, which ends in `last`."""
        self.lines[-1].append(last + ")" * self.open)
        return "\n        ".join(" ".join(line) for line in self.lines if line)

    def rename(self, name: str, to: str) -> Context:
        self.names[self.at(name)] = to
        return self

    def front(self, *names: str) -> Context:
        """These entries in front, in this order."""
        if self.names[:len(names)] != list(names):
            self.rule(f"move ! ({cons(str(self.at(name)) for name in names)})")
            self.names = [*names, *(name for name in self.names if name not in names)]
        return self

    def keep(self, names) -> Context:
        """These entries alone."""
        self.rule(f"keep ! ({cons(str(self.at(name)) for name in names)})")
        self.names = list(names)
        return self

    def drop(self, name: str) -> Context:
        return self.front(name).rule("drop !", 1)

    def join(self, names: list[str], into: str) -> Context:
        """The entries in one, nested to the right."""
        self.rule("nothing !", 0, [into])
        for name in reversed(names):
            self.front(name, into).rule("join !", 2, [into])
        return self

    def add(self, made: str, to: str) -> Context:
        """What the rule `made` makes, joined to the entry `to`, which is in front."""
        return self.rule(made, 0, ["made"]).rule("fjoin !", 2, [to])

    def load(self, local: int) -> str:
        return f"(load ! (from ! (stop !)) (look ! {self.cell(local)} refl))"

    def load_field(self, local: int, field: int) -> str:
        return f"(load ! (from ! (fld ! refl (stop !))) (look-in ! {self.cell(local)} (sub ! {field} refl (whole !))))"

    def assign(self, local: int, rvalue: str, typing: str, how: str = "init") -> Context:
        """The statement `local = rvalue`; `init` where the local is empty, `store` where it is full."""
        return self.rule(f"assigns ! {rvalue} (from ! (stop !)) ({how} ! {self.cell(local)} refl {typing})").line()

    def forget(self, full) -> Context:
        """The values of full locals are given up."""
        for local in full:
            self.rule(f"forget ! {self.cell(local)} refl")
        return self.line()
