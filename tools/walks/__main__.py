"""Prints proofs, in the form of an older kit, of functions over a lent record or lent requests, and of those that lend.

SINCE THE PORT to today's kit (docs/PORT.md) nothing here needs it: the check proves such functions as any other, and no file of the repository is
    printed. What it was for is kept by the contracts of face, facepage, facerun and recorder (docs/DESIGN.md, "What is lent by reference").
    It stands with its test until the design is worked over.

WHY IT WAS MADE
    That kit's borrow checker did not cover a function with a `&mut Record`, a `&Record` or a `&[Request]` among its parameters, or which
    makes one. It was proved by a walk of its MIR, some hundreds of lines in which nothing is to be thought about. This tool reads the function in src/ and prints the walk, a whole
    Proof.antt. It is not trusted: the check refuses a walk that does not fit the source. Print anew after each change of a signature or
    a contract.

COMMANDS, from the repository's folder; `rt fmt` after the first
    python3 tools/walks CRATE            writes the proof files of all such functions of a crate, and crates/walks/specs/Rules.antt, the
                                         rules that the walks of every crate cite
    python3 tools/walks CRATE FUNCTION   prints the proof file of one function
    python3 tools/walks rules            prints Rules.antt
    python3 tools/walks --check          holds every printed file of the repository to what is printed now, the layout aside
    What does not fit is said in one line, with exit status 1; nothing is written then. tests/walks tries this.

THE SOURCE has one of three shapes; all else is covered, and takes structs by value: the callees of the first two, the callers of the third
    over a record: copies it, makes calls, stores the record that the last one gives    (record.py has the shape)
    a run: a loop over the requests, each given to one callee with the state so far     (run.py)
    a caller: lends structs that it has by value to one call, gives back what it left   (caller.py)
    Parameters are numbers (u32, u64, usize), structs, `&[u32]`, `&mut [u32]`, `&mut [u32; 64]`, `&[Struct]`, and the record. A function
    over a record may have local arrays of zeros, which it lends to its callees. A caller may have `[Struct; 8]`, and no reference to a
    struct. An array's length, and what a callee is given, may be a number, or a constant, in capitals, whose value is one.

THE CONTRACTS have one `ensures { λ r. ⌜ fact ⌝ }`, and at most one `requires { ⌜ fact ⌝ }`. They speak of a slice or a record by
    `now (x .entry)` and `now (x .exit)` alone. The walk takes the callees' facts from their source, with what `ghost use` brings.
    With one call over a record, the function ensures what its callee does, of `now (rec .entry)`, r and `now (rec .exit)` for what the
    callee has by value. A caller does so too, of `rec`, `r .answer` and `r .rec` for what its callee is lent. Else laws of the crate, in
    specs/ or proofs/, say how contracts follow from each other. They are declared there, or passed on by a line `pub use M.{law as f-none}`.
    They take proofs alone, so their other arguments are implicit, and a fact is a record type, as `Ran ..`. For a function f:

    f-by            over a record, of several calls: what each callee ensures, in order, gives what f ensures
    f-before-g      the same of the calls before g gives what g requires, where g requires anything; in front, that the list of each
                    local array that was not lent yet is `replicate n 0`
    f-none          a run: what f ensures holds of no request. Where it has `length (now (rs .entry))` stands the number of requests served
    f-more          i < length rs, the same of the first i requests, and what the callee ensures of request i give that of i + 1.
                    Request i is `getD rs i (record { .. })`, with 0 in each field
    f-ready         i < length rs, the same of the first i requests, and what f requires give what the callee requires, where it does

LIMITS  A function over a record returns a u32. A request has u32 fields. What a caller calls requires nothing. No statement but those of
    the shape.
"""
from __future__ import annotations

import argparse
import re
import sys
from pathlib import Path
from typing import NoReturn

sys.dont_write_bytecode = True  # no __pycache__ in the repository
sys.path.insert(0, str(Path(__file__).parent))
from caller import Caller  # noqa: E402
from kinds import Struct  # noqa: E402
from params import Record, Slice, params_of  # noqa: E402
from record import OverRecord  # noqa: E402
from run import Run  # noqa: E402
from source import Item, Misfit, Source  # noqa: E402

HERE = Path(__file__).resolve().parent
COMMAND = "python3 tools/walks"
RULES = Path("crates/walks/specs/Rules.antt")
PRINTED = re.compile(rf"-- Printed by `{COMMAND} ([\w ]+)`")


def rules() -> str:
    return (HERE / "rules.txt").read_text().replace("COMMAND", f"{COMMAND} rules")


def proof(source: Source, item: Item) -> str:
    """The proof file of a function."""
    f = source.function(item)
    f = f._replace(body=source.counted(f.file, f.body))
    params = params_of(f)
    over_structs = any(isinstance(p, Slice) and isinstance(p.to, Struct) for p in params)
    shape = OverRecord if any(isinstance(p, Record) for p in params) else Run if over_structs else Caller
    return shape(source, f).file(f"{COMMAND} {item.crate} {item.name}")


def write_all(source: Source, crate: str) -> None:
    """Writes the proof files of all walked functions of a crate, and the rules that they cite."""
    proofs, walked = source.root / "crates" / crate / "proofs", source.walked(crate)
    if not walked:
        raise Misfit(f"crate '{crate}' has no function over a lent record or lent requests, and none that lends")
    texts = {proofs.joinpath(*item.modules, item.name, "Proof.antt"): proof(source, item) for item in walked}
    for path, text in {**texts, source.root / RULES: rules()}.items():
        path.parent.mkdir(parents=True, exist_ok=True)
        path.write_text(text)
        print(f"wrote {path.relative_to(source.root)}")


def check(source: Source) -> None:
    """Holds every printed file to what is printed now. `rt fmt` changes the layout alone, so that is not compared."""
    stale, seen = [], 0
    for path in sorted(source.root.glob("crates/**/*.antt")):
        old = path.read_text()
        if m := PRINTED.match(old):
            seen += 1
            new = rules() if m[1] == "rules" else proof(source, source.named(*m[1].split()))
            stale += [str(path.relative_to(source.root))] if "".join(new.split()) != "".join(old.split()) else []
    if stale or not seen:
        raise Misfit(f"not as printed: {', '.join(stale)}" if stale else f"there is no printed file in {source.root / 'crates'}")
    print(f"walks: {seen} files are as printed")


class Parser(argparse.ArgumentParser):
    def error(self, message: str) -> NoReturn:
        sys.exit(f"walks: {message}; `{COMMAND} --help` has the commands")


def main() -> None:
    parser = Parser(prog=COMMAND, description=__doc__, formatter_class=argparse.RawDescriptionHelpFormatter)
    parser.add_argument("crate", nargs="?", help="a crate, or 'rules'")
    parser.add_argument("function", nargs="?", help="a function of it")
    parser.add_argument("--check", action="store_true", help="hold the printed files to what is printed now")
    parser.add_argument("--root", type=Path, default=HERE.parents[1], help="another repository's folder")
    o = parser.parse_args()
    source = Source(o.root.resolve())
    if o.check == bool(o.crate) or (o.crate == "rules" and o.function):
        parser.error("give a crate, a crate and a function, 'rules' or --check")
    try:
        if o.check:
            check(source)
        elif o.crate == "rules":
            sys.stdout.write(rules())
        elif o.function:
            sys.stdout.write(proof(source, source.named(o.crate, o.function)))
        else:
            write_all(source, o.crate)
    except Misfit as wrong:
        sys.exit(f"walks: {wrong}")


if __name__ == "__main__":
    main()
