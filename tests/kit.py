"""The kit's `rt`, as a module: it checks a crate with some of its files changed, as it does for a must-fail edit.

A check is made in a copy, over the libraries that `rt ci` left in crates/*/out, and leaves nothing that another check would take for proved.
"""
import contextlib
import importlib.machinery
import importlib.util
import os
import pathlib
import shutil
import sys

ROOT = pathlib.Path(__file__).resolve().parent.parent


def load():
    path = shutil.which("rt")
    if not path:
        sys.exit("error: the command 'rt' of the Rattle kit is not on PATH")
    loader = importlib.machinery.SourceFileLoader("rt", os.path.realpath(path))
    module = importlib.util.module_from_spec(importlib.util.spec_from_loader("rt", loader))
    loader.exec_module(module)
    return module


RT = load()


def crates():
    """The crates by name."""
    # It sets a signal's handler, which only the main thread may.
    RT.rtlib.guarded()
    return {crate.name: crate for crate in RT.rtlib.crates_below(str(ROOT))}


def lacks(crate):
    """What is missing for a check of the crate, or None."""
    for dep in crate.below():
        stamp = pathlib.Path(dep.folder) / "out/rlib/stamp"
        if not os.path.isdir(dep.rlib) or stamp.is_file() and not dep.is_built():
            return f"there is no library {dep.name} of these files in crates/{dep.name}/out; 'rt ci' makes them all, 'rt lib' in that folder makes it"
    return None


def edited(edit):
    """The files that a must-fail edit, CRATE/LABEL, changes, as it leaves them, by their path in the crate."""
    crate, label = edit.split("/")
    folder = ROOT / "crates" / crate
    texts, why = RT.read_edit(f"{folder}/must-fail/{label}.edit", str(folder))
    if why:
        sys.exit(f"error: {edit}: {why}")
    return texts


def checked(crate, texts, over=None, jobs=1):
    """What the prover says of the crate with these files, over what `over` holds as checked."""
    with contextlib.ExitStack() as stack:
        if over:
            folder = RT.tempfile.mkdtemp(prefix=f"rt-edit-{os.getpid()}-")
            stack.callback(shutil.rmtree, folder, ignore_errors=True)
            RT.linked(over, f"{folder}/over")
            over = f"{folder}/over"
        return RT.checked(crate, texts, ["--jobs", str(jobs)], over).stdout


def seed(crate):
    """A folder that holds what a check of the crate as it stands proves. It goes when the work of `side_by_side` ends."""
    kept = f"{crate.folder}/out/incremental"
    room = RT.seeded(crate, ["--jobs", "1"], kept if os.path.isdir(kept) else None)
    if not room:
        sys.exit(f"error: crate {crate.name} is not proved as it stands")
    return f"{room}/seed"


def side_by_side(works):
    """Does works, each a crate, the keys of those it waits for, and a call that is given the results so far and a number of jobs; as many at a
    time as processors and memory allow. Returns their results by key; a key is a pair."""
    tasks = {key: (waits, crate.count(rb"\n"), RT.need(crate), call) for key, (crate, waits, call) in works.items()}
    return RT.in_lanes(tasks)
