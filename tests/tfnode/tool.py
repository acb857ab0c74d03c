"""What the tests of tfnode share: a folder of their own, and the tool run in it as from a shell."""

import os
import pathlib
import subprocess
import tempfile
import unittest

ROOT = pathlib.Path(__file__).resolve().parents[2]
BUILD = pathlib.Path(__file__).resolve().parent / "build"
SHIPPED = ROOT / "tools/tfnode/build/tfnode"
FAULTY = BUILD / "faulty/tfnode"
SANITISED = BUILD / "sanitised/tfnode"
if not SANITISED.exists():
    SANITISED = SHIPPED

# Exit statuses.
DONE, ANSWER, USAGE, FILE = range(4)

# Document 01's session: its input, and what it prints.
G = "2,2,3,3,3,1"
SESSION = b"W 0 10\nW 1 11\nW 0 12\nW 2 13\nW 1 14\nR 0\nR 0\nW 0 15\n"
SESSION_LINES = b"0 0 1 0\n0 1 2 0\n0 2 2 0\n0 1 2 0\n0 2 3 1\n0 3 1 1 12\n0 1 0 0 12\n0 2 3 1\n"

HEADER_WORDS = 17
SUFFIX = ".tfnode-new"


def words_of(data):
    """The little-endian words of some bytes."""
    return [int.from_bytes(data[i:i + 4], "little") for i in range(0, len(data), 4)]


def bytes_of(words):
    return b"".join(word.to_bytes(4, "little") for word in words)


class ToolTest(unittest.TestCase):
    """A test with a folder of its own; `self.node` is the path of its image."""

    program = SANITISED

    def setUp(self):
        folder = tempfile.TemporaryDirectory(prefix="tfnode-test-")
        self.addCleanup(folder.cleanup)
        self.folder = pathlib.Path(folder.name)
        self.node = self.folder / "node.img"

    def tool(self, *words, data=b"", status=DONE, **more):
        """Runs the tool; fails unless it ends with this status. Gives its output."""
        run = subprocess.run([self.program, *map(str, words)], input=data, capture_output=True, cwd=self.folder, **more)
        self.assertEqual(run.returncode, status, f"{words}: {run.stderr.decode()}")
        return run

    def start(self, *words, **more):
        """Starts the tool and does not wait for it."""
        return subprocess.Popen([self.program, *map(str, words)], stdout=subprocess.DEVNULL, stderr=subprocess.PIPE, cwd=self.folder,
                                **more)

    def new(self, geometry=G):
        self.tool("new", self.node, "--geometry", geometry)

    def session(self):
        """An image after document 01's session."""
        self.new()
        self.tool("replay", self.node, data=SESSION)

    def refused(self, *words, says, status, data=b"", **more):
        """The tool says one line with these words in it, ends with this status, and leaves the folder as it was."""
        before = self.contents()
        run = self.tool(*words, data=data, status=status, **more)
        line = run.stderr.decode()
        self.assertEqual(line.count("\n"), 1, line)
        self.assertTrue(line.startswith("tfnode: "), line)
        for part in [says] if isinstance(says, str) else says:
            self.assertIn(part, line)
        self.assertEqual(run.stdout, b"")
        self.assertEqual(self.contents(), before)
        return line

    def runs_with_faults(self, words, action, reset, data=b"", least=10):
        """Runs with a fault at step 1, 2, .. until a run meets none, each from what `reset` makes; gives those that met one."""
        for step in range(1, 1000):
            reset()
            run = subprocess.run([FAULTY, *words], input=data, cwd=self.folder, capture_output=True,
                                 env={**os.environ, "TFNODE_FAULT": f"{step} {action}"})
            if run.returncode == DONE:
                self.assertGreater(step, least)
                return
            yield run

    def contents(self):
        """Every file of the folder with its bytes and permissions."""
        return {path.name: (path.stat().st_mode, path.read_bytes())
                for path in self.folder.iterdir() if path.is_file()}
