"""The settings record of an image: shown, and written to a file, whole or not at all."""

import errno
import fcntl
import json
import os
import resource
import signal
import subprocess

from record import SettingsTest, record_of
from tool import FAULTY, FILE, G, ROOT, SUFFIX, bytes_of, words_of

GEOMETRIES = [G, "4,8,12,6,40,4", "64,512,60,4,3600,128", "1,1,3,3,1,1", "64,512,2,1022,62,4096", "64,1,1022,2,63,4096"]


class Shown(SettingsTest):
    def test_for_a_person(self):
        self.tool("new", self.node, "--preset", "recorder")
        shown = self.tool("settings", "node.img", "--write", "node.settings").stdout.decode()
        self.assertEqual(shown, """\
01 0001 01         version                 1
02 0002 0040       P, pages in a block     64
03 0002 0200       W, words in a page      512
04 0002 003c       D, data blocks          60
05 0002 0004       T, translation blocks   4
06 0004 00000e10   L, logical pages        3600
07 0002 0080       C, cache entries        128
36 bytes: tag, length and value of each field in hex, and what the value is
node.settings is written: these 36 bytes
""")
        self.assertIn(f"```\n$ tfnode settings node.img --write node.settings\n{shown}```\n", (ROOT / "docs/TFNODE.md").read_text())

    def test_for_programs(self):
        self.session()
        self.assertEqual(json.loads(self.tool("settings", self.node, "--json").stdout),
                         {"hex": "010001010200020002030002000204000200030500020003060004000000030700020001", "version": 1,
                          "geometry": {"P": 2, "W": 2, "D": 3, "T": 3, "L": 3, "C": 1}})

    def test_a_record_is_shown_as_its_image_is(self):
        self.session()
        self.kept.write_bytes(record_of(G))
        for option in [], ["--json"]:
            shown = self.tool("settings", self.kept, *option)
            self.assertEqual((shown.stdout, shown.stderr), (self.tool("settings", self.node, *option).stdout, b""))

    def test_a_damaged_node_and_an_image_that_may_not_be_written(self):
        self.session()
        words = words_of(self.node.read_bytes())
        self.node.write_bytes(bytes_of(words[:-1] + [7]))
        self.node.chmod(0o444)
        before = self.contents()
        self.assertIn(b"P, pages in a block     2\n", self.tool("settings", self.node).stdout)
        self.assertEqual(self.contents(), before)


class Written(SettingsTest):
    def test_there_and_back(self):
        """new, settings --write, new --settings: the same record and the same empty node, for odd geometries too."""
        for geometry in GEOMETRIES:
            for path in self.folder.iterdir():
                path.unlink()
            self.new(geometry)
            self.tool("settings", self.node, "--write", "node.settings")
            self.assertEqual(self.kept.read_bytes(), record_of(geometry))
            self.tool("new", "two.img", "--settings", "node.settings")
            self.assertEqual((self.folder / "two.img").read_bytes(), self.node.read_bytes())
            self.assertEqual(*[self.tool("info", name, "--json").stdout for name in ("node.img", "two.img")])
            self.assertEqual(sorted(self.contents()), ["node.img", "node.settings", "two.img"])

    def test_what_is_written_is_shown_too(self):
        self.session()
        before = self.node.read_bytes()
        shown = self.tool("settings", self.node).stdout
        self.assertEqual(self.tool("settings", self.node, "--write", "one").stdout, shown + b"one is written: these 36 bytes\n")
        answer = json.loads(self.tool("settings", self.node, "--json", "--write=two").stdout)
        self.assertEqual(bytes.fromhex(answer["hex"]), record_of(G))
        self.assertEqual([(self.folder / name).read_bytes() for name in ("one", "two")], [record_of(G)] * 2)
        self.assertEqual(self.node.read_bytes(), before)

    def test_permissions_are_those_of_a_new_file(self):
        (self.folder / "other").touch()
        self.session()
        self.tool("settings", self.node, "--write", self.kept)
        self.assertEqual(self.kept.stat().st_mode, (self.folder / "other").stat().st_mode)

    def test_nothing_that_is_there_is_replaced(self):
        self.session()
        (self.folder / "folder").mkdir()
        (self.folder / "link").symlink_to("nothing")
        self.kept.write_bytes(record_of(GEOMETRIES[1]))
        for name in "node.settings", "node.img", "folder", "link", "/dev/null":
            self.refused("settings", self.node, "--write", name, says="exists; choose another name or remove it first", status=FILE)
        self.assertTrue((self.folder / "link").is_symlink())
        self.refused("settings", self.node, "--write", "none/x", says="see that its folder exists", status=FILE)

    def test_a_second_tool_that_writes_it(self):
        self.session()
        with open(f"{self.kept}{SUFFIX}", "wb") as other:
            fcntl.flock(other, fcntl.LOCK_EX)
            self.refused("settings", self.node, "--write", self.kept, says="another tfnode is changing", status=FILE)

    def test_no_room(self):
        self.session()
        small = lambda: resource.setrlimit(resource.RLIMIT_FSIZE, (20, 20))
        self.refused("settings", self.node, "--write", self.kept, says="File too large; make room there and try again", status=FILE,
                     preexec_fn=small)

    def test_an_answer_that_cannot_be_printed(self):
        self.session()
        with open("/dev/full", "wb") as full:
            run = subprocess.run([self.program, "settings", self.node, "--write", self.kept], stdout=full, stderr=subprocess.PIPE)
        self.assertEqual(run.returncode, FILE)
        self.assertIn(b"(the change itself is done)", run.stderr)
        self.assertEqual(self.kept.read_bytes(), record_of(G))


class WrittenAtEachStep(SettingsTest):
    """The record is written whole or not at all, whichever step of it is stopped or fails."""

    program = FAULTY
    WORDS = ["settings", "node.img", "--write", "node.settings"]

    def from_a_session(self, action):
        self.session()
        return self.runs_with_faults(self.WORDS, action, lambda: self.kept.unlink(missing_ok=True), least=8)

    def test_killed(self):
        seen = set()
        for run in self.from_a_session("kill"):
            self.assertEqual(run.returncode, -signal.SIGKILL)
            seen.add(self.kept.exists())
            if self.kept.exists():
                self.assertEqual(self.kept.read_bytes(), record_of(G))
            else:
                self.tool(*self.WORDS)  # what the killed tool left does not stand in the way
            self.assertEqual(sorted(self.contents()), ["node.img", "node.settings"])
        self.assertEqual(seen, {False, True})

    def test_failing(self):
        for cause in errno.ENOSPC, errno.EIO, errno.EROFS:
            self.node.unlink(missing_ok=True)
            for run in self.from_a_session(cause):
                line = run.stderr.decode()
                self.assertEqual((run.returncode, line.count("\n")), (FILE, 1), line)
                self.assertIn(os.strerror(cause), line)
                done = "the change itself is done" in line
                self.assertEqual(sorted(self.contents()), ["node.img", "node.settings"] if done else ["node.img"])
