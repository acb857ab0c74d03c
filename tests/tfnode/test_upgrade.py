"""Images of older layouts: what an upgrade makes of them, that every other command refuses them, and what stops an upgrade."""

import errno
import fcntl
import json
import os
import random
import resource
import signal
import subprocess

from layouts import NEWEST, OLDER, after_session, as_newest, as_older, empty, image_of
from tool import ANSWER, DONE, FAULTY, FILE, G, ROOT, SUFFIX, ToolTest, bytes_of, words_of

DONE_LINE = "node.img is of version 2 now, and was of version 1: %d bytes, sound\n"
SMALL = "4,8,12,6,40,4"


class UpgradeTest(ToolTest):
    def older_session(self):
        """An image of version 1 after document 01's session."""
        self.node.write_bytes(image_of(OLDER, G, after_session()))
        return self.node.read_bytes()


class Upgraded(UpgradeTest):
    def test_an_empty_node(self):
        for geometry in G, SMALL, "1,1,9,12,7,1", "2,3,2,2,1,4096", "64,512,60,4,3600,128":
            self.node.write_bytes(image_of(OLDER, geometry, empty(geometry)))
            run = self.tool("upgrade", "node.img")
            self.assertEqual((run.stdout.decode(), run.stderr), (DONE_LINE % self.node.stat().st_size, b""))
            self.tool("new", "two.img", "--geometry", geometry)
            self.assertEqual(self.node.read_bytes(), (self.folder / "two.img").read_bytes())
            (self.folder / "two.img").unlink()

    def test_the_session_of_document_01(self):
        old = self.older_session()
        refused = self.tool("info", "node.img", status=FILE).stderr.decode()
        self.assertEqual(self.tool("upgrade", "node.img").stdout.decode(), DONE_LINE % 304)
        self.assertIn(f"```\n$ tfnode info node.img\n{refused}$ tfnode upgrade node.img\n{DONE_LINE % 304}```\n",
                      (ROOT / "docs/TFNODE.md").read_text())
        self.assertEqual(self.node.read_bytes(), as_newest(old))
        self.assertEqual(self.tool("check", "node.img").stdout, b"node.img is sound: all seven rules hold\n")
        self.assertEqual(words_of(self.tool("dump", self.node, 0, 3).stdout), [15, 15, 14, 14, 13, 13])
        self.assertIn(b"1 of 1 entries used, 0 protected, 1 changed\n", self.tool("info", self.node).stdout)
        self.goes_on_as_after_a_session()

    def goes_on_as_after_a_session(self):
        """It serves a trace as a node does that had the session in this version."""
        trace = b"R 2\nW 1 20\nR 0\nW 0 21\nW 2 22\nR 1\nW 1 23\n"
        lines = self.tool("replay", self.node, "--lines", data=trace).stdout
        self.node = self.folder / "two.img"
        self.session()
        self.assertEqual(self.tool("replay", self.node, "--lines", data=trace).stdout, lines)

    def test_nodes_in_use(self):
        """Each page reads as what was last written to it, before the upgrade or after; no other word of the image changes."""
        for seed, geometry in enumerate(["1,1,9,12,7,1", "2,3,3,3,3,2", "5,7,6,4,24,3", SMALL, "64,2,3,5,127,9", "2,3,2,2,1,4096"]):
            chance = random.Random(seed)
            self.node = self.folder / f"{seed}.img"
            self.new(geometry)
            table = {}
            self.work(chance, geometry, table)
            old = as_older(self.node.read_bytes())
            self.node.write_bytes(old)
            self.tool("upgrade", self.node)
            self.assertEqual(self.node.read_bytes(), as_newest(old))
            self.reads_as(geometry, table)
            self.work(chance, geometry, table)
            self.reads_as(geometry, table)

    def work(self, chance, geometry, table):
        """Random writes and reads; what each page holds afterwards goes to the table."""
        _, w, _, _, l, _ = map(int, geometry.split(","))
        trace = b""
        for _ in range(100):
            page, value = chance.randrange(l), chance.randrange(2 ** 32)
            trace += b"R %d\n" % chance.randrange(l) + b"W %d %d\n" % (page, value)
            table[page] = value.to_bytes(4, "little") * w
        self.tool("replay", self.node, data=trace)

    def reads_as(self, geometry, table):
        _, w, _, _, l, _ = map(int, geometry.split(","))
        self.tool("check", self.node)
        self.assertEqual(self.tool("dump", self.node, 0, l).stdout, b"".join(table.get(page, b"\xff" * 4 * w) for page in range(l)))

    def test_for_programs(self):
        self.older_session()
        for version in OLDER, NEWEST:
            self.assertEqual(json.loads(self.tool("upgrade", self.node, "--json").stdout),
                             {"from": version, "version": NEWEST, "bytes": 304, "sound": True})

    def test_the_newest_is_left_alone(self):
        self.session()
        self.node.chmod(0o444)
        before = self.node.stat()
        with open(f"{self.node}{SUFFIX}", "wb") as other:
            fcntl.flock(other, fcntl.LOCK_EX)
            run = self.tool("upgrade", "node.img")
        self.assertEqual((run.stdout, run.stderr), (b"node.img is of version 2, the newest; nothing is to be done\n", b""))
        after = self.node.stat()
        self.assertEqual((after.st_ino, after.st_mtime_ns, after.st_mode), (before.st_ino, before.st_mtime_ns, before.st_mode))

    def test_a_damaged_node_stays_as_it_was(self):
        """Whatever a word of the state is, the upgrade is done, says what check says of it, and changes no other word."""
        words = words_of(self.older_session())
        seen = set()
        for at in range(17, len(words)):
            old = bytes_of(words[:at] + [words[at] ^ 1] + words[at + 1:])
            self.node.write_bytes(old)
            sound = json.loads(self.tool("upgrade", self.node, "--json").stdout)["sound"]
            self.assertEqual(self.node.read_bytes(), as_newest(old))
            self.tool("check", self.node, status=DONE if sound else ANSWER)
            seen.add(sound)
        self.assertEqual(seen, {False, True})

    def test_a_damaged_node_is_said(self):
        slices = after_session()
        slices[-1][1] = 1
        self.node.write_bytes(image_of(OLDER, G, slices))
        run = self.tool("upgrade", "node.img")
        self.assertEqual((run.stdout.decode(), run.stderr), ("node.img is of version 2 now, and was of version 1: 304 bytes, "
                                                             "damaged as it was before; `tfnode check` says why\n", b""))
        self.assertIn(b"rule 3 fails first, at block 0: ", self.tool("check", self.node, status=ANSWER).stdout)

    def test_permissions_and_links_stay(self):
        for mode in 0o600, 0o640, 0o666:
            old = self.older_session()
            self.node.chmod(mode)
            (self.folder / "link").symlink_to(self.node)
            self.tool("upgrade", "link")
            self.assertTrue((self.folder / "link").is_symlink())
            self.assertEqual((self.node.stat().st_mode & 0o777, self.node.read_bytes()), (mode, as_newest(old)))
            (self.folder / "link").unlink()


class Refused(UpgradeTest):
    COMMANDS = [["info"], ["info", "--json"], ["settings"], ["settings", "--write", "out"], ["check"], ["check", "--json"], ["map"],
                ["map", "--json"], ["map", "--svg", "out"], ["read", 0], ["dump", 0, 1], ["write", 0], ["load", 0], ["replay"],
                ["replay", "--lines"]]

    def upgrade_refused(self, image, says, **more):
        self.node.write_bytes(image)
        self.refused("upgrade", "node.img", says=says, status=FILE, **more)

    def test_by_every_other_command(self):
        for slices in after_session(), empty(G):
            self.node.write_bytes(image_of(OLDER, G, slices))
            for command, *rest in self.COMMANDS:
                with self.subTest(command=command, rest=rest):
                    line = self.refused(command, "node.img", *rest, data=b"W 0 1\n", says="", status=FILE)
                    self.assertEqual(line, "tfnode: node.img is of an older layout, version 1, and this tfnode works on version 2; "
                                           "run `tfnode upgrade node.img`\n")

    def test_as_a_settings_record_and_as_a_name_for_a_new_node(self):
        self.older_session()
        self.refused("new", "two.img", "--settings", "node.img", says="node.img is a node image, and no settings record", status=FILE)
        self.refused("new", "node.img", "--geometry", G, says="node.img exists", status=FILE)

    def test_images_that_are_cut_or_added_to(self):
        old = self.older_session()
        for image in old[:-1], old[:-4], old[:68], old + bytes(1), old + bytes(4):
            self.upgrade_refused(image, f"node.img has {len(image)} bytes, and its header says 300; it was cut or added to")
        self.upgrade_refused(old[:67], "node.img ends within its header; it was cut, use a whole copy")
        self.upgrade_refused(b"a letter home, and nothing else\n" * 10, "node.img is no node image: it lacks the mark of one")

    def test_headers(self):
        words = words_of(self.older_session())
        for at, value, says in [(2, 0, "there is no version 0"), (2, NEWEST, "its sizes are not those of its geometry"),
                                (2, 3, "a newer layout, version 3, and this tfnode knows those up to version 2; use a newer tfnode"),
                                (2, 2 ** 32 - 1, "a newer layout, version 4294967295,"), (3, 18, "it is not laid out as version 1"),
                                (4, 7, "it is not laid out as version 1"), (11, 6, "it is not laid out as version 1"),
                                (9, 4, "its geometry is not accepted"), (10, 2, "its sizes are not those"), (16, 6, "its sizes are not")]:
            self.upgrade_refused(bytes_of(words[:at] + [value] + words[at + 1:]), says)

    def test_an_image_that_may_not_be_written(self):
        self.older_session()
        self.node.chmod(0o444)
        self.refused("upgrade", "node.img", says="node.img is read-only; allow it by `chmod u+w` or work on a copy", status=FILE)

    def test_another_tool_that_changes_it(self):
        self.older_session()
        with open(f"{self.node}{SUFFIX}", "wb") as other:
            fcntl.flock(other, fcntl.LOCK_EX)
            self.refused("upgrade", "node.img", says="another tfnode is changing", status=FILE)

    def test_no_room(self):
        self.older_session()
        small = lambda: resource.setrlimit(resource.RLIMIT_FSIZE, (302, 302))
        self.refused("upgrade", "node.img", says=["File too large; make room there and try again", "is as it was"], status=FILE,
                     preexec_fn=small)

    def test_an_answer_that_cannot_be_printed(self):
        old = self.older_session()
        with open("/dev/full", "wb") as full:
            run = subprocess.run([self.program, "upgrade", self.node], stdout=full, stderr=subprocess.PIPE)
        self.assertEqual(run.returncode, FILE)
        self.assertIn(b"(the change itself is done)", run.stderr)
        self.assertEqual(self.node.read_bytes(), as_newest(old))


class AtEachStep(UpgradeTest):
    """The image is the old one or the new one, whichever step of the upgrade is stopped or fails."""

    program = FAULTY
    WORDS = ["upgrade", "node.img"]

    def test_killed(self):
        old = self.older_session()
        new = as_newest(old)
        seen = set()
        for run in self.runs_with_faults(self.WORDS, "kill", lambda: self.node.write_bytes(old)):
            self.assertEqual(run.returncode, -signal.SIGKILL)
            seen.add(self.node.read_bytes())
            self.tool(*self.WORDS)  # what the killed tool left does not stand in the way
            self.assertEqual(self.node.read_bytes(), new)
            self.assertEqual([path.name for path in self.folder.iterdir()], ["node.img"])
        self.assertEqual(seen, {old, new})

    def test_failing(self):
        old = self.older_session()
        for cause in errno.ENOSPC, errno.EIO, errno.EROFS:
            for run in self.runs_with_faults(self.WORDS, cause, lambda: self.node.write_bytes(old)):
                line = run.stderr.decode()
                self.assertEqual((run.returncode, line.count("\n")), (FILE, 1), line)
                self.assertIn(os.strerror(cause), line)
                self.assertEqual(self.node.read_bytes(), as_newest(old) if "the change itself is done" in line else old)
                self.assertEqual([path.name for path in self.folder.iterdir()], ["node.img"])
