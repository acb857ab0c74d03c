"""What a crash, an error of the disk, or a second tool leaves: the old image or the new one, never a mixture."""

import errno
import fcntl
import os
import pathlib
import random
import signal
import subprocess
import sys
import termios
import time

from tool import DONE, FAULTY, FILE, G, SHIPPED, SUFFIX, ToolTest


class EachStep(ToolTest):
    """The tool stopped at each of its steps on files, and each step failing."""

    program = FAULTY
    WORK = [(["load", "node.img", "4"], bytes(range(200)) * 4), (["write", "node.img", "0"], b"w" * 32),
            (["replay", "node.img"], b"W 1 1\nR 4\n")]

    def setUp(self):
        super().setUp()
        self.tool("new", self.node, "--preset", "small")
        self.tool("load", self.node, 0, data=b"old" * 400)
        self.old = self.node.read_bytes()

    def from_the_old_image(self, words, data, action):
        return enumerate(self.runs_with_faults(words, action, lambda: self.node.write_bytes(self.old), data), 1)

    def test_killed_at_each_step(self):
        for words, data in self.WORK:
            self.node.write_bytes(self.old)
            self.tool(*words, data=data)
            new = self.node.read_bytes()
            seen = set()
            for step, run in self.from_the_old_image(words, data, "kill"):
                self.assertEqual(run.returncode, -signal.SIGKILL)
                self.assertIn(self.node.read_bytes(), (self.old, new), f"{words}, step {step}")
                seen.add(self.node.read_bytes())
                self.tool("check", self.node)
                # What the killed tool left does not stand in the way of the next.
                self.node.write_bytes(self.old)
                self.tool(*words, data=data)
                self.assertEqual(self.node.read_bytes(), new)
                self.assertFalse(pathlib.Path(f"{self.node}{SUFFIX}").exists())
            self.assertEqual(seen, {self.old, new})

    def test_each_step_failing(self):
        """A step that fails gives one line; the image is as it was, or, where only the flush of the folder failed, the new one."""
        for cause in errno.ENOSPC, errno.EIO, errno.EROFS:
            words, data = self.WORK[0]
            for _, run in self.from_the_old_image(words, data, cause):
                line = run.stderr.decode()
                self.assertEqual(run.returncode, FILE, line)
                self.assertEqual(line.count("\n"), 1, line)
                self.assertIn(os.strerror(cause), line)
                self.assertEqual(self.node.read_bytes() == self.old, "the change itself is done" not in line, line)
                self.tool("check", self.node)
                self.assertEqual([path.name for path in self.folder.iterdir()], ["node.img"])

    def test_new_killed_at_each_step(self):
        two = self.folder / "two.img"
        for _, run in self.from_the_old_image(["new", "two.img", "--geometry", G], b"", "kill"):
            self.assertEqual(run.returncode, -signal.SIGKILL)
            if two.exists():
                self.tool("check", two)
                two.unlink()


class Kill(ToolTest):
    """kill -9 at whatever moment, from outside."""

    program = SHIPPED
    PAGES = 15000

    def test_while_it_waits_for_data(self):
        self.tool("new", self.node, "--preset", "recorder")
        old = self.node.read_bytes()
        with self.start("load", self.node, "0", stdin=subprocess.PIPE) as load:
            load.stdin.write(bytes(2048 * 3000))
            load.stdin.flush()
            load.kill()
        self.assertEqual(self.node.read_bytes(), old)
        self.tool("check", self.node)

    def test_at_random_moments_of_a_load(self):
        chance = random.Random(3)
        self.tool("new", self.node, "--geometry", f"64,512,250,6,{self.PAGES},512")
        data = self.folder / "data"
        seconds, killed = self.load(data, chance, None), 0
        for _ in range(12):
            old = self.node.read_bytes()
            self.load(data, chance, chance.uniform(0, seconds))
            if self.node.read_bytes() == old:
                killed += 1
            else:
                self.assertEqual(self.tool("dump", self.node, 0, self.PAGES).stdout, data.read_bytes())
            self.tool("check", self.node)
        self.assertGreater(killed, 3)

    def load(self, data, chance, kill_after):
        """Loads fresh data, or is killed before the end; the seconds that it took."""
        data.write_bytes(chance.randbytes(2048) * self.PAGES)
        start = time.monotonic()
        with open(data, "rb") as stdin, self.start("load", self.node, "0", stdin=stdin) as load:
            try:
                load.wait(kill_after)
            except subprocess.TimeoutExpired:
                load.kill()
        return time.monotonic() - start


class Together(ToolTest):
    """A load that waits for its data, and what happens to its image meanwhile."""

    program = SHIPPED

    def setUp(self):
        super().setUp()
        self.tool("new", self.node, "--preset", "recorder")
        self.old = self.node.read_bytes()
        self.load = self.start("load", self.node, "0", stdin=subprocess.PIPE)
        self.addCleanup(self.load.__exit__, None, None, None)
        self.addCleanup(self.load.kill)
        self.load.stdin.write(b"x")
        self.load.stdin.flush()
        while self.bytes_in_pipe() > 0:
            time.sleep(0.01)

    def bytes_in_pipe(self):
        """How much of its input the load has not taken yet."""
        return int.from_bytes(fcntl.ioctl(self.load.stdin, termios.FIONREAD, bytes(4)), sys.byteorder)

    def test_a_second_change_is_refused_and_looks_are_not(self):
        for words in ["write", self.node, 0], ["load", self.node, 0], ["replay", self.node]:
            self.refused(*words, data=b"W 0 1\n", says="another tfnode is changing", status=FILE)
        self.tool("check", self.node)
        self.tool("info", self.node)
        self.load.communicate(b"x" * 2047)
        self.assertEqual(self.load.returncode, DONE)
        self.assertEqual(self.tool("read", self.node, 0).stdout, b"x" * 2048)

    def test_a_second_new_is_refused(self):
        self.refused("new", self.node, "--geometry", G, says="another tfnode is changing", status=FILE)

    def stopped_by(self, number):
        self.load.send_signal(number)
        self.load.communicate()
        self.assertEqual(self.load.returncode, -number)
        self.assertEqual([path.name for path in self.folder.iterdir()], ["node.img"])
        self.assertEqual(self.node.read_bytes(), self.old)

    def test_a_load_that_is_interrupted_leaves_nothing(self):
        self.stopped_by(signal.SIGINT)

    def test_a_load_that_is_ended_leaves_nothing(self):
        self.stopped_by(signal.SIGTERM)

    def test_an_image_that_another_program_cuts(self):
        os.truncate(self.node, 4096)
        _, line = self.load.communicate(b"x" * 2047)
        self.assertEqual(self.load.returncode, FILE)
        self.assertIn(b"another program cut it", line)


class Replaced(ToolTest):
    """What belongs to the file and not to its contents stays through a change."""

    def test_permissions(self):
        self.new()
        for mode in 0o600, 0o640, 0o666:
            self.node.chmod(mode)
            self.tool("write", self.node, 0, data=b"12345678")
            self.assertEqual(self.node.stat().st_mode & 0o777, mode)

    def test_a_link(self):
        self.new()
        (self.folder / "link").symlink_to(self.node)
        self.tool("write", "link", 0, data=b"12345678")
        self.assertTrue((self.folder / "link").is_symlink())
        self.assertEqual(self.tool("read", self.node, 0).stdout, b"12345678")

    def test_what_a_killed_tool_left_is_taken_over(self):
        self.new()
        left = pathlib.Path(f"{self.node}{SUFFIX}")
        left.write_bytes(b"left" * 1000)
        self.tool("write", self.node, 0, data=b"12345678")
        self.assertFalse(left.exists())
        self.assertEqual(self.node.stat().st_size, 304)

    def test_what_is_beside_and_no_plain_file_is_let_be(self):
        self.new()
        beside = pathlib.Path(f"{self.node}{SUFFIX}")
        (self.folder / "precious").write_text("precious")
        beside.symlink_to(self.folder / "precious")
        self.refused("write", self.node, 0, data=b"12345678", says="it is no file of this tool's, remove it", status=FILE)
        beside.unlink()
        beside.mkdir()
        self.refused("write", self.node, 0, data=b"12345678", says="it is no file of this tool's, remove it", status=FILE)
