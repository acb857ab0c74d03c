"""Each error: one line that names the cause and what to do, its exit status, and the folder as it was."""

import json
import os
import random
import resource
import subprocess

from tool import ANSWER, DONE, FILE, G, HEADER_WORDS, USAGE, ToolTest, bytes_of, words_of


class Usage(ToolTest):
    def test_words_that_are_not_understood(self):
        self.new()
        for words, says in [
            ([], "no command; see `tfnode --help`"),
            (["format"], "there is no command `format`"),
            (["info"], "FILE is missing; see `tfnode info --help`"),
            (["write", self.node], "PAGE is missing"),
            (["info", self.node, "more"], "`more` is one word too many"),
            (["info", self.node, "--colour"], "unknown option --colour; see `tfnode info --help`"),
            (["info", self.node, "-j"], "unknown option -j"),
            (["info", self.node, "--svg", "x"], "unknown option --svg"),
            (["info", self.node, "--json=yes"], "--json takes no value; leave =yes away"),
            (["info", self.node, "--json", "--json"], "--json is given twice"),
            (["map", self.node, "--svg"], "--svg needs a value"),
            (["map", self.node, "--svg", "x", "--json"], "give one of them"),
            (["replay", self.node, "--lines", "--json"], "give one of them"),
            (["map", self.node, "--svg", self.node], "is the image itself"),
            (["map", self.node, "--svg", "/dev/null"], "is no plain file"),
        ]:
            with self.subTest(words=words):
                self.refused(*words, says=says, status=USAGE)

    def test_numbers(self):
        self.new()
        for text in "", "-1", "+1", " 1", "1 ", "0x1", "one", "4294967296", "99999999999999999999999999":
            with self.subTest(text=text):
                self.refused("read", "--", self.node, text, says="PAGE is", status=USAGE)
        self.refused("dump", self.node, 0, "x", says="COUNT is `x`", status=USAGE)
        self.refused("load", self.node, "x", says="FIRST is `x`", status=USAGE)

    def test_pages_past_the_limit(self):
        self.new()
        for command in "read", "write", "load":
            self.refused(command, self.node, 3, data=b"x", says="page 3 is past the last; the node has pages 0 to 2", status=USAGE)
        self.refused("read", self.node, 4294967295, says="past the last", status=USAGE)
        self.refused("dump", self.node, 1, 3, says="3 pages from page 1 go past the last", status=USAGE)
        self.refused("dump", self.node, 2, 4294967295, says="go past the last", status=USAGE)
        self.refused("load", self.node, 1, data=bytes(17), says="from page 1 on the node takes 16 bytes", status=USAGE)

    def test_data_past_the_limit_after_a_whole_run(self):
        self.new("8,4,420,96,3000,16")
        self.refused("load", self.node, 1000, data=bytes(16 * 2001), says="takes 32000 bytes", status=USAGE)

    def test_no_data(self):
        self.new()
        for command in "write", "load":
            self.refused(command, self.node, 0, says="no data on standard input", status=USAGE)

    def test_traces(self):
        self.new()
        for line in (b"W", b"W 0", b"W 0 ", b"W 0 1 2", b"W 0  1", b"R", b"R ", b"R 0 ", b"R 0 0", b"RR 0", b"r 0", b" R 0", b"R\t0",
                     b"X 0", b"R -0", b"R 0x0", b"R 4294967296", b"W 0 4294967296", b"R 0\r", b"R 0\0", b"R \xff", b"R " + b"9" * 100000):
            with self.subTest(line=line[:20]):
                self.refused("replay", self.node, data=b"W 0 1\n# one\n" + line + b"\n",
                             says=["line 3 of the trace", "nothing of the trace is kept"], status=USAGE)
        self.refused("replay", self.node, data=b"W 0 1\nR 3\n", says="line 2 of the trace has page 3", status=USAGE)

    def test_geometries(self):
        for text in ("", "1", "2,2,3,3,3", "2,2,3,3,3,1,1", "2,2,3,3,3,", ",2,3,3,3,1", "2;2;3;3;3;1", "2, 2,3,3,3,1", "2,2,3,3,3,1:",
                     f"{2 ** 32},2,3,3,3,1"):
            with self.subTest(text=text):
                self.refused("new", self.node, "--geometry", text, says="is no geometry", status=USAGE)
        self.refused("new", self.node, says="give either --geometry", status=USAGE)
        self.refused("new", self.node, "--geometry", G, "--preset", "small", says="give either", status=USAGE)
        self.refused("new", self.node, "--preset", "huge", says="there is no preset `huge`", status=USAGE)
        self.refused("new", self.node, "--geometry", "2,2,3,3,4,1", says="L is 4, and may be 1 to 3", status=USAGE)
        self.refused("new", self.node, "--geometry", "2,2,3,2,3,1", says="2 translation pages, and T and P leave room for 1", status=USAGE)
        self.refused("new", self.node, "--geometry", "1,1,2,2,0,1", says="the other numbers leave nothing for it", status=USAGE)

    def test_the_broken_limit_is_always_named(self):
        """Of numbers about their limits the library refuses exactly those for which the tool names a limit."""
        chance = random.Random(5)
        for _ in range(250):
            numbers = [chance.choice(near) for near in ([0, 1, 2, 64, 65], [0, 1, 2, 512, 513], [0, 1, 2, 3, 1022, 2 ** 32 - 1],
                                                        [0, 1, 2, 3, 2 ** 32 - 1], [0, 1, 2, 3, 62, 63, 2 ** 32 - 1], [0, 1, 4096, 4097])]
            p, w, d, t, l, c = numbers
            fits = (1 <= p <= 64 and 1 <= w <= 512 and d >= 2 and t >= 2 and d + t <= 1024 and 1 <= l <= (d - 1) * p - 1 and
                    1 <= -(-l // w) <= (t - 1) * p - 1 and 1 <= c <= 4096)
            words = ["new", self.node, "--geometry", ",".join(map(str, numbers))]
            if fits:
                self.tool(*words)
                self.node.unlink()
            else:
                line = self.refused(*words, says="not accepted", status=USAGE)
                self.assertNotIn("a limit is broken", line)


class Files(ToolTest):
    # An upgrade is a look where the image is of the newest layout; test_upgrade.py has the others.
    LOOKS = [["info"], ["settings"], ["check"], ["map"], ["read", 0], ["dump", 0, 1], ["upgrade"]]
    CHANGES = [["write", 0], ["load", 0], ["replay"]]

    def each(self, says, commands=LOOKS + CHANGES, status=FILE):
        for command, *rest in commands:
            with self.subTest(command=command):
                self.refused(command, self.node, *rest, data=b"W 0 1\n", says=says, status=status)

    def test_no_file(self):
        self.each("does not exist; make a node by `tfnode new`", [words for words in self.LOOKS + self.CHANGES if words != ["settings"]])
        self.each("No such file or directory; see that it exists and may be read", [["settings"]])

    def test_a_file_that_is_there(self):
        self.new()
        self.refused("new", self.node, "--geometry", G, says="exists; choose another name or remove it first", status=FILE)

    def test_no_folder(self):
        self.refused("new", self.folder / "none/node.img", "--geometry", G, says="see that its folder exists", status=FILE)

    def test_no_node_image(self):
        for contents in b"", b"T", b"a letter home, and nothing else\n" * 10:
            self.node.write_bytes(contents)
            self.each("is no node image")

    def test_no_plain_file(self):
        os.mkfifo(self.node)
        self.each("is no plain file")
        self.node.unlink()
        self.node.mkdir()
        self.each("is no plain file")

    def test_wrong_size(self):
        self.new()
        whole = self.node.read_bytes()
        for contents in whole[:-1], whole[:-4], whole + b"\0", whole[:68]:
            self.node.write_bytes(contents)
            self.each("its header says 304")
        self.node.write_bytes(whole[:67])
        self.each("ends within its header")

    def test_headers(self):
        self.new()
        words = words_of(self.node.read_bytes())
        for at, value, says in [(2, 0, "there is no version 0"), (2, 1, "sizes are not those"), (3, 18, "not laid out as version 2"),
                                (2, 3, "a newer layout, version 3, and this tfnode knows those up to version 2; use a newer tfnode"),
                                (4, 7, "not laid out"), (11, 6, "not laid out"), (9, 4, "its geometry is not accepted"),
                                (10, 2, "sizes are not those of its geometry"), (12, 25, "sizes are not those"),
                                (16, 5, "sizes are not those")]:
            self.node.write_bytes(bytes_of(words[:at] + [value] + words[at + 1:]))
            self.each(says)

    def test_a_read_only_image(self):
        self.new()
        self.node.chmod(0o444)
        self.each("is read-only; allow it by `chmod u+w` or work on a copy", self.CHANGES)

    def test_damage(self):
        self.session()
        words = words_of(self.node.read_bytes())
        words[-1] = 2
        self.node.write_bytes(bytes_of(words))
        self.each("is damaged, so nothing was done; `tfnode check` says what is wrong",
                  [["read", 0], ["dump", 0, 1]] + self.CHANGES, status=ANSWER)

    def test_never_written(self):
        self.new()
        self.refused("read", self.node, 1, says="page 1 was never written", status=ANSWER)


class Disks(ToolTest):
    def test_a_limit_on_file_sizes(self):
        self.new()
        small = lambda: resource.setrlimit(resource.RLIMIT_FSIZE, (200, 200))
        self.refused("write", self.node, 0, data=b"x" * 8, says=["File too large; make room there and try again", "is as it was"],
                     status=FILE, preexec_fn=small)
        self.refused("new", self.folder / "two.img", "--geometry", G, says="File too large", status=FILE, preexec_fn=small)

    def test_output_that_is_full_or_closed(self):
        self.session()
        before = self.contents()
        for words in ["info"], ["settings"], ["check"], ["map"], ["read", 0], ["dump", 0, 3], ["upgrade"], ["--help"]:
            words = words if words[0] == "--help" else [words[0], self.node, *words[1:]]
            with open("/dev/full", "wb") as full:
                run = subprocess.run([self.program, *map(str, words)], stdout=full, stderr=subprocess.PIPE)
            self.assertEqual(run.returncode, FILE)
            self.assertIn(b"cannot write standard output: No space left on device", run.stderr)
        self.assertEqual(self.contents(), before)

    def test_a_report_that_cannot_be_printed(self):
        self.session()
        with open("/dev/full", "wb") as full:
            run = subprocess.run([self.program, "write", self.node, "0"], input=b"12345678", stdout=full, stderr=subprocess.PIPE)
        self.assertEqual(run.returncode, FILE)
        self.assertIn(b"(the change itself is done)", run.stderr)
        self.assertEqual(self.tool("read", self.node, 0).stdout, b"12345678")

    def test_a_trace_whose_lines_cannot_be_printed_is_not_kept(self):
        self.session()
        before = self.contents()
        with open("/dev/full", "wb") as full:
            run = subprocess.run([self.program, "replay", self.node, "--lines"], input=b"W 0 1\n", stdout=full, stderr=subprocess.PIPE)
        self.assertEqual(run.returncode, FILE)
        self.assertEqual(self.contents(), before)

    def test_closed_streams_never_reach_the_image(self):
        """With a stream closed the image would get its number, and what is printed would land in it."""
        for closed in range(3):
            self.node = self.folder / f"{closed}.img"
            self.session()
            subprocess.run(["sh", "-c", f'printf "W 0 1\\nR 0\\n" | "$0" replay "$1" --lines {closed}>&-', self.program, self.node],
                           capture_output=True)
            self.tool("check", self.node)


class Damage(ToolTest):
    def test_each_word_of_a_state(self):
        """Whatever a word is changed to, each look ends in order, and check is right about soundness or names a rule and a place."""
        self.session()
        words = words_of(self.node.read_bytes())
        damaged = 0
        for at in range(HEADER_WORDS, len(words)):
            for value in {0, 1, 65535, 4294967295, (words[at] + 1) % 2 ** 32} - {words[at]}:
                self.node.write_bytes(bytes_of(words[:at] + [value] + words[at + 1:]))
                run = subprocess.run([self.program, "check", self.node, "--json"], capture_output=True)
                self.assertIn(run.returncode, (DONE, ANSWER), run.stderr)
                answer = json.loads(run.stdout)
                if not answer["sound"]:
                    damaged += 1
                    self.assertIn(answer["hint"]["rule"], range(1, 8))
            for look in "info", "map":
                self.assertEqual(subprocess.run([self.program, look, self.node], capture_output=True).returncode, DONE)
        self.assertGreater(damaged, 100)

    def test_the_hint(self):
        self.session()
        words = words_of(self.node.read_bytes())
        # The record's offset, the directory, the cached page, used and protected entries, the cached place, and the state of page 2 with
        # its owner's twin.
        for at, value, says in [(-5, 1, "rule 3 fails first, at block 0: "), (-11, 9, "rule 4 fails first, at translation page 0: "),
                                (-9, 7, "rule 5 fails first, at cache entry 0: "), (-2, 2, "rule 5 fails first, at record word 4: "),
                                (-1, 1, "rule 5 fails first, at record word 5: "), (-8, 3, "rule 6 fails first, at logical page 0: "),
                                (HEADER_WORDS + 24 + 4, 65535, "rule 2 fails first, at page 2: "),
                                (HEADER_WORDS + 24 + 4, 7, "rule 1 fails first, at page 2: ")]:
            changed = list(words)
            changed[at] = value
            self.node.write_bytes(bytes_of(changed))
            run = self.tool("check", "node.img", status=ANSWER)
            self.assertTrue(run.stdout.decode().startswith("node.img is damaged\nhint: " + says), run.stdout)
