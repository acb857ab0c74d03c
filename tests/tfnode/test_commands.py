"""Each command as a person uses it: what it prints, and what it does to the image."""

import json
import os
import random
import re
import subprocess
import xml.etree.ElementTree

from tool import DONE, G, HEADER_WORDS, SESSION, SESSION_LINES, ToolTest, words_of

NONE = 4294967295
VALID, INVALID = 65535, 0


class New(ToolTest):
    def test_geometry(self):
        out = self.tool("new", self.node, "--geometry", G).stdout
        self.assertEqual(out.decode(), f"{self.node} is an empty node of 3 pages of 2 words, 304 bytes: "
                                       "0 reads, 0 programs, 6 erases\n")
        words = words_of(self.node.read_bytes())
        self.assertEqual(self.node.read_bytes()[:8], b"TFNODE\r\n")
        self.assertEqual(words[2:HEADER_WORDS], [2, 17, 6, 2, 2, 3, 3, 3, 1, 5, 24, 24, 2, 3, 6])
        self.assertEqual(words[HEADER_WORDS:], [NONE] * 53 + [0, 0, 3, 0, 0, 0])

    def test_presets(self):
        sizes = {"small": 3040, "recorder": 8423036, "largest": 134791732}
        for preset, size in sizes.items():
            answer = json.loads(self.tool("new", f"{preset}.img", f"--preset={preset}", "--json").stdout)
            self.assertEqual(answer["bytes"], size)
            self.assertEqual((self.folder / f"{preset}.img").stat().st_size, size)
            self.assertIn(b"sound", self.tool("check", f"{preset}.img").stdout)

    def test_permissions_are_those_of_a_new_file(self):
        (self.folder / "other").touch()
        self.new()
        self.assertEqual(self.node.stat().st_mode, (self.folder / "other").stat().st_mode)


class Replay(ToolTest):
    def test_the_session_of_document_01(self):
        self.new()
        self.assertEqual(self.tool("replay", self.node, "--lines", data=SESSION).stdout, SESSION_LINES)
        words = words_of(self.node.read_bytes())[HEADER_WORDS:]
        chip, spare, rest = words[:24], words[24:48], words[48:]
        self.assertEqual(chip[18:20] + chip[22:24], [3, NONE, 2, 0])
        self.assertEqual(spare, [VALID, 1, VALID, 0, INVALID, 0, VALID, 2] + [NONE] * 8 +
                         [INVALID, 0, VALID, 1, INVALID, 0, VALID, 0])
        self.assertEqual(rest, [11, 9] + [0, 1, 1] + [0, 2, 5, 2, 1, 0])

    def test_protected_and_trial_entries(self):
        """The cache's order as P5 of document 02 has it: the logical pages of the entries, and how many are protected."""
        self.tool("new", self.node, "--preset", "small")
        at = HEADER_WORDS + 576 + 144 + 5
        for line, entries, protected in [(b"W 0 1", [0], 0), (b"W 1 1", [1, 0], 0), (b"W 2 1", [2, 1, 0], 0),  # misses
                                         (b"R 1", [1, 2, 0], 1), (b"R 0", [0, 1, 2], 2),  # in trial, below the limit
                                         (b"R 0", [0, 1, 2], 2), (b"R 1", [1, 0, 2], 2),  # in protected
                                         (b"W 3 1", [1, 0, 3, 2], 2), (b"R 2", [2, 1, 0, 3], 2),  # a miss; in trial, at the limit
                                         (b"W 4 1", [2, 1, 4, 0], 2), (b"R 3", [2, 1, 3, 4], 2)]:  # the trial part's last is dropped
            self.tool("replay", self.node, data=line)
            words = words_of(self.node.read_bytes())
            self.assertEqual([entry for entry in words[at:at + 12:3] if entry != NONE], entries, line)
            self.assertEqual(words[-2:], [len(entries), protected], line)
            cache = json.loads(self.tool("info", self.node, "--json").stdout)["cache"]
            self.assertEqual((cache["used"], cache["protected"]), (len(entries), protected))

    def test_totals_are_the_sums_of_the_lines(self):
        self.new()
        by_run = self.tool("replay", self.node, data=SESSION[:-1]).stdout.decode()
        self.assertEqual(by_run, "requests             6 writes, 2 reads\n"
                                 "flash                12 reads, 14 programs, 3 erases\n"
                                 "write amplification  2.33 programs for each write\n")

    def test_runs_and_single_requests_leave_the_same_image(self):
        trace = self.trace(random.Random(7), 2500, 40)
        images = []
        for option in "--lines", "--json":
            self.tool("new", "--preset", "small", "--", option)
            self.tool("replay", option, "--", option, data=trace)
            images.append((self.folder / option).read_bytes())
        self.assertEqual(images[0], images[1])

    def test_comments_and_unwritten_pages(self):
        self.new()
        answer = json.loads(self.tool("replay", self.node, "--json", data=b"# none yet\n\nR 1\nR 02").stdout)
        self.assertEqual(answer, {"host_writes": 0, "host_reads": 2, "unwritten": 2, "reads": 0, "programs": 0, "erases": 0,
                                  "write_amplification": None})

    @staticmethod
    def trace(chance, lines, limit):
        return b"".join(b"%c %d%s\n" % (kind, chance.randrange(limit), b" %d" % chance.randrange(2 ** 32) if kind == 87 else b"")
                        for kind in chance.choices(b"WR", (3, 1), k=lines))


class Pages(ToolTest):
    def test_write_and_read(self):
        self.new()
        run = self.tool("write", self.node, 1, data=b"12345678")
        self.assertEqual((run.stdout, run.stderr), (b"page 1 is written: 0 reads, 1 program, 0 erases\n", b""))
        before = self.node.read_bytes()
        self.assertEqual(self.tool("read", self.node, 1).stdout, b"12345678")
        self.assertEqual(self.node.read_bytes(), before)

    def test_short_and_long_pages_are_said(self):
        self.new()
        self.assertIn(b"3 bytes were given, filled up with zero bytes", self.tool("write", self.node, 0, data=b"abc").stderr)
        self.assertEqual(self.tool("read", self.node, 0).stdout, b"abc\0\0\0\0\0")
        self.assertIn(b"the rest was cut off", self.tool("write", self.node, 0, data=b"123456789").stderr)
        self.assertEqual(self.tool("read", self.node, 0).stdout, b"12345678")

    def test_load_and_dump_in_many_runs(self):
        self.new("8,4,420,96,3000,16")
        data = random.Random(1).randbytes(16 * 2500 - 5)
        run = self.tool("load", self.node, 300, "--json", data=data)
        self.assertEqual(json.loads(run.stdout)["pages"], 2500)
        self.assertIn(b"ends within a page", run.stderr)
        run = self.tool("dump", self.node, 299, 2502)
        self.assertEqual(run.stdout, b"\xff" * 16 + data + bytes(5) + b"\xff" * 16)
        self.assertIn(b"2 of the 2502 pages were never written", run.stderr)

    def test_load_from_a_file_and_a_whole_run(self):
        self.new("8,4,420,96,3000,16")
        (self.folder / "data").write_bytes(bytes(16 * 1024))
        with open(self.folder / "data", "rb") as data:
            run = self.tool("load", self.node, 0, data=None, stdin=data)
        self.assertEqual(run.stderr, b"")
        self.assertIn(b"pages 0 to 1023 are written", run.stdout)

    def test_against_a_table_of_pages(self):
        """Random work on nodes of odd shapes: every page reads as what was last written to it."""
        for seed, geometry in enumerate(["1,1,9,12,7,1", "2,3,2,2,1,4096", "4,8,12,6,40,4", "5,7,6,4,24,3", "64,2,3,5,127,9"]):
            chance = random.Random(seed)
            self.node = self.folder / f"{seed}.img"
            self.new(geometry)
            p, w, d, t, l, c = map(int, geometry.split(","))
            table = {}
            for _ in range(25):
                first = chance.randrange(l)
                pages = [chance.randbytes(4 * w) for _ in range(chance.randint(1, min(l - first, 9)))]
                self.tool("load", self.node, first, data=b"".join(pages))
                table.update(enumerate(pages, first))
                page, value = chance.randrange(l), chance.randrange(2 ** 32)
                self.tool("replay", self.node, data=b"R %d\nW %d %d\n" % (first, page, value))
                table[page] = value.to_bytes(4, "little") * w
            dump = self.tool("dump", self.node, 0, l).stdout
            self.assertEqual(dump, b"".join(table.get(page, b"\xff" * 4 * w) for page in range(l)))
            self.assertEqual(self.tool("check", self.node).returncode, DONE)
            info = json.loads(self.tool("info", self.node, "--json").stdout)
            self.assertEqual(info["written"], len(table))


class Looks(ToolTest):
    def test_info(self):
        self.session()
        self.assertEqual(self.tool("info", "node.img").stdout.decode(), """\
image        node.img, version 2, 304 bytes
state        sound
geometry     P=2 W=2 D=3 T=3 L=3 C=1
pages        3 logical pages of 2 words, 3 written
data         3 blocks: 1 wholly erased, 2 full, block 0 open
             3 valid pages, 1 invalid, 2 erased
translation  3 blocks: 1 wholly erased, 2 full, block 5 open
             2 valid pages, 2 invalid, 2 erased
cache        1 of 1 entries used, 0 protected, 1 changed
words        chip 24, spare 24, directory 2, cache 3, record 6
""")

    def test_info_for_programs(self):
        self.session()
        info = json.loads(self.tool("info", self.node, "--json").stdout)
        self.assertEqual(info["geometry"], {"P": 2, "W": 2, "D": 3, "T": 3, "L": 3, "C": 1})
        self.assertEqual(info["data"], {"blocks": 3, "erased": 1, "full": 2, "open": 0,
                                        "pages": {"valid": 3, "invalid": 1, "erased": 2, "unknown": 0}})
        self.assertEqual(info["cache"], {"entries": 1, "used": 1, "protected": 0, "changed": 1})

    def test_check(self):
        self.session()
        self.assertEqual(self.tool("check", "node.img").stdout, b"node.img is sound: all seven rules hold\n")
        self.assertEqual(json.loads(self.tool("check", self.node, "--json").stdout), {"reply": 0, "name": "DONE", "sound": True})

    def test_map(self):
        self.session()
        self.assertEqual(self.tool("map", self.node).stdout.decode(), """\
data blocks 0 to 2
    0> ##     1  x#     2  ..
translation blocks 3 to 5
    3  ..     4  x#     5> x#
# valid, x invalid, . erased; > open block
""")
        blocks = json.loads(self.tool("map", self.node, "--json").stdout)
        self.assertEqual(blocks["translation"][2], {"block": 5, "open": True, "pages": "x#"})

    def test_map_as_a_picture(self):
        self.session()
        before = self.node.read_bytes()
        (self.folder / "map.svg").write_text("an older map")
        self.assertEqual(self.tool("map", self.node, "--svg", "map.svg").stdout, b"")
        picture = xml.etree.ElementTree.parse(self.folder / "map.svg").getroot()
        titles = [title.text for title in picture.iter("{http://www.w3.org/2000/svg}title")]
        self.assertEqual(len(titles), 6)
        self.assertEqual(titles[5], "block 5, open: 1 valid, 1 invalid, 0 erased")
        self.assertEqual(self.node.read_bytes(), before)
        self.assertEqual(sorted(path.name for path in self.folder.iterdir()), ["map.svg", "node.img"])

    def test_looks_need_no_right_to_write(self):
        self.session()
        self.node.chmod(0o444)
        for words in ["info"], ["settings"], ["check"], ["map"], ["read", 0], ["dump", 0, 3], ["upgrade"]:
            self.tool(words[0], self.node, *words[1:])


class Help(ToolTest):
    def test_every_command_has_help_with_an_example(self):
        overview = self.tool("--help").stdout.decode()
        commands = re.findall(r"^  (\w+) ", overview, re.MULTILINE)
        self.assertEqual(len(commands), 11)
        for command in commands:
            text = self.tool(command, "--help").stdout.decode()
            self.assertTrue(text.startswith(f"usage: tfnode {command} FILE"), text)
            self.assertIn("\nexample: ", text)
            self.assertLessEqual(max(map(len, text.splitlines())), 80)

    def test_examples_do_what_they_say(self):
        """The examples of the help, in the order of the overview, in a shell."""
        (self.folder / "survey.bin").write_bytes(b"s" * 20)
        overview = self.tool("--help").stdout.decode()
        for command in re.findall(r"^  (\w+) ", overview, re.MULTILINE):
            text = self.tool(command, "--help").stdout.decode()
            line = re.search(r"^example: (.*)", text, re.MULTILINE).group(1).replace("node.img 3", "node.img 2").replace("40 >", "3 >")
            line = line.replace("| jq .written", "").replace("| hexdump -C", "")
            path = f"{self.program.parent}:{os.environ['PATH']}"
            run = subprocess.run(line, shell=True, cwd=self.folder, env={**os.environ, "PATH": path}, capture_output=True)
            self.assertEqual(run.returncode, DONE, f"{line}: {run.stderr.decode()}")
