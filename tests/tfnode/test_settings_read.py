"""The settings record in a file: read for a new node or shown, and each of its refusals with its place."""

import errno
import json
import os
import random
import subprocess

from record import BYTES, FIELDS, SettingsTest, field, record_of
from tool import DONE, FAULTY, FILE, G, USAGE

MOST = 1048576
GOOD = record_of("64,512,60,4,3600,128")


def changed(at, *values):
    return GOOD[:at] + bytes(values) + GOOD[at + len(values):]


def refusal_of(record):
    """The number and the byte of the first refusal of some bytes, None if they are a record; the geometry is not looked at."""
    for tag, (begin, size) in enumerate(FIELDS, 1):
        if len(record) < begin + 3 + size:
            return 1, begin
        if record[begin] != tag:
            return 2, begin
        if record[begin + 1:begin + 3] != bytes([0, size]):
            return 3, begin + 1
        if tag == 1 and record[3] != 1:
            return 4, 3
    begin = BYTES
    while begin < len(record):
        end = begin + 3 + int.from_bytes(record[begin + 1:begin + 3], "big")
        if record[begin] <= 7 or begin + 3 > len(record) or end > len(record):
            return 5, begin
        begin = end
    return None


class Read(SettingsTest):
    def test_a_node_of_a_record(self):
        run = self.new_from(record_of(G))
        self.assertEqual((run.stdout.decode(), run.stderr),
                         ("two.img is an empty node of 3 pages of 2 words, 304 bytes: 0 reads, 0 programs, 6 erases\n", b""))
        (self.folder / "two.img").unlink()
        self.assertEqual(json.loads(self.tool("new", "two.img", f"--settings={self.kept}", "--json").stdout),
                         {"geometry": {"P": 2, "W": 2, "D": 3, "T": 3, "L": 3, "C": 1}, "bytes": 304, "reads": 0, "programs": 0,
                          "erases": 6})

    def test_higher_tags_are_skipped_and_said(self):
        longest = field(255, bytes(65535))
        for more in (field(8, b""), field(8, b"\x09"), field(200, b"night") + field(8, b"day") + field(8, b""), longest,
                     longest * 15 + field(9, bytes(MOST - BYTES - 3 - 15 * len(longest)))):
            (self.folder / "two.img").unlink(missing_ok=True)
            said = f"tfnode: note: node.settings has {len(more)} bytes of higher tags, which version 1 skips\n"
            self.assertEqual(self.new_from(record_of(G) + more).stderr.decode(), said)
            shown = self.tool("settings", "node.settings", "--json")
            self.assertEqual((bytes.fromhex(json.loads(shown.stdout)["hex"]), shown.stderr.decode()), (record_of(G), said))

    def test_files_that_are_too_long(self):
        says = "it has more than the 1048576 bytes that are read; name another file"
        self.assertIn(b"of up to 1048576 bytes", self.tool("new", "--help").stdout)
        longest = field(255, bytes(65535))
        self.refuses(GOOD + longest * 15 + field(9, bytes(MOST - BYTES - 2 - 15 * len(longest))), says)
        self.refused("new", "two.img", "--settings", "/dev/zero", says="it is no plain file", status=FILE)
        os.truncate(self.kept, 2 ** 40)
        for words in ["new", "two.img", "--settings", self.kept], ["settings", self.kept]:
            run = self.tool(*words, status=FILE, timeout=30)
            self.assertEqual((run.stdout, run.stderr.count(b"\n")), (b"", 1))
            self.assertIn(says.encode(), run.stderr)
        self.assertEqual([path.name for path in self.folder.iterdir()], ["node.settings"])

    def test_what_is_no_file_of_a_record(self):
        self.session()
        os.mkfifo(self.folder / "pipe")
        (self.folder / "folder").mkdir()
        for name, says in [("none", "cannot open none: No such file or directory; see that it exists"),
                           ("folder", "folder: it is no plain file; name another"), ("pipe", "pipe: it is no plain file"),
                           ("/proc/self/mem", "cannot read /proc/self/mem: Input/output error"),
                           ("node.img", "node.img is a node image, and no settings record; `tfnode settings --write` makes one of it")]:
            with self.subTest(name=name):
                self.refused("new", "two.img", "--settings", name, says=says, status=FILE, timeout=30)

    def test_a_record_that_may_not_be_read(self):
        self.kept.write_bytes(GOOD)
        self.program = FAULTY
        self.refused("new", "two.img", "--settings", "node.settings", says="cannot open node.settings: Permission denied; see that",
                     status=FILE, env={**os.environ, "TFNODE_FAULT": f"1 {errno.EACCES}"})

    def test_one_geometry_and_one_only(self):
        self.kept.write_bytes(GOOD)
        settings, geometry, preset = ["--settings", self.kept], ["--geometry", G], ["--preset", "small"]
        for words in settings + geometry, settings + preset, geometry + preset, settings + geometry + preset, []:
            self.refused("new", self.node, *words, status=USAGE,
                         says="give either --geometry P,W,D,T,L,C, --preset small|recorder|largest or --settings IN")
        self.refused("new", self.node, "--settings", says="--settings needs a value", status=USAGE)
        self.refused("info", self.node, "--settings", self.kept, says="unknown option --settings", status=USAGE)
        self.refused("new", self.node, *geometry, "--write", "x", says="unknown option --write", status=USAGE)

    def test_an_image_that_is_there(self):
        self.new()
        self.kept.write_bytes(GOOD + field(8, b""))
        self.refused("new", self.node, "--settings", self.kept, says="node.img exists; choose another name", status=FILE)


class Refusals(SettingsTest):
    def test_each_with_its_number_and_place(self):
        for record, says in [
            (b"", "byte 0: refused with 1, SHORT: the field of the version needs 4 bytes, and the file has 0 left; use a copy"),
            (b"T", "byte 0: refused with 1, SHORT: the field of the version needs 4 bytes, and the file has 1 left"),
            (GOOD[:4], "byte 4: refused with 1, SHORT: the field of P needs 5 bytes, and the file has 0 left"),
            (GOOD[:30], "byte 24: refused with 1, SHORT: the field of L needs 7 bytes, and the file has 6 left"),
            (GOOD[:35], "byte 31: refused with 1, SHORT: the field of C needs 5 bytes, and the file has 4 left"),
            (b"a letter home", "byte 0: refused with 2, TAG: the field of the version has tag 97, and must have 1"),
            (changed(4, 9), "byte 4: refused with 2, TAG: the field of P has tag 9, and must have 2; use a copy"),
            (changed(31, 8), "byte 31: refused with 2, TAG: the field of C has tag 8, and must have 7"),
            (changed(1, 1, 1), "byte 1: refused with 3, LENGTH: the field of the version has length 257, and must have 1"),
            (changed(25, 0, 2), "byte 25: refused with 3, LENGTH: the field of L has length 2, and must have 4; use a copy"),
            (changed(3, 2), "byte 3: refused with 4, VERSION: the version is 2, and this tfnode reads 1; use a newer tfnode or a copy"),
            (changed(3, 2, 9), "byte 3: refused with 4, VERSION: the version is 2"),
            (GOOD + b"\n", "byte 36: refused with 5, AFTER: the field of tag 10 needs 3 bytes or more, and the file has 1 left"),
            (GOOD + field(7, b"C"), "byte 36: refused with 5, AFTER: a field after that of C has tag 7, and must have 8 or more"),
            (GOOD + field(8, b"ab") + field(9, b"c")[:-1],
             "byte 41: refused with 5, AFTER: the field of tag 9 needs 4 bytes, and the file has 3 left; use a copy"),
            (changed(7, 0, 0), "refused with 6, GEOMETRY: P is 0, and may be 1 to 64; see docs/TFNODE.md for the limits"),
            (changed(27, 255, 255, 255, 255), "refused with 6, GEOMETRY: L is 4294967295, and may be 1 to 3775"),
            (record_of("2,2,3,2,3,1"), "refused with 6, GEOMETRY: L/W rounded up is 2 translation pages, and T and P leave room for 1"),
            (changed(34, 16, 1) + field(8, b""), "refused with 6, GEOMETRY: C is 4097, and may be 1 to 4096"),
        ]:
            with self.subTest(says=says):
                self.refuses(record, says)

    def test_bytes_changed_at_random(self):
        """The number and the place are those that a reader of its own finds, whatever was changed."""
        chance = random.Random(11)
        seen = set()
        for _ in range(250):
            record = bytearray(GOOD + b"".join(field(chance.randrange(6, 256), chance.randbytes(chance.randrange(4)))
                                               for _ in range(chance.choice([0, 0, 1, 3]))))
            for _ in range(chance.choice([0, 0, 1, 1, 2])):
                record[chance.choice([0, 3, 4, 25, chance.randrange(len(record))])] = chance.randrange(10)
            record = bytes(record[:chance.choice([len(record)] * 3 + [chance.randrange(len(record) + 1)])])
            refusal = refusal_of(record)
            seen.add(refusal and refusal[0])
            self.kept.write_bytes(record)
            run = subprocess.run([self.program, "settings", self.kept], capture_output=True)
            if refusal is None:
                self.assertTrue(run.returncode == DONE or b": refused with 6, GEOMETRY: " in run.stderr, run.stderr)
            else:
                self.assertIn(b": byte %d: refused with %d, " % (refusal[1], refusal[0]), run.stderr)
        self.assertEqual(seen, {None, 1, 2, 3, 4, 5})

    def test_the_broken_limit_is_always_named(self):
        """Of numbers about their limits those are refused, with 6, for which a limit is named."""
        chance = random.Random(6)
        for _ in range(100):
            p, w, d, t, l, c = numbers = [chance.choice(near) for near in ([0, 1, 2, 64, 65], [0, 1, 2, 512, 65535], [1, 2, 3, 1022, 65535],
                                                                           [1, 2, 3, 65535], [0, 1, 3, 62, 2 ** 32 - 1], [0, 1, 4097])]
            fits = (1 <= p <= 64 and 1 <= w <= 512 and d >= 2 and t >= 2 and d + t <= 1024 and 1 <= l <= (d - 1) * p - 1 and
                    -(-l // w) <= (t - 1) * p - 1 and 1 <= c <= 4096)
            record = record_of(",".join(map(str, numbers)))
            if fits:
                self.new_from(record)
                (self.folder / "two.img").unlink()
            else:
                self.assertNotIn("a limit is broken", self.refuses(record, "refused with 6, GEOMETRY: "))
