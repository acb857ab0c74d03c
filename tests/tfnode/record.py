"""What the tests of the settings record share: the record as 02's P1 has it, and a folder with a place for one."""

from tool import FILE, ToolTest

# Where each field begins, and the bytes of its value: the version's, and those of P, W, D, T, L, C.
FIELDS = [(0, 1), (4, 2), (9, 2), (14, 2), (19, 2), (24, 4), (31, 2)]
BYTES = 36
AS_A_RECORD = " is no node image, and as a settings record"


def record_of(geometry):
    """The record of a geometry, from the words of 02's P1."""
    values = [1, *map(int, geometry.split(","))]
    return b"".join(field(tag, value.to_bytes(size, "big")) for tag, (value, (_, size)) in enumerate(zip(values, FIELDS), 1))


def field(tag, value):
    return bytes([tag]) + len(value).to_bytes(2, "big") + value


class SettingsTest(ToolTest):
    """`self.kept` is the path of a settings record."""

    def setUp(self):
        super().setUp()
        self.kept = self.folder / "node.settings"

    def new_from(self, record, **more):
        """Makes a node from a record."""
        self.kept.write_bytes(record)
        return self.tool("new", "two.img", "--settings", "node.settings", **more)

    def refuses(self, record, says):
        """Both readers of a record refuse it with these words."""
        self.kept.write_bytes(record)
        line = self.refused("new", "two.img", "--settings", "node.settings", says="node.settings: " + says, status=FILE)
        self.refused("settings", "node.settings", says=f"node.settings{AS_A_RECORD}: {says}", status=FILE)
        return line
