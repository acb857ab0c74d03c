"""What the tool shows on a terminal: the progress bar, the colours, and that it waits for data."""

import os
import pty
import subprocess

from tool import DONE, ToolTest


class Terminal(ToolTest):
    def on_terminal(self, stream, *words, stdin=subprocess.DEVNULL, no_color=""):
        """Runs the tool with a terminal as `stdout` or `stderr`; what the terminal got."""
        ours, theirs = pty.openpty()
        streams = {"stdin": stdin, "stdout": subprocess.DEVNULL, stream: theirs}
        with subprocess.Popen([self.program, *map(str, words)], **streams, env={**os.environ, "NO_COLOR": no_color}) as run:
            os.close(theirs)
            got = b""
            try:
                while piece := os.read(ours, 4096):
                    got += piece
            except OSError:
                pass  # the terminal's other end is closed
        os.close(ours)
        self.assertEqual(run.returncode, DONE)
        return got

    def test_progress(self):
        self.new("8,4,420,96,3000,16")
        (self.folder / "data").write_bytes(bytes(16 * 2048))
        with open(self.folder / "data", "rb") as data:
            shown = self.on_terminal("stderr", "load", self.node, 0, stdin=data)
        half = b": [####################                    ] 1024 of 2048 pages"
        self.assertIn(b"load" + half, shown)
        self.assertTrue(shown.endswith(b"\r\x1b[K"))
        shown = self.on_terminal("stderr", "dump", self.node, 0, 2048)
        self.assertIn(b"dump" + half, shown)
        self.assertTrue(shown.endswith(b"\r\x1b[K"))

    def test_progress_of_a_pipe(self):
        self.new("8,4,420,96,3000,16")
        data, feed = os.pipe()
        os.write(feed, bytes(16 * 1500))
        os.close(feed)
        self.assertIn(b"load: 1024 pages", self.on_terminal("stderr", "load", self.node, 0, stdin=data))
        os.close(data)

    def test_colours(self):
        self.session()
        self.assertIn(b"\x1b[30;41mx\x1b[0m\x1b[30;42m#\x1b[0m", self.on_terminal("stdout", "map", self.node))
        self.assertNotIn(b"\x1b", self.on_terminal("stdout", "map", self.node, no_color="1"))
        self.assertNotIn(b"\x1b", self.tool("map", self.node).stdout)

    def test_data_that_is_typed(self):
        self.new()
        ours, theirs = pty.openpty()
        os.write(ours, b"12345678" + b"\x04" * 2)  # Ctrl-D hands on what was typed, and once more ends it
        run = self.tool("write", self.node, 0, data=None, stdin=theirs)
        self.assertIn(b"reading the page from the terminal; end it by Ctrl-D", run.stderr)
        self.assertEqual(self.tool("read", self.node, 0).stdout, b"12345678")
        os.close(ours)
        os.close(theirs)
