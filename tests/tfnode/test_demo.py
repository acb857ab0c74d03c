"""The demonstration runs, and prints what the documents show."""

import subprocess
import unittest

from tool import ROOT


class Demo(unittest.TestCase):
    def test_documents_show_what_is_printed(self):
        run = subprocess.run([ROOT / "tools/tfnode/demo"], capture_output=True, check=True, timeout=120, text=True)
        self.assertIn(f"```\n{run.stdout}```\n", (ROOT / "docs/TFNODE.md").read_text())
        readme = (ROOT / "README.md").read_text()
        if run.stdout.splitlines()[0] in readme:
            self.assertIn(f"```\n{run.stdout}```\n", readme)
