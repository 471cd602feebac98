"""Each tool says by `--help` what it does, its words and its statuses, and refuses other words."""

import subprocess
import sys
import unittest

from support import TOOLS, run

# What each tool's help names.
WORDS = {
    "log": ("FOLDER", "--follow", "--json"),
    "why": ("FILE", "RULE", "--line"),
    "lint": ("FILE", "--persons"),
    "draw": ("FILE", "--folder", "--case", "--svg", "--dot", "--text"),
    "shell": ("FOLDER",),
    "certificate.py": ("FILE", "NET"),
}


class HelpTest(unittest.TestCase):
    def test_each_tool_says_what_it_does(self):
        for tool, words in WORDS.items():
            status, said = run(sys.executable, TOOLS / tool, "--help")
            self.assertEqual((status, said.partition(" [")[0]), (0, f"usage: {tool}"))
            for word in (*words, "tatus"):
                self.assertIn(word, said, tool)

    def test_other_words_are_refused(self):
        for tool in WORDS:
            ran = subprocess.run([sys.executable, TOOLS / tool, "--walk"], capture_output=True, text=True)
            self.assertEqual((ran.returncode, ran.stdout), (2, ""), tool)
            self.assertTrue(ran.stderr.startswith(f"usage: {tool} "), ran.stderr)


if __name__ == "__main__":
    unittest.main()
