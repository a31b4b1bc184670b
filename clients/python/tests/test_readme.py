"""The examples of the documents, each run as a program of its own against a server."""
from __future__ import annotations

import pathlib
import re
import subprocess
import sys
import unittest

from servers import ALL, Server

PYTHON = pathlib.Path(__file__).resolve().parents[1]


class Examples(unittest.TestCase):
    def test_examples_run(self) -> None:
        count = 0
        for document in (PYTHON / "README.md", PYTHON.parent / "README.md", PYTHON.parents[1] / "README.md"):
            for number, example in enumerate(re.findall(r"^```python\n(.*?)^```$", document.read_text("utf-8"), re.M | re.S)):
                with Server("--sessions", "16", "t") as server:
                    told = subprocess.run([sys.executable, "-W", "error", "-c", example.replace("ramp://127.0.0.1:7000/t", server.url())], cwd=PYTHON,
                                          capture_output=True, text=True, timeout=4 * ALL, check=False)
                    self.assertEqual((told.returncode, told.stderr), (0, ""), f"{document}, example {number}:\n{example}\n{told.stderr}")
                    self.assertEqual(server.stop(), ["settled t yes"])
                count += 1
        self.assertGreaterEqual(count, 7)


if __name__ == "__main__":
    unittest.main()
