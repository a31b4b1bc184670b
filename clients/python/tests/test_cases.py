"""The shared cases, with the client of threads and with that of asyncio."""
from __future__ import annotations

import unittest

from cases import CASES, Loop, Runner


class Cases(unittest.TestCase):
    def run_with(self, loop: object) -> None:
        runner = Runner(loop)  # type: ignore[arg-type]
        runner.run(CASES.read_text("ascii"))
        self.assertEqual(runner.wrong, [], "\n" + "\n".join(runner.wrong))
        self.assertGreater(runner.count, 200)

    def test_client_of_threads(self) -> None:
        self.run_with(None)

    def test_client_of_asyncio(self) -> None:
        with Loop() as loop:
            self.run_with(loop)


if __name__ == "__main__":
    unittest.main()
