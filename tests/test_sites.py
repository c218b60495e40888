"""Many pairs of networks, side by side."""
import os
import shutil
import tempfile
import unittest
from pathlib import Path

from testing import INPUTS, OUTPUTS, PROGRAM, TOP, said

PAIRS = 200


@unittest.skipUnless(shutil.which("parallel"), "there is no GNU parallel")
@unittest.skipUnless(os.access(PROGRAM, os.X_OK), "the program isn't built")
class Sites(unittest.TestCase):
    """The example of two firms, many times."""

    def test_two_hundred(self) -> None:
        """Each has a row, in the order of the list, and its outputs; one whose capture isn't there fails alone."""
        with tempfile.TemporaryDirectory() as room:
            settings, left, right = INPUTS
            lines = [f"site-{number}\t{settings}\t{left if number != 7 else room + '/absent'}\t{right}\n" for number in range(PAIRS)]
            Path(room, "list").write_text("".join(lines), "utf-8")
            # The program by itself: a start of the command costs more than such a run.
            Path(room, "gateway").write_text(f'#!/bin/sh\nshift\nexec "{PROGRAM}" "$@"\n', "utf-8")
            os.chmod(f"{room}/gateway", 0o755)
            status, text = said("env", "-C", room, f"RENDAPIL={room}/gateway", f"{TOP}/examples/sites/pairs", "list")
            head, *rows = text.splitlines()
            self.assertEqual((status, head.split("\t")[0], len(rows)), (1, "pair", PAIRS), text)
            for number, row in enumerate(rows):
                wanted = f"site-{number}\t0\t53\t51\t1\tNoBinding" if number != 7 else "site-7\t7\t0\t0\t0\t"
                self.assertEqual(row, wanted)
            for number in (0, PAIRS - 1):
                self.assertEqual(Path(room, f"site-{number}/report.txt").read_bytes(), Path(OUTPUTS[2]).read_bytes())
            self.assertEqual(Path(room, "site-7/faults.txt").read_text("utf-8"), "open failed: left_in\n")


if __name__ == "__main__":
    unittest.main()
