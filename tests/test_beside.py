"""Modules beside a capture: none of them is ever loaded, whatever is typed there."""
import os
import subprocess
import tempfile
import unittest

from testing import CASE, INPUTS, OUTPUTS, TOP

MODULES = ("argparse", "difflib", "ipaddress", "jinja2", "json", "rendapil", "runpy", "scapy", "sitecustomize", "struct", "subprocess", "tomllib")
COMMANDS = (
    ("--help",),
    ("--version",),
    ("chekc",),
    ("run", *INPUTS),
    ("check", *INPUTS),
    ("explain", *INPUTS, *OUTPUTS),
    ("explain", "--html", "page", *INPUTS, *OUTPUTS),
    ("try", CASE[1]),
    ("try", CASE[1], "--left", "10.0.0.0/8"),
    ("plan", CASE[1], CASE[2]),
    ("compare", CASE[0], *CASE[1:5]),
    ("export", "nftables", CASE[0]),
)


class Beside(unittest.TestCase):
    """Each command, in a folder where each module that it may load has a namesake."""

    def test_no_module_of_the_folder_runs(self) -> None:
        """Also where PYTHONPATH names the folder, and where Debian's Python is asked for a package."""
        with tempfile.TemporaryDirectory() as room:
            for name in MODULES:
                with open(f"{room}/{name}.py", "w", encoding="utf-8") as file:
                    file.write(f"open({room!r} + '/ran-{name}', 'w')\n")
            for words in COMMANDS:
                for python_path in ("", ".", room):
                    with self.subTest(words=words[:2], python_path=python_path):
                        env = {**os.environ, "PYTHONPATH": python_path}
                        subprocess.run([f"{TOP}/rendapil", *words], cwd=room, env=env, check=False, capture_output=True, timeout=60)
                        self.assertEqual([name for name in os.listdir(room) if name.startswith("ran-")], [])


if __name__ == "__main__":
    unittest.main()
