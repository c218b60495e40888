"""What the command is once it is installed."""
import os
import re
import shutil
import subprocess
import tempfile
import unittest

from testing import INPUTS, MERGER, PROGRAM, TOP, said, script

PACKAGERS = ("dpkg-buildpackage", "dh", "dh_python3")


def below(folder: str) -> list[str]:
    """All files and folders below one."""
    return sorted(f"{at}/{name}" for at, folders, files in os.walk(folder) for name in folders + files)


@unittest.skipUnless(os.access(PROGRAM, os.X_OK), "the program isn't built")
@unittest.skipUnless(os.path.exists(f"{TOP}/packaging"), "what installs stands in a checkout alone")
class Installed(unittest.TestCase):
    """The command at another place than the checkout."""

    def setUp(self) -> None:
        """A folder."""
        room = tempfile.TemporaryDirectory()
        self.addCleanup(room.cleanup)
        self.room = room.name

    def works(self, command: str) -> None:
        """It has all commands, and builds nothing."""
        written = [f"{self.room}/{name}" for name in ("left", "right", "report")]
        with open(f"{TOP}/VERSION", encoding="ascii") as file:
            self.assertEqual(said(command, "--version")[1].splitlines()[0], f"rendapil {file.read().strip()}")
        self.assertEqual(said(command, "run", *INPUTS, *written), (0, ""))
        with open(f"{MERGER}/explain.txt", encoding="ascii") as file:
            self.assertEqual(said(command, "explain", *INPUTS, *written), (0, file.read()))
        self.assertNotIn("prove ", said(command, "--help")[1])
        self.assertEqual(said(command, "prove")[0], 70)
        program = said(command, "--program")[1].strip()
        with open(program, "rb") as one, open(PROGRAM, "rb") as other:
            self.assertEqual(one.read(), other.read())
        os.remove(program)
        self.assertEqual(said(command, "run", *INPUTS, *written)[0], 70)

    def test_options_are_told(self) -> None:
        """The manual page and the completion know the options of each tool."""
        for name in ("rendapil.1", "rendapil.bash"):
            with open(f"{TOP}/packaging/{name}", encoding="utf-8") as file:
                known = file.read().replace("Fl -", "--")
            for command in ("check", "explain", "try", "fill", "plan", "compare", "export"):
                options = set(
                    re.findall(r"--[a-z][a-z-]+", said(f"{TOP}/rendapil", command, "--help")[1].partition("usage: ")[2].partition("\n\n")[0])
                )
                self.assertEqual({one for one in options if one not in known}, set(), f"{name}: {command}")

    @unittest.skipUnless(shutil.which("lowdown"), "there is no lowdown")
    def test_settings_page(self) -> None:
        """rendapil-settings(5) is what packaging/settings_page makes of docs/SETTINGS.md."""
        with open(f"{TOP}/packaging/rendapil-settings.5", encoding="utf-8") as file:
            self.assertEqual(script(f"{TOP}/packaging/settings_page").page(), file.read())

    @unittest.skipUnless(shutil.which("man"), "there is no man")
    def test_pages_fit(self) -> None:
        """Both manual pages fit a terminal of 80 columns."""
        for name in ("rendapil.1", "rendapil-settings.5"):
            words = ["env", "MANWIDTH=80", "man", "--warnings", "-l", f"{TOP}/packaging/{name}"]
            done = subprocess.run(words, stdout=subprocess.PIPE, stderr=subprocess.PIPE, text=True, check=False)
            wide = [line for line in done.stdout.splitlines() if len(line) > 80 and " = " not in line]  # lines of settings stay whole
            self.assertEqual((done.stderr, wide), ("", []), name)

    def test_completion(self) -> None:
        """It works where the package bash-completion isn't there."""
        for words, wanted in (
            ("rendapil pl", "plan"),
            ("rendapil try --po", "--pool"),
            ("rendapil help exp", "explain export"),
            ("rendapil try --pool 1", ""),
        ):
            place = len(words.split()) - 1
            script = f"source {TOP}/packaging/rendapil.bash; compopt() {{ :; }}; COMP_WORDS=({words}); COMP_CWORD={place}; _rendapil; echo ${{COMPREPLY[@]}}"
            self.assertEqual(said("bash", "--norc", "-c", script), (0, f"{wanted}\n"))

    def test_prefix(self) -> None:
        """It works there, and is taken away without a rest, what was there before included: that stays."""
        prefix = f"{self.room}/a prefix"
        os.makedirs(f"{prefix}/share/man/man1")
        before = below(prefix)
        for mask in ("077", "000"):
            script = f'umask {mask}; PROGRAM="{PROGRAM}" exec "{TOP}/packaging/install" "$1"'
            self.assertEqual(said("bash", "-c", script, "bash", prefix), (0, ""))
            modes = {os.stat(path).st_mode & 0o777 for path in below(prefix) if path not in before and not os.path.islink(path)}
            self.assertEqual(modes, {0o755, 0o644})
        self.works(f"{prefix}/bin/rendapil")
        os.makedirs(f"{prefix}/share/rendapil/python/rendapil/__pycache__", exist_ok=True)
        self.assertEqual(said(f"{TOP}/packaging/install", "--remove", prefix), (0, ""))
        self.assertEqual(below(prefix), before)
        self.assertEqual(said(f"{TOP}/packaging/install", "--remove", prefix)[0], 1)
        self.assertEqual(said(f"{TOP}/packaging/install", "lib")[0], 2)

    @unittest.skipUnless(all(map(shutil.which, PACKAGERS)), f"one of {', '.join(PACKAGERS)} isn't there")
    def test_package(self) -> None:
        """Lintian has no error or warning, and the command runs where the package is unpacked."""
        status, text = said("env", f"PROGRAM={PROGRAM}", f"{TOP}/packaging/deb", self.room)
        self.assertEqual(status, 0, text)
        if shutil.which("lintian"):
            self.assertNotRegex(said("lintian", "--allow-root", text.strip())[1], "(?m)^[EW]: ")
        self.assertEqual(said("dpkg-deb", "-x", text.strip(), f"{self.room}/root"), (0, ""))
        with open(f"{self.room}/root/lib/systemd/system/rendapil.service", encoding="utf-8") as file:
            self.assertNotRegex(file.read(), "/opt/|/usr/local/")
        self.works(f"{self.room}/root/usr/bin/rendapil")
