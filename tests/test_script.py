"""What the command says."""
import os
import shutil
import signal
import struct
import subprocess
import tempfile
import time
import unittest
from pathlib import Path
from unittest import mock

from testing import INPUTS, OUTPUTS, RIGHT, TOP, said

from rendapil import program


RT = """#!/bin/sh
case "$1" in
version) echo "kit 1" ;;
doc) echo "{room}/kit/doc" ;;
*)
    echo called >>"{room}/rt-was-called" && [ "$PROVES" ] || exit 1
    mkdir crates/gateway_program/out && cp "{top}/crates/gateway_program/out/gateway_program" crates/gateway_program/out/
    printf 'rt: gateway_program proved\nrt: ok\n1 passed, 0 failed\n'
    ;;
esac
"""
QUICK = """#!/bin/sh
echo "$1" >>"{room}/quick-was-called"
printf '#!/bin/sh\nexit 0\n' >"$1" && chmod +x "$1"
exit ${{QUICK:-0}}
"""


class Script(unittest.TestCase):
    """What rendapil says, with a stand-in for the program that says `$LINE` and ends with `$STATUS`, and with some for rt and tools/quick.py that leave
    marks."""

    def setUp(self) -> None:
        """A folder with the command and the stand-ins."""
        room = tempfile.TemporaryDirectory()
        self.addCleanup(room.cleanup)
        self.room = room.name
        self.top = f"{self.room}/top"
        self.prebuilt = f"{self.top}/prebuilt/x86_64-linux/gateway_program"
        self.program, self.source = f"{self.top}/crates/gateway_program/out/gateway_program", f"{self.top}/crates/gateway_program/src/main.rt"
        for name in ("top/tools", "top/docs", "top/python", "bin", "top/crates/gateway_program/out", "top/crates/gateway_program/src"):
            os.makedirs(f"{self.room}/{name}")
        for name in ("rendapil", "VERSION", "docs/GATE.md"):
            shutil.copy(f"{TOP}/{name}", f"{self.top}/{name}")
        shutil.copytree(f"{TOP}/python/rendapil", f"{self.top}/python/rendapil", ignore=shutil.ignore_patterns("__pycache__"))
        self.write(f"{self.top}/crates.txt", "gateway_program: std\n")
        self.write(self.source, "fn main() {}\n")
        self.write(f"{self.room}/bin/rt", RT.format(room=self.room, top=self.top))
        self.write(f"{self.top}/tools/quick.py", QUICK.format(room=self.room))
        self.write(self.program, '#!/bin/sh\n[ -z "$LINE" ] || echo "$LINE" >&2\necho "$*" >"$0.words"\nexit ${STATUS:-0}\n')
        self.note()

    def note(self) -> None:
        """Notes that the program is of the code that is there."""
        text = f"program {program.sum_of(Path(self.program))}\ncode {program.digest_of(Path(self.top), '.rt')}\nkit kit 1\n"
        self.write(f"{self.program}.made", text)

    def was_called(self, name: str) -> bool:
        """Whether a stand-in was called."""
        return os.path.exists(f"{self.room}/{name}-was-called")

    def write(self, name: str, text: str | bytes) -> str:
        """A file, which is a program where it begins as one."""
        with open(name, "wb") as file:
            file.write(text.encode() if isinstance(text, str) else text)
        os.chmod(name, 0o755)
        return name

    def told(self, *words: str, line: str = "", status: int = 0, **more: str) -> tuple[int, str]:
        """Status and output of the script, where the program says this line and has this status."""
        names = {"PATH": f"{self.room}/bin:{os.environ['PATH']}", "LINE": line, "STATUS": str(status), **more}
        done = subprocess.run(
            [f"{self.top}/rendapil", *words], env={**os.environ, **names}, cwd=self.room, capture_output=True, text=True, check=False
        )
        return done.returncode, done.stdout + done.stderr

    def run_words(self, **changed: str) -> list[str]:
        """The words of a run of the example, some of them changed."""
        names = dict(zip(("settings", "left_in", "right_in"), INPUTS), left_out="lo", right_out="ro", report="rep")
        return ["run", *{**names, **changed}.values()]

    def test_nothing_is_built_for_help(self) -> None:
        """Help, the version and mistyped words need no program, and no words start a build but those of a command."""
        os.remove(self.program)
        fronts: list[tuple[list[str], int, str]] = [
            (["--help"], 0, "usage: rendapil "),
            (["-h"], 0, "usage: "),
            (["--version"], 0, "rendapil 1."),
            ([], 2, "usage: "),
            (["rnu"], 2, "rendapil: there is no command 'rnu': is 'run' meant?"),
            (["\x1b[2J"], 2, "rendapil: there is no command '$'\\E[2J''"),
            (["run", "settings.toml"], 2, "usage: rendapil run "),
            (["check", INPUTS[0]], 0, "left pool: "),
            (["help", "try"], 0, "usage: rendapil try "),
            *(([word, "--help"], 0, f"usage: rendapil {word} ") for word in ("run", "audit", "make", "check", "explain", "try")),
            *(([word, "--help"], 0, f"usage: rendapil {word}\n") for word in ("test", "prove")),
        ]
        for words, status, front in fronts:
            code, text = self.told(*words)
            self.assertEqual((code, text[: len(front)]), (status, front))
        self.assertFalse(self.was_called("rt") or self.was_called("quick"))

    @unittest.skipUnless(os.path.exists(f"{TOP}/crates.txt"), "what is installed builds nothing")
    def test_change_is_told_from_touch(self) -> None:
        """A source that was touched builds nothing, and one that was changed does, whatever its time."""
        os.utime(self.source)
        self.assertEqual(self.told(*self.run_words()), (0, ""))
        self.assertFalse(self.was_called("quick"))
        self.write(self.source, "fn main() { 1; }\n")
        os.utime(self.source, (1, 1))
        code, text = self.told(*self.run_words())
        self.assertEqual((code, text.count("\n")), (0, 3))
        self.assertTrue(self.was_called("quick"))
        self.assertEqual(self.told(*self.run_words()), (0, ""))

    @unittest.skipUnless(os.path.exists(f"{TOP}/crates.txt"), "what is installed builds nothing")
    def test_build_that_fails(self) -> None:
        """It leaves the program that was there; and where this kit has another form, all is proved."""
        self.write(self.source, "fn main() { 1; }\n")
        self.assertEqual(self.told(*self.run_words(), QUICK="1")[0], 70)
        self.assertFalse(self.was_called("rt"))
        code, text = self.told(*self.run_words(), QUICK="3")
        self.assertEqual((code, self.was_called("rt")), (70, True))
        self.assertIn("So the proofs are checked now", text)

    def test_without_rt(self) -> None:
        """The program that is there runs, and is said to be of other code."""
        self.write(self.source, "fn main() { 1; }\n")
        self.assertIn("of other code than that of this checkout", self.told("--version")[1])
        os.remove(f"{self.room}/bin/rt")
        code, text = self.told(*self.run_words(), PATH="/usr/bin:/bin")
        self.assertEqual((code, text.split(".")[0]), (0, "rendapil: the program that is there runs"))
        os.remove(self.program)
        self.assertEqual(self.told(*self.run_words(), PATH="/usr/bin:/bin")[0], 70)

    @unittest.skipUnless(os.path.exists(f"{TOP}/crates.txt"), "what is installed builds nothing")
    def test_prove(self) -> None:
        """It tells how far it is and whether the program was the same, and proves again only where a source was changed."""
        for name in ("HANDLES", "crates/gateway_program/src/Contract.antt"):
            self.write(f"{self.top}/{name}", "")
        code, text = self.told("prove", PROVES="1")
        self.assertEqual((code, text.count("\n")), (0, 3), text)
        self.assertIn("1 of 1: gateway_program, ", text)
        self.assertIn("The program that was used till now is the proved one, byte for byte", text)
        self.assertEqual(self.told("prove"), (0, "rendapil: the program is proved, and no source has changed since\n"))
        self.assertIn("proof: its proofs were checked on this machine, by kit 1\n", self.told("--version")[1])
        self.write(f"{self.top}/crates/gateway_program/src/Contract.antt", "changed")
        self.assertIn("by kit 1, before these sources were changed\n", self.told("--version")[1])
        self.assertEqual(self.told(*self.run_words()), (0, ""))
        self.assertEqual(self.told("prove")[0], 70)

    def test_whose_proof(self) -> None:
        """The version says what is known of the proof, and PROVED-PROGRAM is held against the program, the code and the kit."""
        self.assertIn("the code here isn't the code that was proved last", self.told("--version")[1])
        keep = ("env", f"PATH={self.room}/bin:{os.environ['PATH']}", f"PYTHONPATH={self.top}/python", "python3", "-m", "rendapil.program")
        self.assertEqual(said(*keep, "--write", self.program), (0, ""))
        self.assertIn("proof: it is, byte for byte, the program that kit 1 proved from this code\n", self.told("--version")[1])
        self.assertEqual(
            said(*keep, "--check", self.program), (0, "PROVED-PROGRAM names the program, the code and the kit, and prebuilt/ has the program\n")
        )
        self.assertEqual(said(*keep, "--check", self.source)[0], 1)
        os.remove(f"{self.program}.made")
        self.assertEqual(self.told(*self.run_words()), (0, ""))
        self.write(self.source, "fn main() { 1; }\n")
        self.assertEqual(said(*keep, "--check", self.program)[0], 1)
        self.write(f"{self.room}/bin/rt", "#!/bin/sh\necho kit 2\n")
        self.assertEqual(said(*keep, "--check", self.program)[0], 0)
        self.write(self.prebuilt, "another")
        self.assertEqual(said(*keep, "--check", self.program)[0], 1)
        os.remove(f"{self.top}/PROVED-PROGRAM")
        self.assertEqual(said(*keep, "--check", self.program)[0], 1)
        self.assertEqual(said(*keep)[0], 2)

    def come_with_checkout(self) -> None:
        """The program comes with the checkout, and none was built."""
        os.makedirs(os.path.dirname(self.prebuilt))
        os.rename(self.program, self.prebuilt)
        os.rename(f"{self.program}.made", f"{self.top}/PROVED-PROGRAM")

    def test_prebuilt(self) -> None:
        """The program that comes with the checkout runs at once, without rt."""
        self.come_with_checkout()
        os.remove(f"{self.room}/bin/rt")
        self.assertEqual(self.told(*self.run_words(), PATH="/usr/bin:/bin"), (0, ""))
        self.assertTrue(os.path.exists(f"{self.prebuilt}.words"))
        self.assertEqual(self.told("--program", PATH="/usr/bin:/bin"), (0, f"{self.prebuilt}\n"))
        self.assertIn("it is, byte for byte, the program that kit 1 proved from this code", self.told("--version", PATH="/usr/bin:/bin")[1])

    @unittest.skipUnless(os.path.exists(f"{TOP}/crates.txt"), "what is installed builds nothing")
    def test_prebuilt_of_other_code(self) -> None:
        """It runs only where nothing can be built."""
        self.come_with_checkout()
        self.write(self.source, "fn main() { 1; }\n")
        code, text = self.told(*self.run_words(), PATH="/usr/bin:/bin")
        self.assertEqual((code, text.split(".")[0]), (0, "rendapil: the program that is there runs"))
        self.assertEqual(self.told(*self.run_words())[0], 0)
        self.assertTrue(self.was_called("quick"))

    @unittest.skipUnless(os.path.exists(f"{TOP}/crates.txt"), "what is installed builds nothing")
    def test_prebuilt_that_cannot_run(self) -> None:
        """A file that is cut, foreign or not executable is told and never run: the program is built, or the command ends where it can't be."""
        self.come_with_checkout()
        whole = Path(self.prebuilt).read_bytes()
        for octets, mode, why in (
            (whole[:-1], 0o755, "isn't the program that"),
            (b"\x7fELF", 0o755, "isn't the program that"),
            (whole, 0o644, "may not be run: chmod +x "),
        ):
            self.write(self.prebuilt, octets)
            os.chmod(self.prebuilt, mode)
            code, text = self.told(*self.run_words(), PATH="/usr/bin:/bin")
            self.assertEqual((code, text.count("\n")), (70, 2), text)
            self.assertIn(f"rendapil: prebuilt/x86_64-linux/gateway_program {why}", text)
            code, text = self.told(*self.run_words())
            self.assertEqual((code, text.count("\n")), (0, 4), text)
            self.assertIn(". So the program is built\n", text)
            shutil.rmtree(os.path.dirname(self.program))
        self.assertFalse(os.path.exists(f"{self.prebuilt}.words"))

    def test_systems(self) -> None:
        """On which systems the program that comes with the checkout runs."""
        linux = ("Linux", "", "", "", "x86_64")
        for system, library, is_fine in (
            (linux, "glibc 2.36", True),
            (linux, "glibc 2.34", True),
            (linux, "glibc 2.100", True),
            (linux, "glibc 2.31", False),
            (linux, "", False),
            (("Linux", "", "", "", "aarch64"), "glibc 2.36", False),
            (("Darwin", "", "", "", "x86_64"), "", False),
        ):
            with mock.patch("os.uname", lambda: os.uname_result(system)), mock.patch("os.confstr", lambda _: library):
                self.assertEqual(not program.fault_of_system(Path("prebuilt")), is_fine, (system, library))

    def test_build(self) -> None:
        """It says whether it made the file that comes with the checkout."""
        self.come_with_checkout()
        code, text = self.told("build")
        self.assertEqual((code, self.was_called("quick")), (0, True))
        self.assertIn("rendapil: prebuilt/x86_64-linux/gateway_program is not the same file, byte for byte\n", text)
        shutil.copy(self.program, self.prebuilt)
        self.assertIn("rendapil: prebuilt/x86_64-linux/gateway_program is the same file, byte for byte\n", self.told("build")[1])

    def test_ways_to_call_it(self) -> None:
        """It finds its folder where a link to it is called, runs by sh, and says where it stands alone."""
        os.symlink(f"{self.top}/rendapil", f"{self.room}/gate")
        with open(f"{TOP}/VERSION", encoding="ascii") as file:
            version = f"rendapil {file.read()}"
        for words in ([f"{self.room}/gate"], ["sh", f"{self.top}/rendapil"], ["bash", "--posix", f"{self.top}/rendapil"]):
            code, text = said(*words, "--version")
            self.assertEqual((code, text[: len(version)]), (0, version))
        shutil.copy(f"{self.top}/rendapil", f"{self.room}/alone")
        self.assertEqual(said(f"{self.room}/alone", "--version")[0], 70)

    def test_interrupted_alone(self) -> None:
        """SIGINT to the command without its group ends the program too, and then the command by that signal."""
        self.write(self.program, '#!/bin/sh\necho $$ >"$0.started"\nexec sleep 60\n')
        self.note()
        with subprocess.Popen([f"{self.top}/rendapil", *self.run_words()], cwd=self.room, stderr=subprocess.PIPE, start_new_session=True) as process:
            while not os.path.exists(f"{self.program}.started") or not Path(f"{self.program}.started").read_text("ascii"):
                time.sleep(0.05)
            time.sleep(0.2)
            process.send_signal(signal.SIGINT)
            said_last = process.communicate(timeout=20)[1]
        self.assertEqual(process.returncode, -signal.SIGINT)
        self.assertIn(b"signal 2 ended the program", said_last)

    def test_quiet(self) -> None:
        """It leaves out what isn't an error."""
        settings = self.write(f"{self.room}/s.toml", RIGHT + 'fragment = "join"')
        words = self.run_words(settings=settings)
        for way in (["--quiet", *words], [words[0], "-q", *words[1:]]):
            self.assertEqual(self.told(*way), (0, ""))
        self.assertEqual(self.told("--quiet", *self.run_words(left_in="absent"), line="open failed: left_in", status=7)[1].count("\n"), 2)

    def test_old_python(self) -> None:
        """It is told."""
        old = "import sys, runpy; sys.version_info = (3, 10, 0); runpy.run_module('rendapil', run_name='__main__')"
        status, text = said("env", f"PYTHONPATH={self.top}/python", "python3", "-c", old, "--help")
        self.assertEqual((status, text.partition(", ")[0]), (70, "rendapil: this needs Python 3.11"))

    def test_check_holds_nothing_up(self) -> None:
        """A run begins at once, and ends within seconds, though the settings are looked at for ever."""
        self.write(f"{self.top}/python/rendapil/check/settings.py", "import time\ntime.sleep(60)\n")
        begun = time.monotonic()
        self.assertEqual(self.told(*self.run_words(), status=9)[0], 9)
        self.assertLess(time.monotonic() - begun, 20)

    def test_streams(self) -> None:
        """- is standard input or output, where one word alone is it."""
        given, written = self.run_words()[1:4], self.run_words()[4:]
        for change, place in ((("-", *given[1:], *written), 0), ((*given[:2], "-", *written), 2), ((*given, "-", *written[1:]), 3)):
            self.assertEqual(self.told("run", *change), (0, ""))
            with open(f"{self.program}.words", encoding="ascii") as file:
                self.assertEqual(file.read().split()[1 + place], "/dev/stdin" if place < 3 else "/dev/stdout")
        self.assertEqual(self.told("audit", *given, *OUTPUTS[:2], "-", "-"), (0, ""))
        with open(f"{self.program}.words", encoding="ascii") as file:
            self.assertEqual(file.read().split()[6:], ["/dev/stdin", "-"])

    def test_name_that_is_not_utf8(self) -> None:
        """An input with such a name is given to the program by a number."""
        name = self.write(f"{self.room}/\udcff", b"")
        self.assertEqual(self.told(*self.run_words(left_in=name)), (0, ""))
        with open(f"{self.program}.words", encoding="ascii") as file:
            self.assertRegex(file.read().split()[2], "^/dev/fd/[0-9]+$")

    def test_report_alone(self) -> None:
        """Three words behind run are enough."""
        self.assertEqual(self.told(*self.run_words()[:4]), (0, ""))
        with open(f"{self.program}.words", encoding="ascii") as file:
            self.assertEqual(file.read().split()[4:], ["/dev/null", "/dev/null", "-"])
        self.assertEqual(self.told(*self.run_words()[:4], line="write failed: report", status=6), (6, ""))

    def test_lines_and_status_are_the_programs(self) -> None:
        """They come as they are."""
        self.assertEqual(self.told(*self.run_words()), (0, ""))
        self.assertEqual(self.told(*self.run_words(), line="capture left: Stamp at 73", status=4), (4, "capture left: Stamp at 73\n"))
        with open(f"{self.program}.words", encoding="ascii") as file:
            self.assertEqual(file.read().split(), self.run_words())

    def test_reasons(self) -> None:
        """What stands behind the program's line."""
        pcap = struct.pack("<IHHiII", 0xA1B2C3D4, 2, 4, 0, 0, 65535)
        packed = self.write(f"{self.room}/xz", b"\xfd\x37\x7a\x58" + bytes(20))
        empty = self.write(f"{self.room}/empty", b"")
        cooked, torn = (self.write(f"{self.room}/link{link}", pcap + struct.pack("<I", link) + bytes(9)) for link in (113, 1))
        folder = f"{self.room}/folder"
        os.mkdir(folder)
        magic, link = "capture right: Magic at 0", "capture right: Link at 0"
        for changed, line, status, more in (
            ({"left_in": "absent"}, "open failed: left_in", 7, "left_in, absent: No such file or directory"),
            ({"left_in": folder}, "read failed: left_in", 5, f"left_in, {folder}: it is a folder without captures"),
            ({"left_out": "absent/x"}, "open failed: left_out", 7, "left_out, absent/x: No such file or directory"),
            ({"report": "/"}, "open failed: report", 7, "report, /: Is a directory. The outputs in front of it are empty now"),
            ({"right_in": packed}, magic, 4, f"right_in, {packed}: it is packed by xz: xz -dc {packed} >NEW"),
            ({"right_in": INPUTS[0]}, magic, 4, f"right_in, {INPUTS[0]}: it is text. Are the words in their order?"),
            (
                {"right_in": cooked},
                link,
                4,
                f"right_in, {cooked}: it has link type 113, as tcpdump -i any gives it: editcap -F pcap -L -C 16 -T rawip {cooked} NEW",
            ),
            ({"report": "/dev/full"}, "write failed: report", 6, "report, /dev/full: it takes no more. All outputs are cut"),
            ({"left_out": "-", "report": "-"}, "usage: run", 2, "left_out: - can be one input alone, and one output alone. Write ./- for a file"),
            ({"left_in": "-n"}, "usage: run", 2, "left_in: write ./-n for a file"),
            ({"left_in": "a\udcff"}, "usage: run", 2, r"left_in: the name $'a\377' isn't UTF-8"),
            ({"left_in": empty}, "capture left: NoHead at 0", 4, f"left_in, {empty}: it is empty"),
            (
                {"left_in": torn},
                "capture left: Torn at 24",
                4,
                f"left_in, {torn}: it ends within a record. The frames before that went out, and the report has no last line",
            ),
            ({"left_in": "\x1b[2J"}, "open failed: left_in", 7, r"left_in, $'\E[2J': No such file or directory"),
        ):
            self.assertEqual(self.told(*self.run_words(**changed), line=line, status=status), (status, f"{line}\nrendapil: {more}\n"))

    def test_full_disk(self) -> None:
        """An output that takes nothing is said to, with what its disk has free, also where nothing of it is left."""
        for slot, name in (("left_out", "lo"), ("report", "rep")):
            status, told = self.told(*self.run_words(), line=f"write failed: {slot}", status=6)
            self.assertEqual(status, 6)
            self.assertRegex(
                told, rf"^write failed: {slot}\nrendapil: {slot}, {name}: it takes no more. Its disk has \d+ [MG]B free. All outputs are cut\n$"
            )

    @unittest.skipUnless(os.geteuid() == 0, "only root mounts an overlay")
    def test_one_file_of_an_overlay(self) -> None:
        """An input by the merged folder is an output by the lower or the upper one, under another device number: it stays as it is."""
        lower, upper, work, merged = (os.path.join(self.room, name) for name in ("lower", "upper", "work", "merged"))
        for name in (lower, upper, work, merged):
            os.mkdir(name)
        for layer in (lower, upper):
            self.write(f"{layer}/{os.path.basename(layer)}.pcap", b"kept")
        options = f"lowerdir={lower},upperdir={upper},workdir={work}"
        subprocess.run(["mount", "-t", "overlay", "overlay", "-o", options, merged], check=True)
        self.addCleanup(lambda: subprocess.run(["umount", merged], check=True))
        for layer in (lower, upper):
            name = f"{os.path.basename(layer)}.pcap"
            code, text = self.told(*self.run_words(left_in=f"{merged}/{name}", left_out=f"{layer}/{name}"))
            self.assertEqual((code, text.splitlines()[0]), (7, "open failed: left_out"), text)
            self.assertEqual(Path(f"{layer}/{name}").read_bytes(), b"kept")

    def test_one_file_for_two_words(self) -> None:
        """An output that another word names too is refused, and what is there stays."""
        kept = self.write(f"{self.room}/kept", b"kept")
        os.link(kept, f"{self.room}/hard")
        os.symlink(kept, f"{self.room}/soft")
        for changed, slots in (
            ({"left_in": kept, "left_out": "kept"}, "left_out and left_in"),
            ({"right_in": kept, "left_out": "hard"}, "left_out and right_in"),
            ({"settings": kept, "report": "soft"}, "report and settings"),
            ({"left_out": "new", "right_out": "./new"}, "right_out and left_out"),
        ):
            code, text = self.told(*self.run_words(**changed))
            self.assertEqual((code, text.splitlines()[0]), (7, f"open failed: {slots.split()[0]}"))
            self.assertIn(f"rendapil: {slots} are one file", text)
        with open(kept, "rb") as file:
            self.assertEqual(file.read(), b"kept")
        self.assertFalse(os.path.exists(f"{self.program}.words"))
        code, text = self.told("audit", *INPUTS, *OUTPUTS, OUTPUTS[2])
        self.assertEqual((code, text.splitlines()[0]), (7, "open failed: report"))
        self.assertEqual(self.told(*self.run_words(left_out="/dev/null", right_out="/dev/null", report="/dev/null")), (0, ""))

    def test_two_runs_into_one_output(self) -> None:
        """A run into an output of a run that goes on is refused, and leaves nothing behind."""
        self.write(self.program, '#!/bin/sh\ncat "$3" >/dev/null\nexit ${STATUS:-0}\n')
        self.note()
        waits = f"{self.room}/waits"
        os.mkfifo(waits)
        names = {"PATH": f"{self.room}/bin:{os.environ['PATH']}", "LINE": "", "STATUS": "0"}
        first = subprocess.Popen(
            [f"{self.top}/rendapil", *self.run_words(left_in=waits, right_out="shared")], env={**os.environ, **names}, cwd=self.room
        )
        with open(waits, "wb"):  # it is open as soon as the first run reads
            code, text = self.told(*self.run_words(left_out="other", right_out="shared", report="another"))
            self.assertEqual((code, text.splitlines()[0]), (7, "open failed: right_out"))
            self.assertIn("another run writes right_out, shared", text)
            self.assertEqual([name for name in ("other", "another") if os.path.exists(f"{self.room}/{name}")], [])
        self.assertEqual(first.wait(10), 0)
        self.assertEqual(self.told(*self.run_words(right_out="shared")), (0, ""))

    def test_warnings_of_settings(self) -> None:
        """Keys that aren't known are told, and the run goes on."""
        settings = self.write(f"{self.room}/s.toml", RIGHT + 'fragment = "join"')
        more = f"rendapil: {settings}: fragment isn't known, and is ignored: is fragments meant?\n"
        self.assertEqual(self.told(*self.run_words(settings=settings)), (0, more))

    def test_little_passed(self) -> None:
        """Where most frames were refused it says so."""
        for last in ("done events=3 passed=1 refused=2 to_left=0 to_right=1 pending=0", '{"done":{"events":3,"passed":1,"refused":2,"to_left":0}}'):
            report = self.write(f"{self.room}/rep", f"1 left 1 NotIpv4 0\n{last}\n")
            self.assertIn("2 of 3 frames were refused", self.told(*self.run_words(report=report))[1])
        report = self.write(f"{self.room}/rep", "done events=3 passed=2 refused=1 to_left=0 to_right=1 pending=0\n")
        self.assertEqual(self.told(*self.run_words(report=report)), (0, ""))
