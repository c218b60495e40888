"""What `check` finds."""
import os
import tempfile
import unittest

from testing import CHECK, INPUTS, LIVE, MERGER, PROGRAM, RIGHT, TOP, said

from rendapil.files import plain, shown  # testing says where it is

FAULTS = (
    ("left = 5", "Kind left"),
    (RIGHT.replace('"raw"', '"Raw"'), "Kind left.link"),
    (RIGHT.replace('"192.168.200.1"', '"192.168.200.01"'), "BadAddress left.pool_first"),
    (RIGHT.replace('"192.168.200.1"', '"127.0.0.1"'), "BadAddress left.pool_first"),
    (RIGHT.replace("pool_first", "pool_frist"), "Missing left.pool_first"),
    (RIGHT.replace('"172.16.9.254"', '"172.16.8.254"'), "PoolSize right"),
    (RIGHT + 'same = ["203.0.113.9/24"]', "BadAddress same"),
    (RIGHT + 'same = ["0.0.0.0/0"]', "SameInPool left"),
    (RIGHT + 'fragments = "joins"', "Kind fragments"),
    (RIGHT + "static = [{}, 5]", "Kind static"),
    (RIGHT + '[static]\nside = "left"', "Kind static"),
    (RIGHT + '[[static]]\nside = "left"\nhost = "10.0.0.5"', "Missing static.1.alias"),
    (RIGHT + '[[static]]\nside = "left"\nhost = "10.0.0.5"\nalias = "192.168.200.1"', "StaticOutsidePool static.1"),
    (RIGHT + '[[static]]\nside = "right"\nhost = "172.16.9.5"\nalias = "192.168.200.1"', "HostInPool static.1"),
    (RIGHT + 2 * '[[static]]\nside = "right"\nhost = "10.0.0.5"\nalias = "192.168.200.1"\n', "StaticRepeated static.2"),
    (RIGHT + '[[oid]]\nprefix = "1.40"\nskip = 1', "Kind oid.1.prefix"),
    (RIGHT + '[[oid]]\nprefix = "1.3"\nskip = true', "Kind oid.1.skip"),
    (RIGHT.replace('link = "raw" }\nright', 'link = "ethernet" }\nright'), "MacMissing left"),
    (RIGHT.replace('"raw"', '"raw', 1), "NotToml"),
    (RIGHT + "skip = 9223372036854775808", "NotToml"),
    (RIGHT, ""),
)


class Check(unittest.TestCase):
    """What check finds."""

    def setUp(self) -> None:
        """A file for settings."""
        room = tempfile.TemporaryDirectory()
        self.addCleanup(room.cleanup)
        self.room, self.name = room.name, f"{room.name}/settings.toml"

    def lines_of(self, text: str) -> list[str]:
        """What is said of settings, in short."""
        with open(self.name, "w", encoding="utf-8") as file:
            file.write(text)
        status, told = said(*CHECK, "--brief", self.name)
        self.assertEqual(status, 1 if told else 0)
        return [line.removeprefix(f"{self.name}: ") for line in told.splitlines()]

    def test_faults(self) -> None:
        """The first fault is the program's."""
        if not os.access(PROGRAM, os.X_OK):
            print("tests/run: the program isn't built, so that it isn't asked for its faults")
        for text, fault in FAULTS:
            lines = [line for line in self.lines_of(text) if "is ignored" not in line]
            self.assertEqual(lines[0].split(":")[0] if lines else "", fault)
            if os.access(PROGRAM, os.X_OK):
                status, line = said(PROGRAM, "run", self.name, "/dev/null", "/dev/null", *(f"{self.room}/{number}" for number in range(3)))
                self.assertEqual((status, line), (3, f"settings: {fault}\n") if fault else (4, "capture left: NoHead at 0\n"))

    def test_unknown_keys(self) -> None:
        """Keys that the gateway ignores, with those that are meant."""
        for text, line in (
            (RIGHT + "[[statics]]", "statics isn't known, and is ignored: is static meant?"),
            (RIGHT + 'fragment = "join"', "fragment isn't known, and is ignored: is fragments meant?"),
            (RIGHT + 'sames = ["203.0.113.0/24"]', "sames isn't known, and is ignored: is same meant?"),
            (
                RIGHT + "[[oid]]\nprefix = '1.3'\nskip = 1\nreport = 'json'",
                "oid.1.report isn't known, and is ignored: it belongs in front of all tables",
            ),
            (RIGHT + "elephants = 3", "elephants isn't known, and is ignored"),
            (
                RIGHT.replace('"raw" }\nright', '"raw", next_mca = "02:00:5e:10:00:01" }\nright'),
                "left.next_mca isn't known, and is ignored: is left.next_mac meant?",
            ),
        ):
            self.assertEqual(self.lines_of(text), [line])

    def test_place_of_a_fault(self) -> None:
        """Where the text is no TOML."""
        self.assertEqual(self.lines_of('a = 1\nb = "x\n'), ["NotToml: Illegal character '\\n' (at line 2, column 7)"])
        with open(self.name, "wb") as file:
            file.write(b"a = 1\n# \xff\n")
        self.assertIn("line 2 isn't text in UTF-8", said(*CHECK, self.name)[1])

    def test_files(self) -> None:
        """More settings are checked each; one comes from standard input; one capture isn't enough."""
        with open(self.name, "w", encoding="utf-8") as file:
            file.write(RIGHT + "elephants = 3")
        line = f"{self.name}: elephants isn't known, and is ignored\n"
        self.assertEqual(said(*CHECK, "--brief", INPUTS[0], self.name), (1, line))
        self.assertEqual(said("sh", "-c", f"{TOP}/rendapil check --brief - <{self.name}"), (1, line.replace(self.name, "-")))
        self.assertEqual(said(*CHECK, INPUTS[0], INPUTS[1])[0], 2)

    def test_hostile(self) -> None:
        """Control characters are escaped, names that aren't UTF-8 too, and what would take long is told at once."""
        with open(self.name, "w", encoding="utf-8") as file:
            file.write('"\\u001b[2J" = "x"\n' + RIGHT)
        self.assertEqual(said(*CHECK, "--brief", self.name), (1, f"{self.name}: \\x1b[2J isn't known, and is ignored\n"))
        self.assertEqual(said(*CHECK, "\x1b\udcff"), (1, "rendapil check: \\x1b\\xff: No such file or directory\n"))
        for key in ("a" + ".a" * 500_000, '"a"' + ' . "a"' * 65):
            self.assertEqual(self.lines_of(f"{RIGHT}{key} = 1\n"), ["NotToml: line 4 has a key of more than 64 parts, and isn't read here"])
        lines = self.lines_of("".join(f"k{number} = 1\n" for number in range(60_000)) + RIGHT)
        self.assertEqual((len(lines), lines[-1]), (21, "59980 more keys aren't known, and are ignored"))
        self.assertEqual(len(self.lines_of(RIGHT + "x = " + "1" * 5_000)), 1)

    def test_escapes(self) -> None:
        """Text and octets from outside have no control characters once they are told."""
        for text, told in (("a é", "a é"), ("\x1b[2J\n", "\\x1b[2J\\n"), ("\udcff", "\\xff"), ("\u202e\U000e0001", "\\u202e\\U000e0001")):
            self.assertEqual(shown(text), told)
        self.assertEqual(plain(b"a \x1b\n\xff"), "a \\x1b\\x0a\\xff")
        self.assertEqual(plain(b"a" * 400), "a" * 300 + "… and 100 bytes more")

    def test_unkept_aliases(self) -> None:
        """SNMP messages that tell aliases are minded where a realm has no static, and not by a run."""
        rules = RIGHT + '[[oid]]\nprefix = "1.3.6.1.2.1.4.20.1"\nskip = 1\n'
        left = '[[static]]\nside = "left"\nhost = "10.0.0.5"\nalias = "172.16.9.1"\n'
        right = '[[static]]\nside = "right"\nhost = "10.0.0.5"\nalias = "192.168.200.1"\n'
        for text, bare in (
            (rules, "left and right"),
            (rules + left, "right"),
            (rules + right, "left"),
            (rules + left + right, ""),
            (RIGHT + left, ""),
        ):
            self.assertEqual(self.lines_of(text), [])
            status, told = said(*CHECK, self.name)
            lines = [line for line in told.splitlines() if line.startswith(f"{self.name}: ")]
            self.assertEqual((status, len(lines)), (1, 1) if bare else (0, 0))
            self.assertEqual(
                [line.partition(" hosts, and ")[0] for line in lines], [f"{self.name}: oid: SNMP messages tell aliases of {bare}"] if bare else []
            )

    def test_size_of_a_pool_whose_end_is_first(self) -> None:
        """It has 0 addresses."""
        self.lines_of(RIGHT.replace('"172.16.9.254"', '"172.16.8.254"'))
        status, text = said(*CHECK, self.name)
        self.assertEqual(status, 1)
        self.assertIn("right pool: 172.16.9.1 to 172.16.8.254, 0 addresses for hosts of the left realm, 0 of them fixed\n", text)

    def test_examples(self) -> None:
        """Those of this repository are right, and told."""
        for name in (f"{MERGER}/settings.toml", f"{LIVE}/settings.toml", f"{TOP}/examples/live/settings.toml"):
            status, text = said(*CHECK, name)
            self.assertEqual(status, 0)
            self.assertIn("left pool: 192.168.200.1 to 192.168.200.254, 254 addresses for hosts of the right realm, 3 of them fixed\n", text)
