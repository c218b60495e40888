"""Tests of `export`: what it writes for settings, and that nft takes it."""
import json
import os
import shutil
import subprocess
import tempfile
import tomllib
import unittest

from testing import EXPORT, MERGER, RIGHT, TOP, said

STATICS = """
static = [{ side = "left", host = "10.0.0.5", alias = "172.16.9.1" }, { side = "right", host = "10.0.0.5", alias = "192.168.200.100" }]
same = ["203.0.113.0/24", "198.51.100.7/32"]
"""
FULL = """
left = { pool_first = "192.168.200.1", pool_last = "192.168.200.1", link = "raw" }
right = { pool_first = "172.16.9.1", pool_last = "172.16.9.2", link = "raw" }
static = [{ side = "right", host = "10.0.0.5", alias = "192.168.200.1" }]
"""


class Export(unittest.TestCase):
    """The rules."""

    def setUp(self) -> None:
        self.room = tempfile.TemporaryDirectory()
        self.addCleanup(self.room.cleanup)

    def written(self, kind: str, settings: str, *options: str) -> str:
        """What is written for settings."""
        path = os.path.join(self.room.name, "settings.toml")
        with open(path, "w", encoding="utf-8") as file:
            file.write(settings)
        status, text = said(*EXPORT, kind, path, *options)
        self.assertEqual(status, 0, text)
        return text

    def test_nftables(self) -> None:
        text = self.written("nftables", RIGHT + STATICS, "--left", "gl", "--right", "gr")
        for line in (
            'define left = "gl"',
            "elements = { 192.168.200.100 : 10.0.0.5 }",
            "elements = { 10.0.0.5 : 172.16.9.1 }",
            "ip daddr @same accept",
            "iifname $left snat to 172.16.9.2-172.16.9.254 persistent",
            "iifname $right snat to 192.168.200.101-192.168.200.254 persistent",
            "iifname $left ip saddr 192.168.200.1-192.168.200.254 drop",
            "# - DNS:",
        ):
            self.assertIn(line, text)

    def test_full_pool(self) -> None:
        """Where each alias has a host, there is none for others."""
        text = self.written("nftables", FULL)
        self.assertNotIn("iifname $right snat to 192", text)
        self.assertIn("iifname $left snat to 172.16.9.1-172.16.9.2 persistent", text)
        self.assertNotIn("@same", text)

    def test_iproute2(self) -> None:
        text = self.written("iproute2", RIGHT, "--right-via", "10.9.9.1", "--table", "7")
        for line in (
            "ip rule add pref 7 iif eth0 lookup 7",
            "ip route replace default via 10.9.9.1 dev eth1 table 7",
            "ip route replace default dev eth0 scope link table 8",
        ):
            self.assertIn(line, text)
        self.assertEqual(subprocess.run(["sh", "-n"], input=text, text=True, check=False).returncode, 0)

    def test_other_routers(self) -> None:
        """Statics alone, and marked as untried."""
        for kind, wanted in (
            ("cisco", ["ip nat inside source static 10.0.0.5 172.16.9.1", "ip nat outside source static 10.0.0.5 192.168.200.100"]),
            (
                "junos",
                [
                    "set security nat static rule-set left-hosts rule r1 match destination-address 172.16.9.1/32",
                    "set security nat static rule-set right-hosts rule r1 then static-nat prefix 10.0.0.5/32",
                ],
            ),
        ):
            text = self.written(kind, RIGHT + STATICS)
            self.assertEqual([line for line in wanted if line not in text.splitlines()], [])
            self.assertRegex(text.splitlines()[1], "^[!#] UNTRIED: ")

    def imported(self, ruleset: object, *options: str) -> tuple[int, str]:
        """Status and output of an import."""
        path = os.path.join(self.room.name, "rules.json")
        with open(path, "w", encoding="utf-8") as file:
            file.write(ruleset if isinstance(ruleset, str) else json.dumps(ruleset))
        return said(f"{TOP}/rendapil", "import", "nftables", path, *options)

    def test_import(self) -> None:
        """Static translations by maps and by single rules, of devices by name."""
        daddr = {"payload": {"protocol": "ip", "field": "daddr"}}
        rules = [
            {"map": {"name": "hosts", "elem": [["192.168.200.7", "10.0.0.7"], [{"elem": {"val": "192.168.200.8"}}, "10.0.0.8"], ["fe80::1", "x"]]}},
            {
                "rule": {
                    "expr": [
                        {"match": {"op": "==", "left": {"meta": {"key": "iifname"}}, "right": "gl"}},
                        {"dnat": {"addr": {"map": {"key": daddr, "data": "@hosts"}}}},
                    ]
                }
            },
            {
                "rule": {
                    "expr": [
                        {"match": {"left": {"meta": {"key": "iifname"}}, "right": "gr"}},
                        {"match": {"left": daddr, "right": "172.16.9.200"}},
                        {"dnat": {"addr": "10.0.0.5"}},
                    ]
                }
            },
            {"rule": {"expr": [{"match": {"left": {"meta": {"key": "iifname"}}, "right": "other"}}, {"dnat": {"addr": "10.0.0.5"}}]}},
        ]
        status, text = self.imported({"nftables": rules}, "--left", "gl", "--right", "gr")
        settings = tomllib.loads(text)
        self.assertEqual(
            (status, {(row["side"], row["host"], row["alias"]) for row in settings["static"]}),
            (0, {("right", "10.0.0.7", "192.168.200.7"), ("right", "10.0.0.8", "192.168.200.8"), ("left", "10.0.0.5", "172.16.9.200")}),
        )
        self.assertEqual((settings["left"]["pool_first"], settings["left"]["pool_last"]), ("192.168.200.1", "192.168.200.14"))
        self.assertIn("# 1 rules with dnat weren't understood", text)
        path = os.path.join(self.room.name, "settings.toml")
        with open(path, "w", encoding="utf-8") as file:
            file.write(text)
        self.assertEqual(said(f"{TOP}/rendapil", "check", "--brief", path), (0, ""))

    def test_import_of_others(self) -> None:
        """What is no ruleset, or has no such translation, is one line."""
        for text in (
            "",
            "[]",
            "{}",
            '{"nftables": 1}',
            "[" * 100_000,
            "left = 1",
            '{"nftables": [1, {"rule": 2}, {"map": []}, {"rule": {"expr": [3, {"dnat": 4}]}}]}',
        ):
            status, told = self.imported(text)
            self.assertEqual((status, told.count("\n"), told[:17]), (1, 1, "rendapil import: "), told)

    @unittest.skipUnless(
        os.geteuid() == 0 and shutil.which("unshare") and shutil.which("nft"), "nft looks at rules in a network namespace of its own: as root"
    )
    def test_there_and_back(self) -> None:
        """What export writes and nft lists is imported with the same statics."""
        path = os.path.join(self.room.name, "rules.nft")
        with open(path, "w", encoding="utf-8") as file:
            file.write(self.written("nftables", RIGHT + STATICS))
        status, listed = said("unshare", "--net", "sh", "-c", f"nft -f {path} && nft -j list ruleset")
        self.assertEqual(status, 0, listed)
        settings = tomllib.loads(self.imported(listed)[1])
        self.assertEqual(
            {tuple(row.values()) for row in settings["static"]}, {("left", "10.0.0.5", "172.16.9.1"), ("right", "10.0.0.5", "192.168.200.100")}
        )

    def test_words(self) -> None:
        """What can't be meant, and what would be more than a name in a rule."""
        for words in (
            ["nftables"],
            ["ipfw", "x"],
            ["nftables", f"{MERGER}/settings.toml", "--left", "a b"],
            ["nftables", f"{MERGER}/settings.toml", "--left", '"; drop'],
        ):
            self.assertEqual(said(*EXPORT, *words)[0], 2, words)
        self.assertEqual(said(*EXPORT, "nftables", "/nowhere")[0], 1)
        self.assertEqual(said(*EXPORT, "nftables", f"{MERGER}/north.pcap")[0], 1)

    @unittest.skipUnless(
        os.geteuid() == 0 and shutil.which("unshare") and shutil.which("nft"), "nft looks at rules in a network namespace of its own: as root"
    )
    def test_nft_takes_them(self) -> None:
        for settings in (RIGHT, RIGHT + STATICS, FULL):
            path = os.path.join(self.room.name, "rules.nft")
            with open(path, "w", encoding="utf-8") as file:
                file.write(self.written("nftables", settings))
            for _ in range(2):
                self.assertEqual(said("unshare", "--net", "nft", "-f", path), (0, ""))


if __name__ == "__main__":
    unittest.main()
