"""Where the files of the command are: in a checkout, or where it is installed."""
from pathlib import Path

TOP = Path(__file__).resolve().parents[2]
CRATES = TOP / "crates.txt"
IS_CHECKOUT = CRATES.exists()
"""A checkout has the code, and builds the program. What is installed has the program alone."""

INSTALLED = TOP.parents[1] / "libexec/rendapil/gateway_program"
BUILT = TOP / "crates/gateway_program/out/gateway_program"
PREBUILT = TOP / "prebuilt/x86_64-linux/gateway_program"
"""The program where it is installed, where a checkout builds it, and where it comes with the checkout."""

RECORD = TOP / "PROVED-PROGRAM"
"""Which program was proved, of which code, by which kit."""

MADE = BUILT.with_name("gateway_program.made")
"""The same of the program that was built here, and of which proofs if they were checked on this machine."""
