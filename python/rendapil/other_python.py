"""Packages of Debian that the Python on the PATH may not have: then Debian's own Python goes on with the command."""
import os
import subprocess
import sys
from functools import lru_cache
from importlib.util import find_spec
from pathlib import Path

DEBIAN = "/usr/bin/python3"


@lru_cache
def debian_has(package: str) -> bool:
    """Whether Debian's Python has a package, and is as new as it has to be."""
    words = [DEBIAN, "-I", "-c", f"import tomllib, {package}"]  # -I: no module of the folder that one is in
    return os.access(DEBIAN, os.X_OK) and not subprocess.run(words, stderr=subprocess.DEVNULL, check=False).returncode


def has(package: str) -> bool:
    """Whether this Python has a package. If not, and if Debian's has it, Debian's Python runs the command in place of this one."""
    if find_spec(package):
        return True
    if "RENDAPIL_PYTHON" not in os.environ and debian_has(package):
        package_folder = Path(__file__).parent
        os.environ |= {"PYTHONSAFEPATH": "1", "PYTHONPATH": str(package_folder.parent), "RENDAPIL_PYTHON": DEBIAN}  # once is enough
        os.execv(DEBIAN, [DEBIAN, str(package_folder / "__main__.py"), *sys.argv[0].split()[1:], *sys.argv[1:]])
    return False
