#!/usr/bin/env python3
"""tools/proved_program.py --write PROGRAM | --check PROGRAM: PROVED-PROGRAM and the program under prebuilt/ (python/rendapil/program.py)."""
import sys
from pathlib import Path

sys.path.insert(0, str(Path(__file__).resolve().parent.parent / "python"))
from rendapil.program import main  # noqa: E402

sys.exit(main(sys.argv[1:]))
