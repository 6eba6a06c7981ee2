"""Compares check-lock-file with package managers: run.py COUNT SEED CHANGES [TOOL].., with COUNT
worlds for npm and half as many for the others, and so many changes of each. Without changes, only
the files that the tools write are compared. Exits with 1 if something differs that isn't a
choice."""

import importlib
import sys
import tempfile
from pathlib import Path
from typing import List


def main(count: int, seed: int, changes: int, tools: List[str]) -> int:
    """Compares the tools. Returns the status."""
    is_same = True
    with tempfile.TemporaryDirectory() as top:
        for tool in tools:
            share = count if tool == "npm" else (count + 1) // 2
            found = importlib.import_module(tool).run(Path(top), share, seed, changes)
            is_same = found.report() and is_same
    return int(not is_same)


COUNT, SEED, CHANGES = map(int, sys.argv[1:4])
sys.exit(main(COUNT, SEED, CHANGES, sys.argv[4:] or ["npm", "yarn", "cargo"]))
