"""How the programs start. If they can't, for example without the library, they print one line on
standard error."""

import gc
import sys

from .check_lock_file import main as check_main
from .compare_requirements import main as compare_main
from .program import open_output


def refused(program: str, error: ImportError) -> int:
    """Prints in one line what a program needs. Returns the status."""
    open_output()
    what, *lines = str(error).split("\n")
    details = "; ".join(line.strip() for line in lines if line.startswith(" "))
    others = [line for line in lines if not line.startswith(" ")]
    more = f" {details}. {' '.join(others)}" if lines else ""
    print(f"{program}: {what}{more}", file=sys.stderr)
    return 2


def check_lock_file() -> int:
    """Runs `check-lock-file`, and returns its status. The program keeps what it reads until it
    ends, so the garbage collector, which would only scan that again and again, is off."""
    gc.disable()
    try:
        return check_main()
    except ImportError as error:
        return refused("check-lock-file", error)


def compare_requirements() -> int:
    """Runs `compare-requirements`, and returns its status."""
    try:
        return compare_main()
    except ImportError as error:
        return refused("compare-requirements", error)
