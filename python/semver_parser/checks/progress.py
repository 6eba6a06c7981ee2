"""A line at a terminal that names the file that is being checked, if this takes more than a
second."""

import shutil
import sys
import threading

from .program import escaped

PATIENCE = 1.0
ERASE = "\r\x1b[K"


class Progress:
    """The line for a number of files."""

    def __init__(self, files: int) -> None:
        self.files, self.text, self.is_shown = files, "", False
        self.timer = threading.Timer(PATIENCE, self.show)
        self.timer.daemon = True
        if sys.stderr.isatty():
            self.timer.start()

    def at(self, number: int, name: str) -> None:
        """Says which file is checked."""
        self.text = f"checking {number} of {self.files}: {escaped(name)}"
        if self.is_shown:
            self.show()

    def show(self) -> None:
        """Writes the line."""
        width = shutil.get_terminal_size().columns - 1
        self.is_shown = True
        print(f"{ERASE}{self.text[:width]}", end="", file=sys.stderr, flush=True)

    def end(self) -> None:
        """Erases the line."""
        self.timer.cancel()
        if self.timer.is_alive():
            self.timer.join()
        if self.is_shown:
            print(ERASE, end="", file=sys.stderr, flush=True)
