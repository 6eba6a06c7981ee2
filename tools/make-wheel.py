#!/usr/bin/env python3
"""Makes a wheel of the Python package with the shared library inside.

    tools/make-wheel.py DIRECTORY          builds the library with cargo
    tools/make-wheel.py LIBRARY DIRECTORY  takes a library that was built, even for another system
    tools/make-wheel.py --sdist DIRECTORY  makes an archive of the sources for pip

pip does the same with the repository, by the build backend tools/python_backend. Needs Python 3.9
or later. Prints the name of the file.
"""

import sys
from pathlib import Path

sys.dont_write_bytecode = True
import python_backend  # noqa: E402
from python_backend.archives import whole, write_wheel  # noqa: E402
from python_backend.library import CannotBuild  # noqa: E402
from python_backend.project import read_project  # noqa: E402


def main():
    *library, directory = sys.argv[1:] or [None]
    if directory is None or len(library) > 1:
        sys.exit("usage: make-wheel [LIBRARY | --sdist] DIRECTORY")
    if not library:
        return python_backend.build_wheel(directory)
    if library == ["--sdist"]:
        return python_backend.build_sdist(directory)
    try:
        return write_wheel(read_project(), Path(library[0]), Path(directory), whole)
    except CannotBuild as error:
        sys.exit(f"make-wheel: {error}")


print(main())
