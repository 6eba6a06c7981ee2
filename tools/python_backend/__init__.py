"""The build backend of the Python package, for pip and others (PEP 517, PEP 660). It builds the
shared library with cargo, and needs nothing except cargo and Python 3.9 or later."""

import sys
import tempfile
from pathlib import Path

from . import archives
from .library import CannotBuild, build, require_tools
from .project import info_directory, info_files, read_project


def needed(config_settings=None):
    """Returns what pip has to install for a build, which is nothing. Exits if a tool is missing that
    pip can't install."""
    try:
        require_tools()
    except CannotBuild as error:
        sys.exit(f"semver-parser-proved: {error}")
    return []


get_requires_for_build_wheel = get_requires_for_build_editable = needed


def get_requires_for_build_sdist(config_settings=None):
    """Returns what pip has to install for an archive of the sources, which is nothing."""
    return []


def prepare_metadata_for_build_wheel(metadata_directory, config_settings=None):
    """Writes the metadata for installers, which needs no library. Returns the name of its
    directory."""
    project = read_project()
    for path, data in info_files(project):
        file = Path(metadata_directory) / path
        file.parent.mkdir(exist_ok=True)
        file.write_bytes(data)
    return info_directory(project)


prepare_metadata_for_build_editable = prepare_metadata_for_build_wheel


def wheel_of(wheel_directory, modules):
    """Builds the library, and writes a wheel. Returns its name."""
    with tempfile.TemporaryDirectory() as directory:
        try:
            library = build(Path(directory).resolve())
            return archives.write_wheel(read_project(), library, Path(wheel_directory), modules)
        except CannotBuild as error:
            sys.exit(f"semver-parser-proved: {error}")


def build_wheel(wheel_directory, config_settings=None, metadata_directory=None):
    """Writes the wheel of the package with the library inside. Returns its name."""
    return wheel_of(wheel_directory, archives.whole)


def build_editable(wheel_directory, config_settings=None, metadata_directory=None):
    """Writes a wheel by which Python finds the package in the repository, and puts the library next
    to the modules there. Returns its name."""
    return wheel_of(wheel_directory, archives.in_place)


def build_sdist(sdist_directory, config_settings=None):
    """Writes an archive of the sources. Returns its name."""
    return archives.write_sdist(read_project(), Path(sdist_directory))
