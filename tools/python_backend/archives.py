"""The archives that are published: wheels, and an sdist with the sources in Rust."""

import base64
import gzip
import hashlib
import io
import os
import tarfile
import zipfile

from .library import LEFT_OUT, SOURCES, platform_and_name
from .project import (
    LICENSES,
    PYTHON,
    TOP,
    file_name,
    info_directory,
    info_files,
    metadata,
    module_files,
)

# What an sdist has besides the package and the sources in Rust.
OF_SDIST = ("pyproject.toml", "tools/python_backend", "python/README.md", "python/semver_parser")

# The time of each file of an archive: the first one that a zip file can have.
FIRST = 315532800


def write_wheel(project, library, directory, modules):
    """Writes the wheel with some modules for the platform of a library. It is the same byte for
    byte if its files are. Returns its name."""
    of_platform, name_of_library = platform_and_name(library)
    tag = f"py3-none-{of_platform}"
    info = info_directory(project)
    about = ["Wheel-Version: 1.0", "Generator: python_backend", "Root-Is-Purelib: false"]
    contents = [*modules(library, name_of_library), *info_files(project)]
    contents.append((f"{info}/WHEEL", "\n".join([*about, f"Tag: {tag}", ""]).encode()))
    contents.sort()
    contents.append((f"{info}/RECORD", record_of(contents, info)))
    name = f"{file_name(project)}-{tag}.whl"
    half = directory / f".{name}.{os.getpid()}"
    write_zip(half, contents)
    half.replace(directory / name)
    return name


def whole(library, name):
    """Returns the files of the package with the library inside: paths and bytes."""
    return [*module_files(), (f"semver_parser/{name}", library.read_bytes())]


def in_place(library, name):
    """Puts the library next to the modules in the repository. Returns the file that makes Python
    look for them there."""
    half = PYTHON / "semver_parser" / f".{name}.{os.getpid()}"
    half.write_bytes(library.read_bytes())
    half.replace(PYTHON / "semver_parser" / name)
    return [("semver_parser_proved.pth", f"{PYTHON}\n".encode())]


def record_of(contents, info):
    """Returns the file RECORD: the path, checksum and size of each file."""
    lines = []
    for path, data in contents:
        digest = base64.urlsafe_b64encode(hashlib.sha256(data).digest()).rstrip(b"=").decode()
        lines.append(f"{path},sha256={digest},{len(data)}")
    return "\n".join([*lines, f"{info}/RECORD,,", ""]).encode()


def write_zip(path, contents):
    """Writes the files, each with the same time and permissions."""
    with zipfile.ZipFile(path, "w", zipfile.ZIP_DEFLATED) as archive:
        for name, data in contents:
            entry = zipfile.ZipInfo(name)
            entry.create_system = 3  # so that the permissions count, wherever it is made
            entry.compress_type = zipfile.ZIP_DEFLATED
            entry.external_attr = 0o100644 << 16
            archive.writestr(entry, data)


def write_sdist(project, directory):
    """Writes the sdist, from which a wheel can be built. Returns its name."""
    base = file_name(project)
    half = directory / f".{base}.tar.gz.{os.getpid()}"
    with half.open("wb") as file, gzip.GzipFile("", "wb", fileobj=file, mtime=0) as packed:
        with tarfile.open(fileobj=packed, mode="w", format=tarfile.PAX_FORMAT) as archive:
            for path, data in sdist_files(project):
                entry = tarfile.TarInfo(f"{base}/{path}")
                entry.size, entry.mtime, entry.mode = len(data), FIRST, 0o644
                archive.addfile(entry, io.BytesIO(data))
    half.replace(directory / f"{base}.tar.gz")
    return f"{base}.tar.gz"


def sdist_files(project):
    """Yields the files of the sdist: paths and bytes."""
    yield "PKG-INFO", metadata(project).encode()
    for name in (*LICENSES, *OF_SDIST, *SOURCES):
        below = TOP / name
        for file in sorted(below.rglob("*")) if below.is_dir() else [below]:
            path = file.relative_to(TOP)
            if file.is_file() and not is_made(path):
                yield path.as_posix(), file.read_bytes()


def is_made(path):
    """Returns whether a file of the repository was made by a build, or isn't needed by one."""
    is_built = {*LEFT_OUT, "__pycache__"}.intersection(path.parts)
    return bool(is_built) or path.suffix in (".dylib", ".dll") or ".so" in path.suffixes
