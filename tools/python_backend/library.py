"""Builds the shared library with cargo, and determines from its bytes which systems it is for."""

import json
import os
import platform
import re
import shutil
import struct
import subprocess
import sys
import sysconfig
from pathlib import Path

from .project import TOP, version

# What cargo builds the library from. The module for WebAssembly isn't part of it.
SOURCES = ("Cargo.toml", "rust")
LEFT_OUT = ("target", "wasm", "Cargo.lock")

# On Linux the library needs only the C library, like the one that `make` builds. On other systems
# Rust's std determines what is linked.
OF_LINUX = ["--no-default-features", "--", "-Clink-arg=-lc", "-Clink-arg=-Wl,-z,defs"]

# The oldest GNU C library that a wheel's tag can name, and the libraries that come with it.
OLDEST = (2, 5)
OF_SYSTEM = rb"(libc|libm|libpthread|libdl|librt|libgcc_s|ld-linux.*)\.so\.\d+"

# The names of processors in tags, by their numbers in ELF and Mach-O files.
OF_ELF = {
    3: "i686",
    21: "ppc64le",
    22: "s390x",
    40: "armv7l",
    62: "x86_64",
    183: "aarch64",
    243: "riscv64",
    258: "loongarch64",
}
OF_MACHO = {0x01000007: "x86_64", 0x0100000C: "arm64"}

# The oldest macOS that rustc builds for.
OLDEST_MACOS = {"x86_64": (10, 12), "arm64": (11, 0)}

DYNAMIC, NEEDED = 6, 1

WHERE_CARGO_IS = (
    "(rustup; Debian 12: apt-get install cargo-web; from Debian 13 on: apt-get install cargo)"
)


class CannotBuild(Exception):
    """Why there is no library, in one sentence."""


# ---- building it


def require_tools():
    """Raises an error if cargo, rustc or a linker isn't there, or if cargo is too old."""
    oldest = oldest_cargo()
    for name in ("cargo", "rustc"):
        if shutil.which(command_of(name)) is None:
            raise CannotBuild(
                f"the library is built by the command {name}, {oldest} or later, which isn't there "
                f"{WHERE_CARGO_IS}"
            )
    run = subprocess.run([command_of("cargo"), "--version"], capture_output=True, check=False)
    found = re.match(rb"cargo (1\.(\d+)\S*)", run.stdout)
    if found and int(found[2]) < int(oldest.split(".")[1]):
        raise CannotBuild(
            f"the library is built by cargo {oldest} or later, and the command cargo is "
            f"{found[1].decode()} {WHERE_CARGO_IS}"
        )
    if sys.platform == "linux" and shutil.which("cc") is None and not has_other_linker():
        raise CannotBuild(
            "the library is linked by the command cc, which isn't there "
            "(Debian: apt-get install gcc libc6-dev)"
        )


def oldest_cargo():
    """Returns the oldest version of cargo that can build the library, as cargo itself reads it."""
    manifest = (TOP / "rust/capi/Cargo.toml").read_text(encoding="utf-8")
    return re.findall(r'^rust-version = "(.*)"$', manifest, re.M)[0]


def has_other_linker():
    """Returns whether a variable or a setting of cargo names a linker."""
    home = Path(os.environ.get("CARGO_HOME") or Path.home() / ".cargo")
    files = [it for it in (home / "config.toml", home / "config") if it.is_file()]
    settings = [it.read_text(encoding="utf-8") for it in files]
    variables = [f"{name}={value}" for name, value in os.environ.items()]
    return bool(re.search("^ *linker|LINKER=|linker=", "\n".join(settings + variables), re.M))


def command_of(name):
    """Returns the command for cargo or rustc, which a variable of cargo can name."""
    return os.environ.get(name.upper()) or name


def build(directory):
    """Builds the library with cargo from a copy of its sources in an empty directory, so that
    nothing is written to the repository. Returns the path of the library."""
    require_tools()
    for name in SOURCES:
        if (TOP / name).is_dir():
            shutil.copytree(TOP / name, directory / name, ignore=shutil.ignore_patterns(*LEFT_OUT))
        else:
            shutil.copy(TOP / name, directory)
    command = [command_of("cargo"), "rustc", "--quiet", "--release", "--offline", "--lib"]
    command += ["--crate-type", "cdylib", "--package", "semver-parser-capi"]
    command += ["--manifest-path", str(directory / "Cargo.toml")]
    command += ["--target-dir", str(directory / "target")]
    command += ["--config", "profile.release.strip=true"]
    command += ["--message-format", "json-render-diagnostics"]
    command += OF_LINUX if sys.platform == "linux" else []
    ended = subprocess.run(command, env=variables(directory), stdout=subprocess.PIPE, check=False)
    if ended.returncode:
        raise CannotBuild("cargo could not build the library; what it wrote is above")
    return library_among(ended.stdout)


def variables(directory):
    """Returns the environment for cargo. What it builds doesn't contain the paths of the copy and
    of the toolchain, so the same sources make the same bytes."""
    inherited = dict(os.environ)
    flags = inherited.pop("RUSTFLAGS", "").split()
    if inherited.get("CARGO_ENCODED_RUSTFLAGS"):
        flags = inherited["CARGO_ENCODED_RUSTFLAGS"].split("\x1f")
    rustc = [command_of("rustc"), "--print", "sysroot"]
    found = subprocess.run(rustc, stdout=subprocess.PIPE, text=True, check=False)
    flags += [f"--remap-path-prefix={directory}=."]
    flags += [f"--remap-path-prefix={Path(found.stdout.strip())}/lib/rustlib/src/rust=/rust"]
    return {**inherited, "CARGO_ENCODED_RUSTFLAGS": "\x1f".join(flags)}


def library_among(messages):
    """Returns the path of the library from cargo's messages about the files that it made."""
    made = (json.loads(line) for line in messages.splitlines())
    files = [Path(file) for it in made for file in it.get("filenames", ())]
    return next(it for it in files if it.suffix in (".so", ".dylib", ".dll"))


# ---- which systems it is for


def platform_and_name(library):
    """Returns the tag of the platforms that a library is for, and the file name that the package
    looks for there."""
    data = library.read_bytes()
    if data.startswith(b"\x7fELF"):
        return linux_platform(library, data), f"libsemver_parser.so.{version().split('.')[0]}"
    if data.startswith(b"MZ"):
        return re.sub(r"[-.]", "_", sysconfig.get_platform()), "semver_parser.dll"
    if data.startswith(b"\xcf\xfa\xed\xfe"):
        return macos_platform(data), "libsemver_parser.dylib"
    raise CannotBuild(f"{library} is not a shared library")


def linux_platform(library, data):
    """Returns the tag of the Linux systems that an ELF file is for. It has the version of the GNU C
    library that the file needs; if the file needs more than that library, it has no version."""
    order = "<" if data[5] == 1 else ">"
    [number] = struct.unpack_from(f"{order}H", data, 18)
    if number not in OF_ELF:
        raise CannotBuild(f"{library} is for a processor that has no tag (ELF machine {number})")
    needed, names = needs_of_elf(data, order)
    if not all(re.fullmatch(OF_SYSTEM, it) for it in needed):
        return f"linux_{OF_ELF[number]}"
    versions = re.findall(rb"GLIBC_(\d+)\.(\d+)", names)
    major, minor = max([OLDEST, *((int(one), int(other)) for one, other in versions)])
    return f"manylinux_{major}_{minor}_{OF_ELF[number]}"


def needs_of_elf(data, order):
    """Returns the libraries that an ELF file needs, and its table of names, which also has the
    versions that it needs of these."""
    is_wide = data[4] == 2
    header, entry = ("IIQQQQII", "qQ") if is_wide else ("IIIIIIII", "iI")
    [start] = struct.unpack_from(order + ("Q" if is_wide else "I"), data, 40 if is_wide else 32)
    size, count = struct.unpack_from(f"{order}HH", data, 58 if is_wide else 46)
    sections = [struct.unpack_from(order + header, data, start + size * n) for n in range(count)]
    for _, kind, _, _, offset, length, link, _ in sections:
        if kind == DYNAMIC:
            _, _, _, _, at, of_names, _, _ = sections[link]
            names = data[at : at + of_names]
            entries = struct.iter_unpack(order + entry, data[offset : offset + length])
            return [names[it:].split(b"\0", 1)[0] for tag, it in entries if tag == NEEDED], names
    return [], b""


def macos_platform(data):
    """Returns the tag of the macOS that a Mach-O file is for. Python's own build may be for two
    processors and for an older system than the library."""
    [number] = struct.unpack_from("<I", data, 4)
    processor = OF_MACHO.get(number, platform.machine())
    _, of_python, _ = sysconfig.get_platform().split("-")
    oldest = tuple(map(int, (of_python + ".0").split(".")[:2]))
    major, minor = max(oldest, OLDEST_MACOS.get(processor, oldest))
    return f"macosx_{major}_{minor}_{processor}"
