#!/usr/bin/env python3
"""Gathers the range texts and versions of real packages, for tools/compare.sh.

real-texts DIRECTORY reads the Debian packages that were downloaded into the directory: each
package.json of a node-* package, and each Cargo.toml of a librust-* package. It writes the texts of
their dependencies and their versions, each once, to the files npm.texts, npm.versions, cargo.texts
and cargo.versions there.

real-texts DIRECTORY PLACE.. reads each package.json and Cargo.toml below these places instead.
"""

import json
import pathlib
import subprocess
import sys
import tomllib

NPM = ("dependencies", "devDependencies", "peerDependencies", "optionalDependencies", "engines")
CARGO = ("dependencies", "dev-dependencies", "build-dependencies")


def of_npm(file):
    """Returns the range texts and the version in a package.json."""
    package = json.loads(file.read_text())
    texts = [text for kind in NPM for text in dict(package.get(kind) or {}).values()]
    return texts, package.get("version")


def of_cargo(file):
    """Returns the requirements and the version in a Cargo.toml."""
    manifest = tomllib.loads(file.read_text())
    tables = [manifest, *manifest.get("target", {}).values()]
    asked = [wanted for table in tables for kind in CARGO for wanted in table.get(kind, {}).values()]
    texts = [wanted if isinstance(wanted, str) else wanted.get("version") for wanted in asked]
    return texts, manifest.get("package", {}).get("version")


def unpacked(folder, kind, file_name):
    """Unpacks the packages of a kind, and yields their files of a name."""
    packages = sorted(folder.glob(kind + "-*.deb"))
    for package in packages:
        to = folder / package.stem
        subprocess.run(["dpkg-deb", "-x", package, to], check=True)
        yield from to.rglob(file_name)
    print(f"{len(packages)} packages {kind}-*")


def gather(folder, name, files, read):
    """Writes what some files contain, and prints how much it is."""
    texts, versions, count = set(), set(), 0
    for file in files:
        try:
            found, version = read(file)
        except (OSError, ValueError, TypeError, AttributeError):
            continue
        count += 1
        texts.update(text for text in found if isinstance(text, str) and "\n" not in text)
        versions.update([version] if isinstance(version, str) else [])
    (folder / f"{name}.texts").write_text("".join(text + "\n" for text in sorted(texts)))
    (folder / f"{name}.versions").write_text("".join(text + "\n" for text in sorted(versions)))
    print(f"{count} files of {name}: {len(texts)} texts, {len(versions)} versions")


def main():
    folder, *places = map(pathlib.Path, sys.argv[1:])

    def files(kind, file_name):
        if not places:
            return unpacked(folder, kind, file_name)
        return (file for place in places for file in place.rglob(file_name))

    gather(folder, "npm", files("node", "package.json"), of_npm)
    gather(folder, "cargo", files("librust", "Cargo.toml"), of_cargo)


main()
