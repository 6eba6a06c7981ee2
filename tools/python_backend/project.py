"""The contents of pyproject.toml about the package, and the files of a wheel that come from it."""

import ast
import re
from pathlib import Path

TOP = Path(__file__).resolve().parents[2]
PYTHON = TOP / "python"
LICENSES = ("LICENSE-APACHE", "LICENSE-MIT")

CONSTANTS = {"true": True, "false": False}


def tables_of(text):
    """Returns the tables of a text of TOML whose values are strings, true, false or arrays of
    strings. Python has a TOML parser only since 3.11, and the package supports 3.9."""
    tables = {}
    table, lines = tables, iter(text.splitlines())
    for line in lines:
        header = re.fullmatch(r"(\[\[?)([\w.-]+)\]\]?", line)
        if header:
            table = table_at(tables, header[2].split("."), header[1] == "[[")
        elif line and not line.startswith("#"):
            key, value = line.split(" = ", 1)
            while value.startswith("[") and not value.endswith("]"):
                value += "\n" + next(lines)
            known = value in CONSTANTS
            table[key.strip('"')] = CONSTANTS[value] if known else ast.literal_eval(value)
    return tables


def table_at(tables, names, is_of_array):
    """Returns the table of a header, which is added: [a.b], or a further one of [[a.b]]."""
    *outer, last = names
    for name in outer:
        tables = tables.setdefault(name, {})
    if not is_of_array:
        return tables.setdefault(last, {})
    tables.setdefault(last, []).append({})
    return tables[last][-1]


def read_project():
    """Returns the table `project` of pyproject.toml."""
    return tables_of((TOP / "pyproject.toml").read_text(encoding="utf-8"))["project"]


def version():
    """Returns the version of the package, which is a constant in its code."""
    code = (PYTHON / "semver_parser" / "__init__.py").read_text(encoding="utf-8")
    return re.findall(r'^__version__ = "(.*)"$', code, re.M)[0]


def file_name(project):
    """Returns how the names of a wheel, an sdist and their directories begin."""
    return f"{project['name'].replace('-', '_')}-{version()}"


def info_directory(project):
    """Returns the name of the directory in a wheel that installers read."""
    return f"{file_name(project)}.dist-info"


def metadata(project):
    """Returns the text of METADATA in a wheel, and of PKG-INFO in an sdist."""
    extras = project.get("optional-dependencies", {})
    lines = [
        "Metadata-Version: 2.1",
        f"Name: {project['name']}",
        f"Version: {version()}",
        f"Summary: {project['description']}",
        *(f"Author-email: {it['name']} <{it['email']}>" for it in project["authors"]),
        f"License: {project['license']['text']}",
        *(f"Project-URL: {name}, {url}" for name, url in project["urls"].items()),
        f"Keywords: {','.join(project['keywords'])}",
        *(f"Classifier: {it}" for it in project["classifiers"]),
        f"Requires-Python: {project['requires-python']}",
        "Description-Content-Type: text/markdown",
        *(f"Requires-Dist: {it}" for it in project["dependencies"]),
        *(f"Provides-Extra: {extra}" for extra in extras),
        *(f'Requires-Dist: {it}; extra == "{extra}"' for extra in extras for it in extras[extra]),
        *(f"License-File: {it}" for it in LICENSES),
        "",
        (TOP / project["readme"]).read_text(encoding="utf-8"),
    ]
    return "\n".join(lines)


def info_files(project):
    """Yields the files for installers that don't depend on the platform: paths and bytes."""
    info = info_directory(project)
    scripts = [f"{script} = {call}" for script, call in project["scripts"].items()]
    yield f"{info}/METADATA", metadata(project).encode()
    yield f"{info}/entry_points.txt", "\n".join(["[console_scripts]", *scripts, ""]).encode()
    for name in LICENSES:
        yield f"{info}/{name}", (TOP / name).read_bytes()


def module_files():
    """Yields the files of the package except the shared library: paths and bytes."""
    package = PYTHON / "semver_parser"
    for file in [*package.rglob("*.py"), *package.rglob("py.typed")]:
        yield file.relative_to(PYTHON).as_posix(), file.read_bytes()
