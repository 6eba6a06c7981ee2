#!/usr/bin/env python3
"""Writes the manual pages into a directory.

    tools/make-manuals.py VERSION DATE DIRECTORY

They are made from the pages in docs/manual, and for each function of the C library from its comment
and prototype in the header. Functions that share a comment share a page, which has the name of the
first one; the others are links to it. The types in the section Name of a page share it, too.

Some links in docs/manual are replaced by what they lead to: the page RANGES, the declarations of
the types in the section Name, and the constants of a type with their comments.
"""

import re
import sys
from pathlib import Path

sys.dont_write_bytecode = True
import roff  # noqa: E402

TOP = Path(__file__).resolve().parents[1]
LINK = re.compile(
    r"^\[(?:(RANGES)|Constants of (\w+)|Declarations in semver_parser\.h)\]\(\S+\)$", re.M
)
# A status, a text in the parameters, and what the status means then. The first row that fits
# applies.
ERRORS = [
    ("INVALID_ARGUMENT", "size_t start",
     "There is no such dialect, or no version of a term begins at `start`."),
    ("INVALID_ARGUMENT", "semver_parser_options ",
     "There is no such dialect or rule for pre-releases, or a reserved field isn't zero."),
    ("INVALID_ARGUMENT", "semver_parser_dialect ", "There is no such dialect."),
    ("INVALID_ARGUMENT", "size_t index", "The index is too large."),
    ("DIFFERENT_DIALECTS", "", "The second range has another dialect than the first."),
    ("DIFFERENT_PRE_RELEASES", "",
     "The second range has the same dialect, and another rule for pre-releases."),
    ("CANNOT_UPGRADE", "", "The raised requirement wouldn't contain the version."),
    ("INVALID_VERSION", "skip_invalid", "A version is invalid, and `skip_invalid` is false."),
    ("INVALID_VERSION", "", "A string is an invalid version in the dialect."),
    ("INVALID_RANGE", "", "The string is not a range in the dialect."),
    ("NUMBER_TOO_LARGE", "",
     "The string is a range, but a number or a raised bound is above the limit of the dialect."),
    ("OUT_OF_MEMORY", "**", "An allocation failed."),
    ("OUT_OF_MEMORY", "",
     "The pointer `error` isn't null, and an allocation failed while it was filled in."),
]
COMMENT = re.compile(r"/\*(.*?)\*/", re.S)
# The declaration of a structure, or of another name for a type.
DECLARATION = r"^(typedef (?:struct \{\n((?:    .*\n)*)\}|.*) (semver_parser_\w+);)$"
# The macros before a prototype tell a compiler how to check calls.
PROTOTYPE = re.compile(
    r"(?:SEMVER_PARSER_\w+(?:\([\d, ]*\))?\s+)?((?:const |static inline )*\w+ \*?)"
    r"(semver_parser_\w+)\(([^)]*)\)(?:;| \{)"
)


def markdown_of(comment):
    """Returns a comment of the header as Markdown, without the list of statuses at its end, which
    has its own section."""
    text = " ".join(line.strip().lstrip("*").strip() for line in comment.strip().split("\n"))
    text = re.sub(r"(?<=[.`]) Errors: (?:[A-Z_]+, )*[A-Z_]{6,}\.$", "", " ".join(text.split()))
    return re.sub(r"(`[^`]*`)|([\\*\[\]<])", lambda it: it[1] or f"\\{it[2]}", text)


def listed(items):
    """Returns a list of tags and their explanations."""
    return "\n\n".join(f"- {tag}\n\n  {text}" for tag, text in items)


def declared(declarations):
    """Returns the section Synopsis with these declarations."""
    return "\n\n".join(["```text\n#include <semver_parser.h>", *declarations]) + "\n```"


# ---- the pages in docs/manual


def names_of(page):
    """Returns the names in the section Name of a page."""
    return re.search(r"^## Name\n\n(.*?) - ", page, re.M | re.S)[1].replace("\n", " ").split(", ")


def declarations(header, names):
    """Returns the declarations of some types, without comments."""
    text = re.sub(r"\n *(?=\n)", "", COMMENT.sub("", header))
    found = {it[2]: it[0] for it in re.findall(DECLARATION, text, re.M)}
    return declared(found[name] for name in names)


def constants(header, name):
    """Returns the constants of a type as a list, each with its comment."""
    [values] = re.findall(rf"^typedef int32_t {name};\nenum \{{\n(.*?)^\}};", header, re.M | re.S)
    found = re.findall(r"/\*(.*?)\*/\s*(\w+) = (\d+)", values, re.S)
    if len(found) != values.count(" = "):
        sys.exit(f"make-manuals: a constant of {name} has no comment")
    return listed((f"`{it}` ({number})", markdown_of(comment)) for comment, it, number in found)


def completed(page, header):
    """Returns a page with what such links lead to."""

    def meant(link):
        if link[1]:
            ranges = (TOP / "rust/docs/RANGES.md").read_text(encoding="utf-8")
            return ranges.partition("\n\n")[2].rstrip()
        return constants(header, link[2]) if link[2] else declarations(header, names_of(page))

    return LINK.sub(meant, page)


# ---- the pages of functions


def functions(header):
    """Yields a comment, and the prototypes after it as type, name and parameters."""
    for comment in COMMENT.finditer(header):
        prototypes, at = [], comment.end()
        while match := PROTOTYPE.match(header, re.compile(r"\s*").match(header, at).end()):
            prototypes.append(match.groups())
            at = match.end()
        if prototypes:
            yield comment[1], prototypes


def synopsis(kind, name, parameters):
    """Returns a prototype, with one parameter in each line."""
    kind = kind.replace("static inline ", "")
    given = [f"    {it}" for it in re.split(r",\s*", parameters.strip())]
    if given == ["    void"]:
        return f"{kind}{name}(void);"
    return f"{kind}{name}(\n" + ",\n".join(given) + ");"


def errors_of(comment, parameters):
    """Yields the statuses that a comment names, the status for invalid options if there are
    options, and out of memory if something is made, or if an error about a string is explained;
    each with what it means here."""
    named = set(re.findall(r"\b[A-Z_]{5,}\b", comment))
    if re.search(r"semver_parser_(options|dialect) ", parameters):
        named.add("INVALID_ARGUMENT")
    if "semver_parser_error *error" not in parameters:
        named &= {"INVALID_ARGUMENT"}
    if "**" in parameters or named & {"INVALID_VERSION", "INVALID_RANGE"}:
        named.add("OUT_OF_MEMORY")
    for error, part, text in ERRORS:
        if error in named and part in parameters:
            named.remove(error)
            yield f"`SEMVER_PARSER_{error}`", text
    if "INVALID_ARGUMENT" in named:
        sys.exit(f"make-manuals: which argument can be invalid of ({parameters})?")


def function_page(comment, prototypes, types):
    """Returns the page of functions that share a comment. `types` has the page of each type."""
    kinds, names, parameters = (" ".join(it) for it in zip(*prototypes))
    names = names.split()
    purpose = re.split(r"[.;:(](?:\s|$)|,? or null| \(", markdown_of(comment.replace("`", "")))[0]
    parts = [f"# {names[0]}(3)", "## Name"]
    parts += [f"{', '.join(names)} - {purpose[0].lower()}{purpose[1:]}"]
    parts += ["## Library", "`libsemver_parser` (`-lsemver_parser`)"]
    parts += ["## Synopsis", declared(synopsis(*it) for it in prototypes)]
    parts += ["## Description", markdown_of(comment)]
    if "semver_parser_status" in kinds:
        parts += ["## Return value", "`SEMVER_PARSER_OK` (0) or the status of an error."
                  " After an error the outputs are unchanged."]
        errors = listed(errors_of(comment, parameters))
        parts += ["## Errors", errors] if errors else []
    rows = [f"| {name}() | Thread safety | MT-Safe |" for name in names]
    rows = ["| Interface | Attribute | Value |", "|---|---|---|", *rows]
    parts += ["## Attributes", "The terms are those of `attributes`(7).", "\n".join(rows)]
    words = re.findall(r"\w+", f"{kinds} {parameters}")
    related = ["semver_parser", *sorted({types[name] for name in words if name in types})]
    related = ", ".join(f"`{name}`(3)" for name in related)
    return "\n\n".join([*parts, "## See also", f"{related}, `semver-ranges`(7)\n"])


# ----


def main():
    if len(sys.argv) != 4:
        sys.exit("usage: tools/make-manuals.py VERSION DATE DIRECTORY")
    version, date, directory = *sys.argv[1:3], Path(sys.argv[3])
    header = (TOP / "rust/capi/include/semver_parser.h").read_text(encoding="utf-8")
    pages, types = {}, {}
    for path in sorted((TOP / "docs/manual").glob("*.md")):
        pages[path.stem] = completed(path.read_text(encoding="utf-8"), header)
        types.update((name, path.stem[:-2]) for name in names_of(pages[path.stem]))
    for comment, prototypes in functions(header):
        pages[f"{prototypes[0][1]}.3"] = function_page(comment, prototypes, types)
    directory.mkdir()
    for name, page in pages.items():
        try:
            made = roff.manual(page, version, date)
        except roff.Unknown as error:
            sys.exit(f"make-manuals: {name}: there is no rule for {error}")
        (directory / name).write_text(made, encoding="utf-8")
        for other in names_of(page)[1:]:
            (directory / f"{other}.{name[-1]}").symlink_to(name)


main()
