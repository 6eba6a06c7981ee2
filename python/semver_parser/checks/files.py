"""Reading files, their notations, and the shapes of their contents."""

import errno
import json
import os
import re
import stat
import sys
from contextlib import contextmanager
from typing import Any, Dict, Iterator, List, NoReturn, Optional

from .toml_text import toml_1_0
from .yaml_events import Repeated, Unusual, documents_by_nodes, documents_of

Entry = Dict[str, Any]

STANDARD_INPUT = "-"

# What git writes before one side of a conflict. No valid file has it.
CONFLICT = re.compile(rb"(?:\A|\n)<<<<<<< ")

# The errors for a path at which there is nothing.
NOWHERE = (errno.ENOENT, errno.ENOTDIR, errno.ENAMETOOLONG)

# A key or a header of TOML with very many parts, for which Python's reader takes very long.
MOST_PARTS = 1000
PART = r"""[ \t]*(?:[\w-]+|"[^"\n]*"|'[^'\n]*')[ \t]*"""
LONG_KEY = re.compile(rf"^[ \t]*\[{{0,2}}(?:{PART}\.){{{MOST_PARTS}}}", re.M)

# How Python's reader of TOML says where an error is.
LINE_OF_TOML = re.compile(r"\(at line (\d+), column \d+\)\Z")

BYTE_ORDER_MARK = b"\xef\xbb\xbf"

# How a text in UTF-16 begins: with a byte order mark, or with an ASCII character, which has a zero
# byte.
UTF_16 = re.compile(rb"\xff\xfe|\xfe\xff|\0[^\0]|[^\0]\0", re.S)


def name_of(path: str) -> str:
    """Returns a file as it is named in lines."""
    return "standard input" if path == STANDARD_INPUT else path


class Refusal(Exception):
    """A file is rejected, why, and at which line, if that is known."""

    def __init__(self, path: str, why: str, line: Optional[int] = None) -> None:
        super().__init__(path, why, line)
        self.path, self.why, self.line = path, why, line

    def __str__(self) -> str:
        return f"{name_of(self.path)}: {self.why}"


def version_stated(file: Entry, field: str = "lockfileVersion") -> str:
    """Returns which version a file has in a field, for a message. A long one is cut off."""
    if field not in file:
        return f"it has no {field}"
    value = json.dumps(file[field])
    return f"its {field} is {value if len(value) <= 40 else value[:40] + '...'}"


class Unreadable(Exception):
    """A text isn't in its notation, why, and at which line, if that is known."""

    def __init__(self, why: str, line: Optional[int] = None) -> None:
        super().__init__(why)
        self.line = line


class WrongShape(Exception):
    """The content of a file doesn't have the shape that it must have, and where."""


def bytes_of(path: str, is_named: bool = False) -> bytes:
    """Returns the content of a file, or of standard input, without a byte order mark. Only a file
    that was named on the command line may be a pipe, since reading one may wait forever."""
    if path != STANDARD_INPUT:
        try:
            if not is_named and stat.S_ISFIFO(os.stat(path).st_mode):
                raise Refusal(path, "it can't be read: it is a pipe")
            with open(path, "rb") as file:
                return unmarked(file.read())
        except ValueError:
            raise Refusal(path, "it can't be read: no file has such a name") from None
    if sys.stdin is None:
        raise Refusal(path, "it can't be read: it is closed")
    return unmarked(sys.stdin.buffer.read())


def unmarked(text: bytes) -> bytes:
    """Returns a text without a byte order mark. UTF-16 is rejected."""
    if UTF_16.match(text):
        raise Unreadable("it is in UTF-16, not in UTF-8")
    return text.removeprefix(BYTE_ORDER_MARK)


def is_there(path: str) -> bool:
    """Returns whether there is something at a path. Raises an error if that can't be found out."""
    try:
        os.stat(path)
    except ValueError:
        return False
    except OSError as error:
        if error.errno not in NOWHERE:
            raise
        return False
    return True


@contextmanager
def taking(path: str, what: str) -> Iterator[None]:
    """Turns the errors that are raised while a file is read into a `Refusal` of that file."""
    try:
        yield
    except OSError as error:
        raise Refusal(path, f"it can't be read: {error.strerror}") from None
    except Unreadable as error:
        raise Refusal(path, str(error), error.line) from None
    except WrongShape as error:
        valid = "valid " if str(error).startswith(":") else ""
        raise Refusal(path, f"it isn't a {valid}{what}{error}") from None
    except RecursionError:
        raise Refusal(path, f"it isn't a valid {what}: it is nested too deep") from None
    except MemoryError:
        raise Refusal(path, "out of memory") from None


# ---- the three notations


def refuse_constant(name: str) -> NoReturn:
    """Rejects constants that Python's reader of JSON accepts, and JSON doesn't have."""
    raise ValueError(f"{name} isn't JSON")


def refuse_conflict(text: bytes) -> None:
    """Rejects a file in which git left a conflict."""
    found = CONFLICT.search(text) if b"<<<<<<< " in text else None
    if found is not None:
        line = text.count(b"\n", 0, found.end()) + 1
        raise Unreadable(f"merge conflict at line {line}", line)


def json_object(text: bytes) -> Entry:
    """Returns the object in a text of JSON."""
    whole = utf8(text)
    try:
        value = json.loads(whole, parse_constant=refuse_constant)
    except json.JSONDecodeError as error:
        why = f"it isn't JSON: line {error.lineno} column {error.colno}"
        raise Unreadable(why, error.lineno) from None
    except ValueError:
        raise Unreadable("it isn't JSON") from None
    return object_at(value, "the file")


def toml_object(text: bytes) -> Entry:
    """Returns the table in a text of TOML."""
    try:
        import tomllib
    except ImportError:
        raise Unreadable("it is TOML, which Python reads from 3.11 on") from None
    whole, why = utf8(text), ""
    if LONG_KEY.search(whole):
        raise Unreadable(f"it isn't TOML: a key has more than {MOST_PARTS:,} parts")
    for is_1_1 in (False, True):
        try:
            return tomllib.loads(toml_1_0(whole) if is_1_1 else whole)
        except tomllib.TOMLDecodeError as error:
            why = f": {error}"
        except ValueError:
            why = ""
    found = LINE_OF_TOML.search(why)
    raise Unreadable(f"it isn't TOML{why}", None if found is None else int(found.group(1)))


def yaml_objects(text: bytes) -> List[Entry]:
    """Returns the mappings in the documents of a text of YAML. Scalars stay texts, so `1.10` is not
    a number."""
    try:
        import yaml
    except ImportError:
        raise Unreadable("it is YAML, and reading that needs PyYAML (Debian: python3-yaml)") from None
    whole = utf8(text)
    try:
        try:
            documents = documents_of(whole)
        except Unusual:
            documents = documents_by_nodes(whole)
    except Repeated as error:
        why = f"line {error.line}: the key {error.key} is there twice"
        raise Unreadable(why, error.line) from None
    except yaml.YAMLError as error:
        mark = getattr(error, "problem_mark", None)
        why = f"it isn't YAML: {' '.join(str(error).split())}"
        raise Unreadable(why, None if mark is None else mark.line + 1) from None
    except (ValueError, OverflowError):
        raise Unreadable("it isn't YAML") from None
    return [object_at(document, "the file") for document in documents or [None]]


def yaml_object(text: bytes) -> Entry:
    """Returns the mapping in the only document of a text of YAML."""
    documents = yaml_objects(text)
    if len(documents) > 1:
        raise WrongShape(": it has several documents")
    return documents[0]


def utf8(text: bytes) -> str:
    """Returns the text that bytes have in UTF-8."""
    refuse_conflict(text)
    try:
        return text.decode("utf-8")
    except UnicodeDecodeError as error:
        line = text.count(b"\n", 0, error.start) + 1
        raise Unreadable(f"it isn't UTF-8: line {line}", line) from None


# ---- shapes


def object_at(value: Any, where: str) -> Entry:
    """Returns a value that has to be an object. `where` is its place in the file, for the error."""
    if isinstance(value, dict):
        return value
    raise WrongShape(f": {where} isn't an object")


def objects_at(value: Any, where: str) -> Dict[str, Entry]:
    """Returns a value that has to be an object of objects."""
    entries = object_at(value, where)
    for key, entry in entries.items():
        if not isinstance(entry, dict):
            object_at(entry, f"{where}: {key}")
    return entries


def texts_at(value: Any, where: str) -> Dict[str, str]:
    """Returns a value that has to be an object of texts."""
    entries = object_at(value, where)
    for key, entry in entries.items():
        if not isinstance(entry, str):
            text_at(entry, f"{where}: {key}")
    return entries


def list_at(value: Any, where: str) -> List[Any]:
    """Returns a value that has to be a list."""
    if isinstance(value, list):
        return value
    raise WrongShape(f": {where} isn't a list")


def text_at(value: Any, where: str) -> str:
    """Returns a value that has to be a text."""
    if isinstance(value, str):
        return value
    raise WrongShape(f": {where} isn't a string")
