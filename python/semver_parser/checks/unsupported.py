"""Lock files of tools that aren't supported. The error names them."""

import re

from .files import Unreadable

# How only one file begins, the file, and its owner.
BY_BEGINNING = (
    (rb'\{\s*"_meta"\s*:', "Pipfile.lock", "Python's Pipenv"),
    (rb'\{\s*"_readme"\s*:', "composer.lock", "PHP's Composer"),
    (rb"(?:GIT|PATH|GEM)\r?\n  remote:", "Gemfile.lock", "Ruby's Bundler"),
)

# How a line begins in only one TOML file, the file, and its owner. The first that matches counts.
BY_LINE = (
    (b"[[packages]]", "pylock.toml", "Python's"),
    (b"requires-python = ", "uv.lock", "Python's uv"),
    (b"lock_version = ", "pdm.lock", "Python's PDM"),
    (b"lock-version = ", "poetry.lock", "Python's Poetry"),
)


def refuse_others(text: bytes) -> None:
    """Rejects a lock file of a tool that isn't supported."""
    start = text[:1000].lstrip()
    for pattern, file, owner in BY_BEGINNING:
        if re.match(pattern, start):
            raise Unreadable(f"{file} is {owner}; not supported")
    lines = b"\n" + text if b"[[package" in text else b""
    for beginning, file, owner in BY_LINE:
        if b"\n" + beginning in lines:
            raise Unreadable(f"{file} is {owner}; not supported")
