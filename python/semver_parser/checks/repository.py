"""Paths relative to the root of the repository, for GitHub."""

import os
from functools import lru_cache
from typing import List

from .git import top_of

WORKSPACE = "GITHUB_WORKSPACE"


@lru_cache(maxsize=None)
def roots() -> List[str]:
    """Returns the directories that may be the root of the repository, in the order in which they
    count: GitHub's, git's top level, and the current directory."""
    named = (os.environ.get(WORKSPACE), top_of("."), ".")
    return [os.path.realpath(it) for it in named if it]


@lru_cache(maxsize=None)
def in_repository(path: str) -> str:
    """Returns a path relative to the first of these directories that has it; an absolute path if
    none has it."""
    if not os.path.exists(path):
        return path
    directory, name = os.path.split(path)
    whole = os.path.join(os.path.realpath(directory), name)
    for root in roots():
        inner = os.path.relpath(whole, root)
        if inner.split(os.sep)[0] != os.pardir:
            return inner.replace(os.sep, "/")
    return whole
