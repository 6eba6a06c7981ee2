"""The tools whose lock files are checked. A new tool is a package, and a line here."""

from typing import List

from .bun import BUN
from .cargo import CARGO, METADATA
from .deno import DENO
from .files import WrongShape, refuse_conflict
from .npm import NPM
from .pnpm import PNPM
from .program import Misuse
from .tool import Input, Tool
from .unsupported import refuse_others
from .yarn import BERRY, CLASSIC

TOOLS: List[Tool] = [BUN, DENO, METADATA, NPM, BERRY, CLASSIC, PNPM, CARGO]
"""All tools, in the order in which they are tried. NPM takes each object of JSON, so those that
recognize their own JSON come before."""


LOCK_FILES = [name for tool in TOOLS for name in tool.lock_files]
"""The names of all lock files."""


def tool_for(file: Input) -> Tool:
    """Returns the tool that wrote a lock file, by its content."""
    refuse_others(file.text)
    for tool in TOOLS:
        if tool.recognizes(file):
            if file.named is not None and not tool.takes_package_json:
                raise Misuse("--package-json is for files of npm and yarn")
            return tool
    refuse_conflict(file.text)
    raise WrongShape(" that is known")
