"""Lock files of Bun: `bun.lock`."""

from .tool import BUN

__all__ = ["BUN"]
