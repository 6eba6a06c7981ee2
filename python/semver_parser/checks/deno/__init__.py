"""Lock files of Deno: `deno.lock`."""

from .tool import DENO

__all__ = ["DENO"]
