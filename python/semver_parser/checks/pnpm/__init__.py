"""Lock files of pnpm: `pnpm-lock.yaml`."""

from .tool import PNPM

__all__ = ["PNPM"]
