"""Lock files of yarn: those of yarn 1, and of yarn 2 and later."""

from .berry import BERRY
from .classic import CLASSIC

__all__ = ["BERRY", "CLASSIC"]
