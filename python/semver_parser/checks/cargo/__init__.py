"""Lock files of Cargo: `Cargo.lock`, and the output of `cargo metadata`."""

from .metadata import METADATA
from .tool import CARGO

__all__ = ["CARGO", "METADATA"]
