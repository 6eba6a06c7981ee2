"""Lock files of npm: `package-lock.json` and `npm-shrinkwrap.json`."""

from .tool import NPM

__all__ = ["NPM"]
