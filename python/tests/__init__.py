"""Tests of the package, to be run from a checkout: `./test python`."""
