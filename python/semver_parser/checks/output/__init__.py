"""The output of `check-lock-file`: a module for each format."""
