"""The modules of two programs. `check-lock-file` lists the versions in a lock file that don't
satisfy what is required, and `compare-requirements` prints what changed requirements lose and gain.
Only the programs are public; the modules aren't.

A tool is a package with an object of `tool.Tool`: `npm`, `yarn`, `pnpm`, `bun`, `deno` and `cargo`.
It reads its lock file into the model (`model`), and the judge checks that (`judge`, `findings`).
The list of all tools is in `tools`. What the tools of npm's registry share is in `node`.

`check_lock_file` has the options of its program, and `checking` follows them: `discovery` finds
lock files, `reports` checks one, `locating` then finds line numbers, `allowed` removes known
findings, and `output` prints the rest. `requirements` has what `compare-requirements` compares.
"""
