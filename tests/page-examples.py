#!/usr/bin/env python3
"""Runs the commands that pages and manuals show with the programs. Each has to print what is shown
below it.

tests/page-examples.py [DIRECTORY]  uses the programs in a directory, by default the repository.
tests/page-examples.py --list       prints the commands.
"""
import os
import re
import shutil
import subprocess
import sys
from typing import Iterator, List, Tuple

TOP = os.path.dirname(os.path.dirname(os.path.abspath(__file__)))
PROGRAMS = ('semver-parser', 'release-filter', 'compare-ranges')

# The minimum number of examples; with fewer, they weren't found.
LEAST = 8


def shown(lines: List[str]) -> Iterator[Tuple[str, str]]:
    """Yields the commands in a block, each with the lines after it."""
    command, output = '', []
    for line in [*lines, '$ ']:
        if line.startswith('$ '):
            if command:
                yield command, ''.join(f'{it}\n' for it in output)
            command, output = line[2:], []
        else:
            output.append(line)


def of_page(text: str) -> Iterator[Tuple[str, str]]:
    """Yields the commands in the indented and fenced blocks of a page."""
    for block in re.findall(r'(?:^    .*\n)+', text, re.M):
        yield from shown([line[4:] for line in block.splitlines()])
    for indent, block in re.findall(r'^( *)```text\n(.*?)^\1```', text, re.M | re.S):
        yield from shown([line[len(indent):] for line in block.splitlines()])


def examples() -> Iterator[Tuple[str, str, str]]:
    """Yields the commands of the programs, each with its page and its output."""
    pages = [os.path.join(directory, name) for directory in ('docs', 'docs/manual')
             for name in sorted(os.listdir(os.path.join(TOP, directory))) if name.endswith('.md')]
    for page in ('README.md', 'rust/README.md', *pages):
        with open(os.path.join(TOP, page), encoding='utf-8') as file:
            for command, output in of_page(file.read()):
                if re.search(rf'(?<![\w-])({"|".join(PROGRAMS)}) ', command):
                    yield page, command, output


def main() -> int:
    if sys.argv[1:] == ['--list']:
        for page, command, _ in examples():
            print(f'{page}: {command}')
        return 0
    directory = os.path.abspath(sys.argv[1]) if sys.argv[1:] else TOP
    missing = [name for name in PROGRAMS if not shutil.which(name, path=directory)]
    if missing:
        print(f'page examples: failed: {directory} has no {", ".join(missing)}')
        return 1
    environment = {**os.environ, 'PATH': f'{directory}:{os.environ["PATH"]}'}
    count, failed = 0, False
    for page, command, output in examples():
        ran = subprocess.run(['sh', '-c', command], cwd=directory, env=environment, stdin=subprocess.DEVNULL,
                             capture_output=True, text=True, check=False)
        count += 1
        if ran.stdout != output or ran.stderr:
            failed = True
            print(f'{page}: {command}\n{ran.stdout}{ran.stderr}instead of\n{output}', end='')
    if count < LEAST:
        failed = True
        print(f'{count} examples, but there have to be at least {LEAST}')
    print('page examples: failed' if failed else f'page examples: {count}, passed')
    return 1 if failed else 0


sys.exit(main())
