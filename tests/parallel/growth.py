#!/usr/bin/env python3
"""Tests how the work of the public calls of the Rust crate that take a string grows with the length
of the string. tests/growth makes each call with strings of 27 shapes, and callgrind counts the
instructions. A string that is ten times as long may take at most 13 times as many; n log n is 12.7
times as many at these lengths. It isn't part of the gate. Needs cargo, and valgrind (Debian:
apt-get install valgrind)."""
import os
import re
import shutil
import subprocess
import sys
import tempfile
from concurrent.futures import ThreadPoolExecutor

TOP = os.path.dirname(os.path.dirname(os.path.dirname(os.path.abspath(__file__))))
BUILT = f'{TOP}/out/growth'
PROGRAM = f'{BUILT}/release/growth'
LENGTH = 5000
MOST = 13

# Above a threshold, glibc copies by `rep movsb`, which counts as an instruction for each byte, and
# below it by fewer instructions. With this setting, which other libraries ignore, that is the same
# for all lengths.
os.environ['GLIBC_TUNABLES'] = 'glibc.cpu.x86_rep_movsb_threshold=100000000'


def lines_of(command):
    """Runs a command, and returns the lines that it prints."""
    ran = subprocess.run(command, capture_output=True, text=True, check=False)
    if ran.returncode != 0:
        sys.exit(f'growth: {" ".join(command)}: {ran.stderr[-2000:]}')
    return ran.stdout.splitlines()


def growth_of(call):
    """Returns each shape with the instructions of a call for a string and for a longer one."""
    with tempfile.TemporaryDirectory() as work:
        # callgrind writes a file each time the function `measured` ends.
        counted = ['valgrind', '--tool=callgrind', '--toggle-collect=measured',
                   '--dump-after=measured', f'--callgrind-out-file={work}/counted']
        shapes = lines_of([*counted, PROGRAM, call, str(LENGTH)])
        counts = []
        for number in range(1, 2 * len(shapes) + 1):
            with open(f'{work}/counted.{number}', encoding='utf-8') as file:
                counts.append(int(re.search(r'^totals: (\d+)$', file.read(), re.M)[1]))
    return list(zip(shapes, counts[::2], counts[1::2]))


def main():
    if not shutil.which('valgrind'):
        print('growth: needs valgrind: apt-get install valgrind', file=sys.stderr)
        return 2
    lines_of(['cargo', 'build', '--quiet', '--release', '--offline', '--target-dir', BUILT,
              '--manifest-path', f'{TOP}/tests/growth/Cargo.toml'])
    calls = lines_of([PROGRAM])
    with ThreadPoolExecutor(os.cpu_count()) as several:
        found = zip(calls, several.map(growth_of, calls))
        grown = [(call, *row) for call, rows in found for row in rows]
    wrong = [row for row in grown if row[3] > MOST * row[2]]
    for call, shape, few, many in wrong:
        print(f'{call}: {shape}: {few} instructions, and {many} for ten times the length')
    most = max(many / few for _, _, few, many in grown)
    print(f'growth: {len(calls)} calls, {len(grown)} strings, at most {most:.2f} times as many '
          f'instructions: {"failed" if wrong else "passed"}')
    return 1 if wrong else 0


sys.exit(main())
