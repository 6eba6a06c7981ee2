#!/usr/bin/env python3
"""Makes the edits of tests/attacks.py, each in a copy of a small repository, and asks the judges
that it names: tools/erase.py, the types that tests/erased_types.py shows, and the tables of rows.
tests/erased.py makes its edits in each of its own runs, and isn't asked here. Without an edit, no
judge may see anything.

tests/eraser-attacks.py [WORD..]  only edits whose names contain one of these words
"""
import concurrent.futures
import glob
import os
import shutil
import subprocess
import sys
import tempfile

sys.dont_write_bytecode = True
from attacked import FILES, make  # noqa: E402
from attacks import EDITS, edit  # noqa: E402
from erased_types import compile_base, reported, tool  # noqa: E402

TOP = os.path.dirname(os.path.dirname(os.path.realpath(__file__)))
TYPED = ('types', 'clippy', 'rustc')


def by_eraser(each, work):
    """Returns what tools/erase.py says. It may not write anything if it says something, and without
    an edit it has to write what is in `FILES`."""
    make(work, each)
    os.mkdir(f'{work}/tools')
    for path in glob.glob(f'{TOP}/tools/erase*.py') + [f'{TOP}/tools/rattle_source.py']:
        shutil.copy(path, f'{work}/tools')
    done = subprocess.run([sys.executable, f'{work}/tools/erase.py', f'{work}/made'],
                          capture_output=True, text=True, check=False)
    said, is_made = done.stderr, os.path.exists(f'{work}/made')
    if bool(said) == is_made or done.returncode != int(not is_made) \
            or said and (said.count('\n') != 1 or not said.startswith('tools/erase.py: ')):
        return f'status {done.returncode}, {"something" if is_made else "nothing"} made: {said}'
    for path, text in FILES.items() if not each.source and is_made else ():
        made = path.replace('rust/src/proved', f'{work}/made')
        if made != path and read(made) != text:
            return f'made otherwise: {path}'
    return said


def read(path):
    with open(path, encoding='utf-8', newline='') as file:
        return file.read()


def by_types(each, work, bases):
    """Returns what the types show, by judge."""
    make(f'{work}/edited', each)
    proved, found = f'{work}/edited/rust/src/proved', {judge: '' for judge in TYPED}
    for std, base in bases.items():
        for judge, message in reported(proved, f'{work}/{std}', std, base)[0]:
            found[judge] += message + '\n'
    return found


def by_rows(each, work):
    """Returns what a table says of its program, built by cargo from edited Rust."""
    for path in ('Cargo.toml', 'Cargo.lock'):
        if os.path.exists(f'{TOP}/{path}'):
            shutil.copy(f'{TOP}/{path}', work)
    shutil.copytree(f'{TOP}/rust', f'{work}/rust')
    for name, (old, new) in each.rust.items():
        path = f'{work}/rust/src/proved/{name}'
        text = read(path)
        if old not in text:
            return f'{name} does not have {old}'
        with open(path, 'w', encoding='utf-8') as file:
            file.write(text.replace(old, new))
        program = name.split('/')[0].removesuffix('_main').replace('_', '-')
    subprocess.run(['cargo', 'build', '--quiet', '--offline', '--bin', program, '--manifest-path',
                    f'{work}/rust/programs/Cargo.toml', '--target-dir', f'{work}/target'], check=True)
    done = subprocess.run([f'{TOP}/tests/runs.py', '--cargo', program,
                           f'{work}/target/debug/{program}'], capture_output=True, text=True,
                          check=False)
    return done.stdout + done.stderr


def wrong(each, bases):
    """Yields which judges don't say what they have to."""
    with tempfile.TemporaryDirectory() as work:
        said = {}
        if 'erase' in each.seen:
            said['erase'] = by_eraser(each, f'{work}/erase')
        if bases and set(TYPED) & set(each.seen):
            said |= by_types(each, f'{work}/types', bases)
        if 'rows' in each.seen:
            os.mkdir(f'{work}/rows')
            said['rows'] = by_rows(each, f'{work}/rows')
    for judge, words in each.seen.items():
        if judge in said and (words not in said[judge] if words else said[judge]):
            yield f'{each.name}: {judge} should say {words or "nothing"}, but: {said[judge]}'


def main():
    nothing = edit('nothing is edited', '', erase='', types='', clippy='', rustc='')
    chosen = [nothing] + [each for each in EDITS if not sys.argv[1:] or any(
        word in each.name for word in sys.argv[1:])]
    with tempfile.TemporaryDirectory() as work, \
            concurrent.futures.ThreadPoolExecutor(os.cpu_count()) as pool:
        bases = {std: f'{work}/base-{std}' for std in (True, False)} \
            if tool('clippy-driver') else {}
        for std, base in bases.items():
            compile_base(TOP, base, std)
        found = [line for lines in pool.map(lambda each: [*wrong(each, bases)], chosen)
                 for line in lines]
    for line in found:
        print(line)
    if found:
        sys.exit('the eraser under attack: failed')
    if not bases:
        print('the eraser under attack: no clippy, so it is not asked')
    judges = ', '.join(f'{sum(judge in each.seen for each in chosen[1:])} by {judge}'
                       for judge in ('erase', *TYPED, 'rows'))
    print(f'the eraser under attack: {len(chosen) - 1} edits, seen: {judges}')


if __name__ == '__main__':
    main()
