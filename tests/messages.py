#!/usr/bin/env python3
"""Compares the messages of errors in each language with what Rust prints by `{:#}`: those of
invalid versions and ranges, with carets, and those of requirements that can't be raised. The
strings are those of the rows of rust/tests/layers about errors. Needs cargo, make and cc; without
node or a standard library for WebAssembly, JavaScript is left out."""
import os
import subprocess
import sys
import tempfile

TOP = os.path.dirname(os.path.dirname(os.path.abspath(__file__)))
BUILT = f'{TOP}/out/messages'
with open(f'{TOP}/VERSION', encoding='utf-8') as file:
    os.environ['SEMVER_PARSER_LIBRARY'] = f'{TOP}/out/lib/libsemver_parser.so.{file.read().strip()}'
KINDS = {'refused': 'version', 'refused-range': 'range', 'upgraded': 'upgrade'}
DIALECTS = {'crate': 'crate-cargo'}
# Further calls: each begins with what is read.
OTHERS = [
    ('upgrade', 'npm', '1.x\t', '2.0.0-rc.1'),
    ('upgrade', 'npm', '1', '2.0.0-rc.1'),
    ('upgrade', 'cargo', '1.*', '2.0.0-rc.1'),
    ('upgrade', 'npm', '1 ||', '1.2'),
    ('upgrade', 'npm', '1 |', '1.2.0'),
    ('range', 'npm', '1.0.0 || ' * 20 + ', \u00e9 \u2070 \\ "', ''),
]


def output_of(command, **options):
    """Runs a command, and returns what it prints."""
    ran = subprocess.run(command, cwd=TOP, capture_output=True, check=False, **options)
    if ran.returncode != 0:
        sys.exit(f'messages: {" ".join(command)}: {ran.stderr.decode()[-2000:]}')
    return ran.stdout.decode()


def calls():
    """Returns the calls: what is read, the dialect, the string, and for upgrades the version."""
    from tests.table import rows_of_tools
    rows = [(KINDS[function], DIALECTS.get(tool, tool), row.text, row.steps)
            for function, tool, row in rows_of_tools() if function in KINDS]
    return [*rows, *OTHERS]


def message_in_python(what, dialect, string, version):
    """Returns the message of an error of the Python package, or an empty string."""
    import semver_parser as it
    try:
        if what == 'version':
            it.Version.parse(string, dialect=dialect)
        elif what == 'range':
            it.Range(string, dialect=dialect)
        else:
            it.upgrade(string, version, dialect=dialect)
        return ''
    except it.SemverError as error:
        return f'{error:#}'
    except it.UpgradeError as error:
        return str(error)


def message_of_program(what, dialect, string, version):
    """Returns the message of compare-ranges for a requirement that can't be raised."""
    ran = subprocess.run([f'{TOP}/out/cargo/release/compare-ranges', '--dialect', dialect,
                          '--upgrade', version, '--', string], capture_output=True, check=False)
    return ran.stderr.decode().removeprefix('compare-ranges: ').rstrip('\n')


def compare(language, asked, found, wanted):
    """Ends this test if a message differs from Rust's."""
    if len(found) != len(wanted):
        sys.exit(f'messages: {language} has {len(found)} messages, and Rust {len(wanted)}')
    for call, one, right in zip(asked, found, wanted):
        if one != right:
            sys.exit(f'messages: {language}: {call}:\n{one}\ninstead of\n{right}')


def main():
    output_of(['make', '-s'])
    asked = calls()
    given = ''.join(f'{field}\0' for call in asked for field in call).encode()
    output_of(['cargo', 'build', '--quiet', '--release', '--offline', '--target-dir', BUILT,
               '--manifest-path', f'{TOP}/tests/messages/Cargo.toml'])

    def messages(*command):
        return output_of(command, input=given).split('\0')[:-1]

    wanted = messages(f'{BUILT}/release/messages')
    raised = [at for at, it in enumerate(wanted) if it.startswith('the requirement ')]
    errors = sum(it != '' for it in wanted)
    if errors < 500 or len(raised) < 4:
        sys.exit(f'messages: only {errors} errors, and {len(raised)} of upgrades')
    with tempfile.TemporaryDirectory() as work:
        output_of(['cc', '-O1', '-o', f'{work}/messages', 'tests/messages/main.c',
                   'out/lib/libsemver_parser.a'])
        compare('C', asked, messages(f'{work}/messages'), wanted)
        compare('Python', asked, [message_in_python(*it) for it in asked], wanted)
        compare('compare-ranges', [asked[at] for at in raised],
                [message_of_program(*asked[at]) for at in raised], [wanted[at] for at in raised])
        made = subprocess.run([f'{TOP}/tools/make-js.sh', 'directory', f'{work}/js'],
                              capture_output=True, check=False)
        if made.returncode == 2:
            print(f'messages: {made.stderr.decode().strip()}, so JavaScript is not compared')
        else:
            compare('JavaScript', asked,
                    messages('node', 'tests/messages/main.cjs', f'{work}/js'), wanted)
    print(f'messages: {errors} errors, passed')


sys.dont_write_bytecode = True
sys.path.insert(0, f'{TOP}/python')
main()
