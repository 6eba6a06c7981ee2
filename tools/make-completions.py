#!/usr/bin/env python3
"""Writes tools/completions from the help texts of the programs: how bash and zsh complete their
options.

    tools/make-completions.py            writes the files
    tools/make-completions.py --check    prints which files are out of date, and exits with 1 if any is
"""
import os
import re
import sys

TOP = os.path.dirname(os.path.dirname(os.path.realpath(__file__)))

# Each program, the file that contains its help text, and whether it takes files.
PROGRAMS = {
    'compare-ranges': ('crates/compare_ranges_main/src/main.rt', False),
    'release-filter': ('crates/release_filter_main/src/main.rt', True),
    'check-lock-file': ('python/semver_parser/checks/check_lock_file.py', True),
    'compare-requirements': ('python/semver_parser/checks/compare_requirements.py', True),
}

# What may follow an option, by the name that the help text gives its value. Any other value is
# free.
VALUES = {
    'NAME': 'cargo npm crate-cargo crate-npm',
    'CHANGE': 'lost gained any',
    'KIND': 'releases pre-releases',
    'FORMAT': 'text tsv json github sarif',
    'WHEN': 'auto always never',
}

# A line of a help text that begins with options, each with its value, and then says what they do.
LINE = re.compile(r' {4,6}((?:--?[\w-]+(?: [A-Z]+)?)(?:, --?[\w-]+(?: [A-Z]+)?)*)(?: {2,}(.*))?')


def help_of(path):
    with open(os.path.join(TOP, path), encoding='utf-8') as file:
        text = file.read()
    found = re.search(r'const HELP: &str = "(.*?)";', text, re.S) or re.search(r'PAGE = """\\\n(.*?)"""', text, re.S)
    return found.group(1)


def options_of(path):
    """Returns the options in a help text: each with the name of its value, and with what it does,
    up to the first semicolon, colon or bracket. A line of options with more indentation belongs to
    the one before."""
    rows = []
    for line in help_of(path).splitlines():
        match = LINE.fullmatch(line)
        if match and line.startswith('      '):
            rows[-1][0].extend(match.group(1).split(', '))
            rows[-1][1].append(match.group(2) or '')
        elif match:
            rows.append((match.group(1).split(', '), [match.group(2) or '']))
        elif rows and line.startswith(' ' * 12):
            rows[-1][1].append(line)
        elif rows and line.strip():
            break
    found = []
    for options, told in rows:
        sentence = ' '.join(' '.join(told).split())
        sentence = re.split(r'[;:(]', sentence)[0].strip() or sentence.split()[-1]
        for option in options:
            name, _, value = option.partition(' ')
            found.append((name, value, sentence))
    return found


def in_bash(program, options, takes_files):
    function = '_' + program.replace('-', '_')
    cases = []
    for value, words in VALUES.items():
        names = [name for name, wanted, _ in options if wanted == value]
        if names:
            cases.append(f"    {' | '.join(names)}) COMPREPLY=($(compgen -W '{words}' -- \"$word\")); return ;;")
    files = [name for name, value, _ in options if value == 'FILE']
    if files:
        cases.append(f"    {' | '.join(files)}) COMPREPLY=($(compgen -f -- \"$word\")); return ;;")
    other = [f"    case $word in", f"    -*) COMPREPLY=($(compgen -W '{' '.join(name for name, _, _ in options)}' -- \"$word\")) ;;"]
    if takes_files:
        other.append('    *) COMPREPLY=($(compgen -f -- "$word")) ;;')
    return '\n'.join([
        f'# bash completion for {program}, generated from its help text by tools/make-completions.py.',
        f'{function}() {{',
        '    local word=${COMP_WORDS[COMP_CWORD]} before=${COMP_WORDS[COMP_CWORD - 1]}',
        '    [ "$word" != = ] || word=',
        '    [ "$before" != = ] || before=${COMP_WORDS[COMP_CWORD - 2]}',
        '    COMPREPLY=()',
        '    case $before in', *cases, '    esac', *other, '    esac', '}',
        f'complete {"-o filenames " if takes_files or files else ""}-F {function} {program}', ''])


def in_zsh(program, options, takes_files):
    lines = []
    for name, value, told in options:
        action = f':{value.lower()}:({VALUES[value]})' if value in VALUES else f':{value.lower()}:_files' if value == 'FILE' else f':{value.lower()}:' if value else ''
        told = re.sub(r"([\[\]:'\\])", '', told)
        lines.append(f"    '*{name}{'=' if value and name.startswith('--') else ''}[{told}]{action}'")
    if takes_files:
        lines.append("    '*:file:_files'")
    return '\n'.join([f'#compdef {program}', f'# zsh completion for {program}, generated from its help text by tools/make-completions.py.',
                      '_arguments \\', ' \\\n'.join(lines), ''])


def files():
    for program, (path, takes_files) in PROGRAMS.items():
        options = [it for it in options_of(path) if it[0] != '--']
        yield f'tools/completions/{program}.bash', in_bash(program, options, takes_files)
        yield f'tools/completions/_{program}', in_zsh(program, options, takes_files)


def main(arguments):
    wrong = False
    os.makedirs(os.path.join(TOP, 'tools/completions'), exist_ok=True)
    for path, text in files():
        whole = os.path.join(TOP, path)
        if arguments == ['--check']:
            is_there = os.path.exists(whole) and open(whole, encoding='utf-8').read() == text
            if not is_there:
                print(f"{path} isn't what tools/make-completions.py writes")
            wrong |= not is_there
        else:
            with open(whole, 'w', encoding='utf-8') as file:
                file.write(text)
    return int(wrong)


sys.exit(main(sys.argv[1:]))
