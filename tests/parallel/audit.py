#!/usr/bin/env python3
"""Runs the commands of the audit in docs/PROVED.md, one after the other, in a clone of the last
commit, and prints each step with its commands and their output. Each has to print what the page
shows below it. It isn't part of the gate, and needs the kit."""
import os
import re
import shutil
import subprocess
import sys
import tempfile

TOP = os.path.dirname(os.path.dirname(os.path.dirname(os.path.abspath(__file__))))


def steps(page):
    """Yields the steps of the audit: the number, the sentence in bold, and the commands with their
    output."""
    audit = re.search(r'^## An audit.*?(?=^## )', page, re.M | re.S)[0]
    for number, title, text in re.findall(r'^(\d)\. \*\*(.*?)\*\*(.*?)(?=^\d\. |\Z)', audit, re.M | re.S):
        commands = []
        for block in re.findall(r'^ {7}\$ (.*\n(?: {7}(?!\$).*\n)*)', text, re.M):
            command, *output = (line.removeprefix(' ' * 7) for line in block.splitlines())
            commands.append((command, ''.join(f'{line}\n' for line in output)))
        yield number, title.replace('\n', ' '), commands


def is_printed(command, output, work):
    """Returns whether a command prints what is shown below it. If not, prints both."""
    print(f'   $ {command}', flush=True)
    ran = subprocess.run(['sh', '-c', command], cwd=work, capture_output=True, text=True, check=False)
    print(''.join(f'   {line}\n' for line in ran.stdout.splitlines()), end='', flush=True)
    if ran.stdout == output:
        return True
    print(f'   {ran.stderr[-2000:]}but docs/PROVED.md has\n{output}', end='', flush=True)
    return False


def main():
    if not shutil.which('rt'):
        sys.exit('audit: rt, the command of the kit, is needed')
    with open(os.path.join(TOP, 'docs/PROVED.md'), encoding='utf-8') as file:
        page = file.read()
    count, failed = 0, []
    with tempfile.TemporaryDirectory() as work:
        subprocess.run(['git', 'clone', '-q', TOP, work], check=True)
        for number, title, commands in steps(page):
            print(f'{number}. {title}' + ('' if commands else ' (to be read)'), flush=True)
            for command, output in commands:
                count += 1
                if not is_printed(command, output, work):
                    failed.append(number)
    if failed or count < 8:
        print(f'audit: failed, {count} commands, steps {", ".join(failed) or "missing"}')
        return 1
    print(f'audit: {count} commands, passed')
    return 0


sys.exit(main())
