#!/usr/bin/env python3
"""Writes the steps of an action as shell scripts, with what GitHub's runner puts before each.

    tests/action-steps.py ACTION DIRECTORY            writes one bash script for each step, numbered
    tests/action-steps.py --workflow ACTION WORKFLOW  checks the inputs that a workflow uses

Inputs are taken from the environment variables INPUT_NAME. Needs PyYAML.
"""

import os
import re
import shlex
import shutil
import sys

import yaml

# What the runner puts before the text of a step of bash.
HEAD = 'set -eo pipefail\n'


def read(path):
    with open(path, encoding='utf-8') as file:
        return yaml.safe_load(file)


def filled(text, inputs):
    """Returns a value of the action with its inputs inserted. It may refer to nothing else."""
    return re.sub(r'\$\{\{ inputs\.(\w+) \}\}', lambda found: inputs[found[1]], str(text))


def given(action):
    """Returns the inputs: from the environment, or the defaults of the action."""
    return {name: os.environ.get(f'INPUT_{name.upper()}', it.get('default', ''))
            for name, it in action['inputs'].items()}


def write_steps(action, directory):
    inputs = given(action)
    shutil.rmtree(directory, ignore_errors=True)
    os.mkdir(directory)
    assert action['runs']['using'] == 'composite'
    for number, step in enumerate(action['runs']['steps']):
        assert step['shell'] == 'bash', step
        # If an input were inserted into the text of a step, it could run any command.
        assert '${{' not in step['run'], step
        env = {name: filled(value, inputs) for name, value in step.get('env', {}).items()}
        variables = ''.join(f'export {name}={shlex.quote(it)}\n' for name, it in env.items())
        assert '${{' not in variables, variables
        with open(os.path.join(directory, f'{number:02}.sh'), 'w', encoding='utf-8') as file:
            file.write(HEAD + variables + step['run'])


def check_workflow(action, workflow):
    """Checks that the only step of a workflow that uses the action passes inputs that it has."""
    [job] = workflow['jobs'].values()
    [used] = [step for step in job['steps'] if step.get('uses') == 'OWNER/REPO@REV']
    assert set(used.get('with', {})) <= set(action['inputs']), used


def main():
    if sys.argv[1] == '--workflow':
        check_workflow(read(sys.argv[2]), read(sys.argv[3]))
    else:
        write_steps(read(sys.argv[1]), sys.argv[2])


main()
