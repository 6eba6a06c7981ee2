#!/usr/bin/env python3
"""Runs a command at a terminal of its own, and copies what it writes there.

    tests/at-terminal.py TEXT COMMAND..

When the command has written TEXT, it presses Ctrl-C; it never does if TEXT is empty. Its status is
that of the command, or 128 and the number of the signal that ended it. It is 99 if the command
hasn't ended ten seconds after Ctrl-C: two are enough, unless other tests take all processors.
"""
import os
import pty
import select
import signal
import sys
import time


def main(text, *command):
    process, terminal = pty.fork()
    if process == 0:
        # A shell that runs this in the background has it ignore Ctrl-C.
        for it in (signal.SIGHUP, signal.SIGINT, signal.SIGQUIT, signal.SIGTERM):
            signal.signal(it, signal.SIG_DFL)
        os.execvp(command[0], command)
    written, pressed = b'', None
    while True:
        if select.select([terminal], [], [], 0.05)[0]:
            try:
                part = os.read(terminal, 65536)
            except OSError:
                # Nobody has the terminal open.
                break
            written += part
            sys.stdout.buffer.write(part)
            sys.stdout.buffer.flush()
        if text and not pressed and text.encode() in written:
            os.write(terminal, b'\x03')
            pressed = time.monotonic()
        if pressed and time.monotonic() - pressed > 10:
            os.kill(process, signal.SIGKILL)
            return 99
    status = os.waitstatus_to_exitcode(os.waitpid(process, 0)[1])
    return status if status >= 0 else 128 - status


sys.exit(main(*sys.argv[1:]))
