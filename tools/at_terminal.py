#!/usr/bin/env python3
"""Runs a command as at a terminal, and prints what stands there afterwards, output and errors as they came.

Usage: at_terminal.py COMMAND [WORD..]; the status is the command's."""
import os
import pty
import sys

from lam_source import last_catch


def main():
    child, terminal = pty.fork()
    if child == 0:
        os.execvp(sys.argv[1], sys.argv[1:])
    shown = b""
    while True:
        try:
            part = os.read(terminal, 65536)
        except OSError:
            break
        if not part:
            break
        shown += part
    _, ended = os.waitpid(child, 0)
    sys.stdout.buffer.write(shown.replace(b"\r\n", b"\n"))
    sys.exit(os.waitstatus_to_exitcode(ended))


if __name__ == "__main__":
    last_catch.run(main)
