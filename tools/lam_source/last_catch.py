"""The last catch of a tool: what goes wrong is one line for a person and a status, and never a traceback."""
import argparse
import os
import signal
import sys

from . import printable

FAULT, NO_READER, STOPPED = 70, 141, 130     # the two last: as a shell counts a broken pipe and an interrupt
LONGEST = 300


def told(fault):
    """A fault of Python in a line."""
    if isinstance(fault, MemoryError):
        return 'memory ran out'
    if isinstance(fault, RecursionError):
        return 'what is read is nested too deep for this tool'
    if isinstance(fault, OSError) and fault.strerror:
        return fault.strerror + (f': {fault.filename}' if fault.filename is not None else '')
    return f'a defect of this tool ({type(fault).__name__}: {fault}); LAM_TRACE=1 shows where'


def say(text):
    """Writes to standard error, where there is one."""
    if sys.stderr:
        print(printable.lines(text), file=sys.stderr)


class Words(argparse.ArgumentParser):
    """The words of a call; what is said of wrong ones steers no terminal."""

    def error(self, message):
        super().error(printable.name(message))

    def print_help(self, file=None):
        """argparse itself would pass over a device that is full."""
        print(self.format_help(), end='', file=file)


def ended(tool, main):
    """Runs a tool, and answers its status, or a text for standard error."""
    try:
        signal.signal(signal.SIGINT, signal.default_int_handler)
        try:
            status = main()
        except SystemExit as end:
            status = end.code
        if sys.stdout:
            sys.stdout.flush()
        return status
    except BrokenPipeError:
        return NO_READER
    except KeyboardInterrupt:
        return STOPPED
    except Exception as fault:
        if os.environ.get('LAM_TRACE'):
            raise
        say(f'{tool}: {printable.name(told(fault))[:LONGEST]}')
        return FAULT


def let_go():
    """Drops what standard output could not take, so that Python does not try again at its end."""
    try:
        if sys.stdout:
            sys.stdout.flush()
    except OSError:
        os.dup2(os.open(os.devnull, os.O_WRONLY), sys.stdout.fileno())


def run(main, tool=None):
    """Runs the function `main` of a tool and ends the process: with its status, or with 70 and one line."""
    tool = tool or os.path.basename(sys.argv[0])
    for stream in filter(None, (sys.stdout, sys.stderr)):
        stream.reconfigure(errors='backslashreplace')
    status = ended(tool, main)
    if isinstance(status, str):
        say(status)
        status = 1
    let_go()
    sys.exit(status)
