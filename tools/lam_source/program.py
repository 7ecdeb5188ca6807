"""The program `lam` where it is built, so that a tool does not wait for a build."""
import os
import subprocess
import time

from . import closed as schedule, machine

HERE = os.path.dirname(os.path.dirname(os.path.dirname(os.path.abspath(__file__))))
PATIENCE = 30       # seconds before it is looked for again, where none was built
LOOKED = {}


def found():
    """The file of the program: that of LAM_PROGRAM, else the one that ./lam would run; None where none is built."""
    given = os.environ.get('LAM_PROGRAM')
    if given:
        return os.path.abspath(given) if os.access(given, os.X_OK) else None
    if not LOOKED.get('file') and time.monotonic() - LOOKED.get('when', -PATIENCE) >= PATIENCE:
        LOOKED.update(file=kept(), when=time.monotonic())
    return LOOKED.get('file')


def kept():
    """The program that ./lam keeps for the sources as they are, or None."""
    said, status = called(os.path.join(HERE, 'lam'), '--built')
    words = said.decode(errors='replace').split()
    if status or len(words) != 2:
        return None
    files = [os.path.join(HERE, 'out', 'lam', words[1], words[0])]
    files += [os.path.join(HERE, 'crates', 'lam', 'out', 'lam')] if words[0] == 'proved' else []
    return next((it for it in files if os.access(it, os.X_OK)), None)


def called(program, *words, folder=None, given=None):
    """What a call prints, as bytes, and its status; `given` are the bytes of its input."""
    source = {'input': given} if given is not None else {'stdin': subprocess.DEVNULL}
    done = subprocess.run([program, *words], cwd=folder, stdout=subprocess.PIPE, stderr=subprocess.DEVNULL, check=False, **source)
    return done.stdout, done.returncode


def closed():
    """The file of the program `lam_closed` where it is built: that of LAM_CLOSED, else one that is kept; or None."""
    given = os.environ.get('LAM_CLOSED')
    if given:
        return os.path.abspath(given) if os.access(given, os.X_OK) else None
    files = [os.path.join(HERE, 'crates', 'lam_closed', 'out', 'lam_closed')]
    return next((it for it in files if os.access(it, os.X_OK)), None)


def closed_by(file, document, book, run, turns, observer):
    """The base of the closed schedule that a book follows, and who says so; None where it follows none that the observer sees.

    Tried are the public base and the observer's own secrecy. Where `lam_closed` is not built, closed.py looks."""
    if observer[1]:
        return None     # the order is a conclusion for observers without integrity
    for base in dict.fromkeys((machine.PUBLIC, observer)):
        if closed():
            said = called(closed(), 'check', file, document, book, '--base', run.texts.label(base))[0]
            if said == b'closed\n':
                return base, '`lam_closed check`'
        elif schedule.departs(machine.World(run.code, run.start), base, turns) is None:
            return base, 'tools/lam_source; `lam_closed check` is not built'
    return None
