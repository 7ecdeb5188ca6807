"""The files, directories and pipes of a run by the names that a person knows: those of the world and those made in the run."""
import re

from . import machine

MADE = re.compile(r'make_(?:file|dir) (dir<[^>]*>) "(.*)" [^ ]*$')
KINDS = ('file', 'dir', 'pipe')


def paths_of(run):
    """The path of each file and directory and the name of each pipe, by its text in the lines of the run."""
    found, world = {}, machine.World(run.code, run.start)
    for value, called in world.called.items():
        if value.kind in KINDS:
            found[run.texts.value(value)] = '' if called == 'the root' else called.split(' ', 2)[2]
    for event in run.events:
        made = MADE.match(event.words)
        if made and event.answer.startswith(('file<', 'dir<')):
            above = found.get(made[1], '')
            found[event.answer] = f'{above}/{made[2]}' if above else made[2]
    return found


def classes_of(run):
    """The class of each object, by its text in the lines of the run."""
    return {f'obj{run.texts.name("", name)}': run.code.classes[it].name
            for name, it in run.world.classes.items() if it is not None}


def things_in(text):
    """The texts of the things in a line: objects, arrays, files, directories and pipes."""
    plain = re.sub(r'"(?:[^"\\]|\\.)*"', '""', text)
    return re.findall(r'(?:obj|arr|file|dir|pipe)<[^>]*>', plain)

