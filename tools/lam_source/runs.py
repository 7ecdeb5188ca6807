"""A program, a world and a book as one run, for the tools that tell of it."""
import subprocess

from . import code as codes, grammar, machine, printable, thinning, types, world
from .places import Place


class NotToRun(Exception):
    """The files are no run; the proved program says why."""


def why_none(fault):
    """Why files are no run: what the system says of one, or what is wrong in it."""
    if isinstance(fault, OSError) and fault.strerror:
        return printable.name(f'{fault.strerror}: {fault.filename}')
    return printable.name(str(fault))


def text_of(name):
    """The text of a file, with the ends of its lines as they are."""
    with open(name, encoding='utf-8', errors='surrogateescape', newline='') as file:
        return file.read()


def printed(*words):
    """What a command prints."""
    return subprocess.run(words, capture_output=True, text=True, errors='surrogateescape', check=False).stdout


class Run:
    """The turns of a book, taken one after another, with the events that asked.

    `lam` is the program that compiles; None where this reading of the language does."""

    def __init__(self, lam, program, document):
        self.program = program
        listing = printed(lam, 'code', program) if lam else None
        if lam and not listing.startswith('unit '):
            raise NotToRun(listing.strip() or 'the program has no functions')
        try:
            self.code = thinning.thin(codes.Code(text_of(program), listing))
            self.start = world.Start(text_of(document), world.functions_of(self.code))
        except (grammar.Broken, types.Break, world.Wrong, RecursionError, StopIteration) as fault:
            raise NotToRun(str(fault)) from fault
        self.world = machine.World(self.code, self.start)
        self.texts, self.events, self.stopped = self.world.texts, [], None
        self.last = {}

    def take(self, turns):
        """Takes these turns, up to the first whose thread is not ready."""
        for thread in turns:
            if not self.world.is_ready(thread):
                self.stopped = thread
                break
            event = self.world.take(thread)
            if event:
                self.events.append(event)
                self.last[thread] = event
        return self

    def take_book(self, name):
        try:
            return self.take(world.turns_of(text_of(name)))
        except world.NoBook as fault:
            raise NotToRun(str(fault)) from fault

    def called(self, thread):
        return self.world.threads[thread].unit.name

    def place_of(self, unit, at):
        """The place in the source of an operation."""
        return Place(self.code.text, unit.ops[at].at)

    def line_of(self, unit, at):
        place = self.place_of(unit, at)
        return printable.name(f'{self.program} line {place.number}: {place.line.strip()}')

    def now_at(self, thread):
        """Where a thread that lives stands."""
        frame = self.world.threads[thread].context.frame
        return self.line_of(frame.unit, frame.at)

    def waiting(self, thread):
        """For what a thread waits, in words."""
        found = self.world.waits(self.world.threads[thread])
        if not found:
            return None
        if found[0] == 'monitor':
            return f'waits for the monitor of {self.texts.value(found[1])}, which t{found[2]} holds'
        return f'waits for the end of t{found[1]}'
