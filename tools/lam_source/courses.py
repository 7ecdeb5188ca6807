"""Runs that are made turn by turn on the machine: an observer's agenda, runs that follow one, drawn runs, fixed shares.

A *noted* turn is one that the observer sees, or a release past it; the noted turns of a run are its agenda
(docs/FORMATS.md, the answer of `pair`). The proved program has the last word on each book that is made here: `lam pair`
and `lam replay` take its turns again.
"""
import copy
import sys

from . import world as worlds
from .labels import flows
from .printable import name as printable

MANY = 1_000_000        # turns of a book, at most
STRETCH = 64            # turns of one thread before another gets a share


class Off(Exception):
    """A run cannot follow further: which thread, and why."""


def book_of(turns):
    """The text of the book of these turns."""
    lines, count = ['lam book 1'], 0
    for at, thread in enumerate(turns):
        count += 1
        if at + 1 == len(turns) or turns[at + 1] != thread:
            lines.append(f'{thread} {count}')
            count = 0
    return '\n'.join(lines) + '\n'


def is_other(path):
    """Whether a file is there that is no book, so that a book written over it would lose something."""
    try:
        with open(path, 'rb') as file:
            head = file.read(11)
    except FileNotFoundError:
        return False
    return head not in (b'', b'lam book 1\n')


def write_book(path, turns):
    with open(path, 'w', encoding='ascii') as out:
        out.write(book_of(turns))


def look_at_place(tool, path):
    """Ends a tool whose book would be written over something else, or that cannot look there."""
    try:
        if is_other(path):
            sys.exit(f'{tool}: {printable(path)} is no book, and would be written over')
    except OSError as fault:
        sys.exit(f'{tool}: {printable(path)} cannot be a book: {fault.strerror}')


def put_book(tool, path, turns):
    """Writes a book, or ends the tool with why not."""
    try:
        write_book(path, turns)
    except OSError as fault:
        sys.exit(f'{tool}: {printable(path)} could not be written: {fault.strerror}')


def looked_ahead(world, number):
    """The event of a thread's next turn where that enters a region or copies, without taking it; else None."""
    context = world.threads[number].context
    op = None if context.fault else world.op(context)
    if op is None or not (op.name == 'enter' or op.name == 'sys' and op.operands[0] == 'copy'):
        return None
    ahead = copy.copy(world)
    ahead.counts, ahead.slots, ahead.classes = dict(world.counts), dict(world.slots), dict(world.classes)
    ahead.threads = list(world.threads)
    thread = ahead.threads[number] = copy.copy(world.threads[number])
    acting = copy.copy(context)
    acting.frames = [*context.frames[:-1], copy.copy(context.frame)]
    acting.frame.stack = list(context.frame.stack)
    thread.contexts = [*thread.contexts[:-1], acting]
    return ahead.take(number)


class Course:
    """A run in the making, and what an observer notes of it."""

    def __init__(self, world, observer):
        self.world, self.observer = world, observer
        self.turns, self.agenda = [], []

    # ---- before a turn

    def lives(self, number):
        return number < len(self.world.threads) and not self.world.threads[number].result

    def is_seen(self, number):
        """Whether the observer sees the next turn of a thread that lives."""
        return flows(self.world.threads[number].context.label, self.observer)

    def past(self, number):
        """The entry of the next turn of an unseen thread where that is a release past the observer, else None."""
        event = looked_ahead(self.world, number)
        if event and event.by and flows(event.made, self.observer):
            return ('past', number, event.content, event.by)
        return None

    def entry(self, number):
        """What the agenda gets by the next turn of a thread that lives, or None."""
        return ('turn', number) if self.is_seen(number) else self.past(number)

    def unseen(self):
        """The threads that can take a turn that is not noted."""
        return [it.number for it in self.world.lives()
                if not self.is_seen(it.number) and self.world.is_ready(it.number) and not self.past(it.number)]

    # ---- turns

    def take(self, number):
        """Takes a turn of a thread that is ready, and returns its entry in the agenda, or None."""
        entry = self.entry(number)
        self.world.take(number)
        self.turns.append(number)
        if entry:
            self.agenda.append(entry)
        return entry


class Follower:
    """Has a run follow the agenda of another, by unseen turns that it picks. `die` draws them, where there is one."""

    def __init__(self, course, limit, die=None):
        self.course, self.limit, self.die = course, limit, die
        self.world = course.world

    def follow(self, steps):
        """Follows the turns of the first run, each a thread with its entry or None. Raises `Off` where it cannot go on."""
        for thread, entry in steps:
            if entry:
                self.reach(thread, entry)
                self.idle()
            elif not self.die:
                self.copied(thread)

    def copied(self, thread):
        """Takes the unseen turn that the first run took here, where the thread has one."""
        if self.course.lives(thread) and not self.course.is_seen(thread) and self.world.is_ready(thread) \
                and not self.course.past(thread):
            self.course.take(thread)

    def idle(self):
        """Some drawn unseen turns, as long as the book has room for the rest."""
        if not self.die or len(self.course.turns) >= MANY // 2:
            return
        for _ in range(self.die.choice((0, 0, 1, 2, 5, 20))):
            ready = self.course.unseen()
            if not ready:
                break
            self.course.take(self.die.choice(ready))

    def reach(self, thread, wanted):
        """Takes unseen turns until the thread's next one is noted, and then that one."""
        turns = 0
        while self.next_of(thread) is None:
            if turns >= self.limit:
                raise Off(thread, f'does not come to its next noted turn within {turns} unseen turns')
            self.course.take(self.picked(thread, turns))
            turns += 1
            if len(self.course.turns) >= MANY:
                raise Off(thread, f'does not come to its next noted turn within the {MANY} turns of a book')
        found = self.next_of(thread)
        if not self.world.is_ready(thread):
            raise Off(thread, 'waits at a label that the observer sees')
        self.course.take(thread)
        if found != wanted:
            raise Off(thread, f'{told(found)}, and in the first run it {told(wanted)}')

    def next_of(self, thread):
        if not self.course.lives(thread):
            raise Off(thread, 'has ended' if thread < len(self.world.threads) else 'is not there')
        return self.course.entry(thread)

    def picked(self, thread, turns):
        """Who takes the next unseen turn: the thread, but now and then, and where it waits, another."""
        ready = self.course.unseen()
        if not ready:
            raise Off(thread, 'waits, and no thread can take an unseen turn')
        if self.die:
            return self.die.choice(ready)
        stretch = turns // STRETCH
        if thread in ready and stretch % 2 == 0:
            return thread
        return ready[stretch // 2 % len(ready)]


def told(entry):
    return f'releases `{entry[2]}`' if entry[0] == 'past' else 'takes a turn that the observer sees'


def draw(course, die, number):
    """Takes this many turns, or as many as there are, in stretches of threads that a die draws."""
    while len(course.turns) < number:
        ready = [it.number for it in course.world.lives() if course.world.is_ready(it.number)]
        if not ready:
            break
        thread = die.choice(ready)
        for _ in range(die.choice((1, 2, 5, 20, 100))):
            if len(course.turns) < number and course.world.is_ready(thread):
                course.take(thread)


def turns_of(path):
    with open(path, encoding='ascii', errors='surrogateescape', newline='') as book:
        return worlds.turns_of(book.read())
