"""Places of a run where an observer's threads could tell unseen work: stretches of unseen turns, monitors, polling loops.

The guarantee takes the order of visible turns as given (docs/FORMATS.md, the answer of `pair`). What makes that order is
the scheduler, and it counts unseen turns too. This finds where a run's unseen turns stand between visible ones, so that
their number can show in the order. One run cannot tell whether the number depends on a secret.
"""
import collections

from . import machine
from .labels import flows

LOOKS = ('receive', 'receive_caps', 'read', 'read_file', 'length', 'open_file', 'open_dir', 'make_file', 'make_dir', 'remove')
TAKES = ('receive', 'receive_caps')     # looks that wait where they find nothing
WRITES = ('send', 'send_caps', 'write', 'append', 'cut', 'make_file', 'make_dir', 'remove')
ENTRIES = ('open_file', 'open_dir', 'make_file', 'make_dir', 'remove')      # looks that wait where they fail
TELLS = ('send', 'append', 'say', 'write')
LEAST = 3           # bytes of a captured text that may be a part of what is sent


class Stretch:
    """Unseen turns of a thread between two of its visible turns. A thread that began out of sight has no entry."""

    def __init__(self, unit, entry, label, held, seen):
        self.unit, self.entry, self.label, self.held, self.before = unit, entry, label, held, seen
        self.turns, self.rounds, self.is_over = 0, collections.Counter(), True
        self.meanwhile, self.waiting = collections.Counter(), {}


class Wait:
    """Looks of a thread at one thing that found the same, up to the one that found something else."""

    def __init__(self, event, unseen):
        self.ask, self.words, self.answer, self.before, self.turn = event.ask, event.words, event.answer, unseen, event.turn
        self.last = unseen
        self.ats, self.meanwhile, self.is_over = collections.Counter(), collections.Counter(), True

    @property
    def looks(self):
        return sum(self.ats.values())

    def places(self):
        return tuple(sorted(self.ats, key=lambda it: (it[0].number, it[1])))

    @property
    def is_empty(self):
        """Whether a look found nothing: no message, or an entry that is not there or in the way."""
        return self.ask in TAKES and self.answer == 'null' or self.answer.startswith('failed ')

    @property
    def can_wait(self):
        """Whether who looks may wait for a change: always at a field or a file's content."""
        return self.is_empty or self.ask not in TAKES + ENTRIES


def thing_of(event):
    """The thing that an event looks at or changes: a pipe, a file, a directory, or a slot of an object."""
    parts = event.words.split(' ', 3)
    return ' '.join(parts[1:3] if event.ask in ('read', 'write') else parts[1:2])


class Channels:
    """Goes through a run's turns once more and keeps its stretches, its waits, and where monitors were taken."""

    def __init__(self, run, observer):
        self.run, self.observer = run, observer
        self.world = machine.World(run.code, run.start)
        self.seen, self.unseen = collections.Counter(), collections.Counter()
        self.open, self.looking, self.locked = {}, {}, {}
        self.writers = collections.defaultdict(dict)        # by thing: each thread that changed it, and when last
        self.known, self.captured, self.public = collections.defaultdict(set), {}, set()
        self.stretches, self.waits, self.captures = collections.defaultdict(list), collections.defaultdict(list), {}

    def take(self, turns):
        for number in turns:
            thread = self.world.threads[number]
            if flows(thread.context.label, self.observer):
                self.close(number)
                self.seen[number] += 1
                event = self.world.take(number)
                if event:
                    self.look(number, event)
            else:
                self.within(number, thread)
                event = self.world.take(number)
                if event and event.ask in TELLS and event.answer == 'done':
                    self.tells(number, event)
        self.finish()
        return self

    def finish(self):
        """What is not over when the run ends: stretches, and looks that found no change."""
        for number in list(self.open):
            self.close(number, is_over=bool(self.world.threads[number].result))
        for (number, _), wait in self.looking.items():
            until = wait.last if self.world.threads[number].result else self.unseen
            wait.meanwhile = self.others(until - wait.before, number)
            if wait.is_empty or wait.can_wait and max(wait.ats.values()) > 1 and wait.meanwhile:
                wait.is_over = False
                self.waits[number, wait.places()].append(wait)
        self.captures = {it: told for it, told in self.captures.items() if not any(is_part(it[2], text) for text in self.public)}

    @staticmethod
    def others(counts, number):
        return collections.Counter({other: count for other, count in counts.items() if other != number})

    # ---- unseen turns

    def within(self, number, thread):
        if number not in self.open:
            self.open[number] = self.begun(thread)
        stretch, frame = self.open[number], thread.context.frame
        stretch.turns += 1
        self.unseen[number] += 1
        op = frame.unit.ops[frame.at]
        if op.name == 'jump' and op.operands[0] <= frame.at and not thread.context.fault:
            stretch.rounds[frame.unit, op.operands[0]] += 1

    def begun(self, thread):
        first = next(at for at, it in enumerate(thread.contexts) if not flows(it.label, self.observer))
        region, entry = thread.contexts[first], None
        if first:
            outer = thread.contexts[first - 1]
            entry = (outer.frame.unit, outer.frame.at - 1)
        unit = region.frames[0].unit
        held = [name for it in thread.contexts[:first] for name in it.held]
        return Stretch(unit, entry, region.label, held, self.seen.copy())

    def close(self, number, is_over=True):
        stretch = self.open.pop(number, None)
        if stretch is None:
            return
        stretch.is_over, stretch.meanwhile = is_over, self.others(self.seen - stretch.before, number)
        for other in self.world.lives():
            wait = self.world.waits(other) if flows(other.context.label, self.observer) else None
            if wait and wait[-1] == number:      # the holder of a monitor, or the thread whose end is waited for
                stretch.waiting[other.number] = wait
        self.stretches[number, stretch.unit, stretch.entry, stretch.label, is_over].append(stretch)

    def tells(self, number, event):
        """A text that was captured in sight, where it is told out of sight."""
        for name, value, entry in self.captured.get(number, []):
            if is_part(value, told_by(event)):
                self.captures.setdefault((number, name, value, entry), (event.unit, event.at, event.label))

    # ---- visible turns

    def look(self, number, event):
        if event.ask == 'lock' and event.answer == 'done':
            self.locked.setdefault((number, event.detail['thing'].name), (event.unit, event.at))
        if event.ask in ('receive', 'read', 'read_file') and event.answer.startswith('"') and event.answer != '""':
            self.known[number].add(event.answer)
        if event.ask in TELLS and event.answer == 'done':
            self.public.add(told_by(event))
        if event.ask == 'enter' and event.answer == 'entered':
            self.enters(number, event)
        if event.ask in LOOKS:
            self.found(number, event)
        if event.ask in WRITES and not event.answer.startswith('failed ') and not event.refused:
            self.writers[thing_of(event)][number] = event.turn

    def enters(self, number, event):
        """The texts that an entry out of sight captures in sight, where the thread has read them there."""
        unit, texts = self.run.code.of_regions[event.detail['region']], self.run.texts
        if not flows(event.detail['label'], self.observer):
            given = [(name, texts.value(value)) for name, value in zip(unit.names, event.detail['values'])]
            self.captured[number] = [(name, value, (event.unit, event.at)) for name, value in given if value in self.known[number]]

    def found(self, number, event):
        """A look: one more that found the same, or the first that found something else."""
        key = (number, event.words)
        wait = self.looking.get(key)
        if wait is None or wait.answer != event.answer:
            if wait and wait.can_wait and self.is_changed(number, event, wait.turn):
                wait.meanwhile = self.others(self.unseen - wait.before, number)
                wait.ats[event.unit, event.at] += 0
                self.waits[number, wait.places()].append(wait)
            wait = self.looking[key] = Wait(event, self.unseen.copy())
        wait.turn, wait.last = event.turn, self.unseen.copy()
        wait.ats[event.unit, event.at] += 1

    def is_changed(self, number, event, turn):
        """Whether another thread has changed what is looked at since a turn."""
        return any(other != number and when > turn for other, when in self.writers[thing_of(event)].items())


def told_by(event):
    """The text that an event sends, says, appends or writes, as it is printed; empty where it is no text."""
    found = event.words.find('"')
    return event.words[found:] if found >= 0 else ''


def is_part(text, told):
    """Whether a printed text is told, alone or as a part."""
    return text == told or len(text) >= LEAST + 2 and text[1:-1] in told


# ---- in words

def span(numbers, what=''):
    """The least and the most of some numbers, and what they count."""
    numbers = list(numbers)
    low, high = min(numbers), max(numbers)
    said = str(low) if low == high else f'{low} to {high}'
    return said + (f' {what}' if what else '') + ('s' if what and said != '1' else '')


class Words:
    """The lines of what was found."""

    def __init__(self, channels):
        self.channels, self.run = channels, channels.run

    def thread(self, number):
        return f't{number} ({self.channels.world.threads[number].unit.name})'

    def line(self, unit, at):
        return f'line {self.run.place_of(unit, at).number}'

    def meanwhile(self, found, kind):
        """What the other threads did meanwhile, the least and the most of each."""
        others = sorted({number for it in found for number in it.meanwhile})
        said = [f'{self.thread(number)} took {span(it.meanwhile[number] for it in found)}' for number in others]
        return f'; meanwhile {", ".join(said)} {kind} turns' if said else f'; meanwhile no other thread took a {kind} turn'

    def of_stretches(self):
        for (number, unit, entry, label, is_over), found in self.channels.stretches.items():
            turns = span((it.turns for it in found), 'unseen turn')
            what = f'{span([len(found)], "time")}, {turns}' if is_over else f'not over when the run ends, after {turns}'
            where = f'region {unit.name} at {self.run.texts.label(label)}, {self.line(*entry)}' if entry else \
                f'at {self.run.texts.label(label)} from its start, which is out of sight'
            yield f'{self.thread(number)}, {where}: {what}{self.meanwhile(found, "visible")}'
            for loop in sorted({loop for it in found for loop in it.rounds}, key=lambda it: (it[0].number, it[1])):
                rounds = span((it.rounds[loop] for it in found), 'round')
                yield f'  the loop of {self.line(*loop)}: {rounds}'
            ended = sorted({other for it in found for other, wait in it.waiting.items() if wait[0] == 'thread'})
            for other in ended:
                yield f'  {self.thread(other)} waits for its end'

    def of_monitors(self):
        for (number, unit, _, label, is_over), found in self.channels.stretches.items():
            for name in dict.fromkeys(name for it in found for name in it.held):
                held = [it for it in found if name in it.held]
                taken = self.channels.locked.get((number, name))
                waiting = sorted({other for it in held for other, wait in it.waiting.items()
                                  if wait[0] == 'monitor' and wait[1].name == name})
                where = f', taken at {self.line(*taken)}' if taken else ''
                turns = span((it.turns for it in held), 'unseen turn')
                still = '' if is_over else ', and still when the run ends'
                yield f'{self.thread(number)}, the monitor of {self.run.texts.name("obj", name)}{where}: held over ' \
                    f'{turns} of region {unit.name} at {self.run.texts.label(label)}{still}' + \
                    ''.join(f'; {self.thread(other)} waits for it' for other in waiting)

    def of_waits(self):
        for (number, places), found in self.channels.waits.items():
            for is_over in (True, False):
                part = [it for it in found if it.is_over == is_over]
                if not part:
                    continue
                looks = span((it.looks for it in part), 'look')
                what = f'{span([len(part)], "wait")} of {looks}' if is_over else f'{looks}, and nothing had changed when the run ended'
                yield f'{self.thread(number)}, {self.lines(places)}: {what}{self.meanwhile(part, "unseen")}'

    def lines(self, places):
        numbers = list(dict.fromkeys(self.run.place_of(*it).number for it in places))
        return f'line{"s" if len(numbers) > 1 else ""} {", ".join(map(str, numbers))}'

    def of_captures(self):
        for (number, name, value, entry), (unit, at, label) in self.channels.captures.items():
            yield f'{self.thread(number)}, {self.line(*entry)}: the entry shows {name} = {shortened(value)}, which is told only at ' \
                f'{self.run.texts.label(label)}, {self.line(unit, at)}; where it is meant to be secret, read it inside'


def shortened(text):
    return text if len(text) <= 40 else f'{text[:37]}..'


HEADS = (('unseen turns between visible ones', Words.of_stretches),
         ('monitors held at a visible label over unseen turns', Words.of_monitors),
         ('loops that poll at a visible label', Words.of_waits))
WARNED = 'texts that were read in sight, and are shown by the entry of a region which tells them out of sight only'


def lines(run, turns, observer):
    """What there is to say of a run and an observer."""
    words = Words(Channels(run, observer).take(turns))
    said = []
    for head, part in HEADS:
        found = [f'  {line}' for line in part(words)]
        said += [head, *found] if found else [f'{head}: none']
    warned = [f'  {line}' for line in words.of_captures()]
    return said + ([WARNED, *warned] if warned else [])


def closed_lines(run, turns, observer, base, says):
    """What there is to say of a run by the closed schedule: only that a region does not end can tell of what is in it."""
    words = Words(Channels(run, observer).take(turns))
    words.channels.stretches = {key: found for key, found in words.channels.stretches.items() if not key[-1]}
    said = [f'the book is closed with the base {run.texts.label(base)} (by {says}):',
            f'  the order of the turns that {run.texts.label(observer)} sees tells nothing of unseen work, so there are none of these channels']
    opened = [f'  {line}' for line in words.of_stretches()]
    return said + (['that a region does not end can tell of it:', *opened] if opened else [])
