"""The closed schedule on the machine: who takes the next turn, how a closed run ends, and where a run is not closed.

A *base* is a label without integrity. A label is *open* where it flows to the base, and a thread is *inside* where its top
context has a label that is not open. The *slot* is a thread and the number of its open turns since it got the slot. The
thread of the slot goes on while it is inside, and else for at most 64 open turns as long as it is ready; then the next ready
thread gets the slot. So what a thread does inside, and for how long, moves no other thread's turns.

The proved program `lam_closed` has the last word on each run and each answer that is made here.
"""
from .labels import flows

SHARE = 64              # open turns of one thread before another gets the slot
MOST = 1_000_000        # turns of a run, and the most open turns that may be asked for
USUAL = 100_000         # open turns where none are named
DONE, CUT, WAITS, STALLED, OVER = 'done', 'cut', 'waits', 'stalled', 'over'
STATUSES = {DONE: 0, CUT: 9, WAITS: 10, STALLED: 11, OVER: 12}
FIRST = (0, 0)


def is_inside(world, number, base):
    """Whether a thread stands where the base does not see it."""
    contexts = world.threads[number].contexts
    return bool(contexts) and not flows(contexts[-1].label, base)


def next_slot(world, slot, base):
    """The slot whose thread takes the next turn, or None where none can."""
    thread, turns = slot
    if is_inside(world, thread, base):
        return slot if world.is_ready(thread) else None
    if turns < SHARE and world.is_ready(thread):
        return slot
    count = len(world.threads)
    others = ((thread + step) % count for step in range(1, count + 1))
    return next(((other, 0) for other in others if world.is_ready(other)), None)


class Closed:
    """A closed run in the making, of a world that has taken no turn."""

    def __init__(self, world, base):
        self.world, self.base, self.slot = world, base, FIRST
        self.turns, self.events, self.open = [], [], 0

    def end(self, most):
        """How the run has ended, where it may take this many open turns; None where it goes on. The order counts."""
        if not self.world.lives():
            return DONE
        if self.open == most:
            return CUT
        if next_slot(self.world, self.slot, self.base) is None:
            return STALLED if is_inside(self.world, self.slot[0], self.base) else WAITS
        return OVER if len(self.turns) == MOST else None

    def take(self):
        """Takes the turn of the next slot's thread, which is there."""
        thread, turns = next_slot(self.world, self.slot, self.base)
        is_open = flows(self.world.threads[thread].context.label, self.base)
        event = self.world.take(thread)
        self.slot = (thread, turns + is_open)
        self.open += is_open
        self.turns.append(thread)
        if event:
            self.events.append(event)

    def go(self, most=USUAL):
        """Goes on to the end, and says which."""
        end = self.end(most)
        while end is None:
            self.take()
            end = self.end(most)
        return end


def departs(world, base, turns):
    """The first turn that is not that of the next slot: its number and thread; None of a closed run. The turns are a run."""
    slot = FIRST
    for number, thread in enumerate(turns):
        found = next_slot(world, slot, base)
        if found is None or found[0] != thread:
            return number, thread
        is_open = flows(world.threads[thread].context.label, base)
        world.take(thread)
        slot = (thread, found[1] + is_open)
    return None
