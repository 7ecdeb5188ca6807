"""Threads of a run as they stand: contexts, call frames, and the events of their turns."""
from .labels import PUBLIC


class Frame:
    def __init__(self, unit, arguments):
        self.unit, self.at, self.stack = unit, 0, []
        self.locals = list(arguments) + [None] * (unit.locals - len(arguments))


class Context:
    def __init__(self, unit, arguments, label, caps, depth, phase):
        self.frames = [Frame(unit, arguments)]
        self.label, self.caps, self.depth, self.phase = label, caps, depth, phase
        self.held, self.fault = [], None

    @property
    def frame(self):
        return self.frames[-1]


class Thread:
    def __init__(self, number, unit, arguments, caps):
        self.number, self.result, self.turns = number, None, 0
        self.unit = unit
        self.contexts = [Context(unit, arguments, PUBLIC, caps, 0, 'bottom')]

    @property
    def context(self):
        return self.contexts[-1]


class Event:
    """A turn that asked: who, at which label, what, and the answer; and which operation of which unit it was."""

    def __init__(self, turn, thread, label, ask, words, unit, at):
        self.turn, self.thread, self.label, self.ask, self.words = turn, thread, label, ask, words
        self.unit, self.at = unit, at
        self.answer, self.refused, self.by, self.made, self.content, self.detail = 'done', None, None, None, None, {}
