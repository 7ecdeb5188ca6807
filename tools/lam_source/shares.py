"""The schedule of an embedding program that gives unseen work a fixed share of the turns.

It goes in rounds. In each round each thread takes one visible turn, or up to its share of unseen turns. A thread that
goes out of sight takes its next visible turn a fixed number of rounds later: earlier it waits, and where it is not back
by then it has another such time. So no visible turn waits for an unseen one, and the order of visible turns tells of
unseen work at most how often a thread was late. A caller of seats can do the same: it knows from each event of a
thread whether the next turn is visible (docs/RECIPES.md).
"""
from . import courses


class Shares:
    """A course by rounds: how many unseen turns a thread takes in each, and after how many it may be back in sight."""

    def __init__(self, course, share, rounds):
        self.course, self.share, self.rounds = course, share, rounds
        self.due, self.entries, self.late, self.round, self.most = {}, 0, 0, 0, courses.MANY

    def go(self, most):
        """Takes rounds until no thread can go on, or the run has this many turns."""
        self.most, last = most, 0       # the last round in which somebody took a turn
        while self.course.world.lives() and len(self.course.turns) < most:
            before = len(self.course.turns)
            for number in range(len(self.course.world.threads)):
                self.serve(number)
            if len(self.course.turns) > before:
                last = self.round
                self.round += 1
                continue
            # Nobody can go on before a round that somebody waits for, if there is one.
            due = min((due for number, due in self.due.items() if due > self.round and self.lives(number)), default=None)
            if due is None or due - last > self.rounds + 1:
                break
            self.round = due
        return self

    def serve(self, number):
        """What a thread gets in a round."""
        is_due = self.due.get(number, self.round) == self.round
        if self.lives(number) and not self.course.is_seen(number):
            if is_due:
                self.late += 1
                self.due[number] = self.round + self.rounds
            self.unseen(number)
        elif self.lives(number) and is_due:
            self.due.pop(number, None)
            self.visible(number)

    def lives(self, number):
        return self.course.lives(number)

    def can_go(self, number):
        return self.lives(number) and self.course.world.is_ready(number)

    def unseen(self, number):
        for _ in range(self.share):
            if not self.can_go(number) or self.course.is_seen(number) or len(self.course.turns) >= self.most:
                break
            self.course.take(number)

    def visible(self, number):
        if self.can_go(number):
            self.course.take(number)
        if self.lives(number) and not self.course.is_seen(number):
            self.entries += 1
            self.due[number] = self.round + self.rounds


def by_shares(world, observer, share, rounds):
    """A run of a world to its end, by shares."""
    return Shares(courses.Course(world, observer), share, rounds).go(courses.MANY)
