"""What an event says in the names of its program: of functions, classes, fields, variables, and the rule that refused it."""

from . import machine, paths

RULES = {
    'ReadS': 'what is read is secret to {tag}, and the acting label is not',
    'ReadI': 'the acting label vouches by {tag}, and what is read does not',
    'WriteS': 'the acting label is secret to {tag}, and what is written is not',
    'WriteI': 'what is written vouches by {tag}, and the acting label does not',
    'AddS': 'the secrecy tag {tag} would be added, and {tag}+ is not held',
    'DropS': 'the secrecy tag {tag} would be taken off, and {tag}- is not held',
    'AddI': 'the integrity tag {tag} would be added, and {tag}+ is not held',
    'DropI': 'the integrity tag {tag} would be taken off, and {tag}- is not held',
    'Caps': 'a capability of {tag} is asked for that is not held',
    'Mint': 'a tag is made at the public label alone, and the acting one has {tag}',
    'Same': 'the two labels must be equal, and differ by {tag}',
}


class Telling:
    """Tells of the events of a run."""

    def __init__(self, run):
        self.run, self.texts, self.code = run, run.texts, run.code
        self.paths, self.classes = paths.paths_of(run), paths.classes_of(run)

    # ---- names

    def unit(self, unit):
        return unit.name if unit.kind == 'fn' else f'region {unit.name}'

    def thread(self, number):
        return f't{number} ({self.run.called(number)})'

    def inside(self, event):
        """In which function, and in which regions of it, an event was."""
        units = [unit for unit, _ in event.stack]
        return ', '.join(f'in {self.unit(unit)}' for unit in reversed(units)) if event.stack else ''

    def given(self, names, values):
        return ', '.join(f'{name} = {self.texts.value(value)}' for name, value in zip(names, values))

    def field(self, thing, slot):
        """The name of a slot of a thing."""
        number = self.run.world.classes.get(thing.name)
        if number is None:
            return f'element {slot}'
        it = self.code.classes[number]
        return f'field {it.fields[slot].name} of {it.name}'

    # ---- one event

    def is_polling(self, event):
        """Whether an event looked and found nothing."""
        return event.ask in ('receive', 'receive_caps') and event.answer == 'null'

    def kinds(self, event):
        """What a release was: a declassification, an endorsement, or both."""
        plus, minus = event.by or ((), ())
        return (['declassification'] if minus else []) + (['endorsement'] if plus else [])

    def words(self, event):
        """What was asked, in names where it has numbers."""
        detail = event.detail
        if event.ask == 'enter' and detail:
            unit = self.code.of_regions[detail['region']]
            return f'enter region {detail["region"]} at {self.texts.label(detail["label"])} with ' \
                   f'({self.given(unit.names, detail["values"])})'
        if event.ask == 'spawn' and detail:
            unit = self.code.units[detail['unit']]
            return f'spawn {unit.name}({self.given(unit.names, detail["values"])})'
        if event.ask in ('read', 'write') and detail:
            return f'{event.ask} {self.field(detail["thing"], detail["slot"])}: {event.words}'
        if event.ask == 'new' and 'class' in detail:
            return f'new {self.code.classes[detail["class"]].name}'
        return event.words

    def sentences(self, event):
        """What there is to say of an event beyond its line."""
        said = []
        for kind in self.kinds(event):
            at = kind == 'declassification'
            tags = event.by[1 if at else 0]
            sign = '-' if at else '+'
            held = ', '.join(f'{self.texts.tag(tag)}{sign}' for tag in sorted(tags))
            how = 'what was known at {} goes to {}' if at else 'what stood at {} is vouched for at {}'
            how = how.format(self.texts.label(event.label), self.texts.label(event.made))
            said.append(f'this is {"a" if at else "an"} {kind}, by {held}: {how}')
        if event.refused:
            rule = RULES[event.refused.rule].format(tag=self.texts.tag(event.refused.tag))
            said.append(f'refused by {event.refused.rule}: {rule}')
        if event.ask in ('caught', 'suppressed', 'end') and 'fault' in event.detail:
            said.append(f'the fault {event.detail["fault"]} was raised here; ' + {
                'caught': 'the catch block of the region goes on', 'suppressed': 'a catch block raised it, and the region is left',
                'end': 'no region was round it, and the thread ended'}[event.ask])
        if self.is_polling(event):
            said.append('nothing was there to be taken')
        return said

    def named(self, event):
        """What the world document calls the pipes, files and directories of an event's line."""
        line = machine.line_of(self.texts, event)
        return [f'{text} is {what}' for text, what in self.run.world.named(self.texts).items() if text in line]

    def calls(self, event):
        """The lines from which the acting function was called, and its regions entered, the outermost first."""
        return [f'from {self.run.line_of(unit, at - 1)}' for unit, at in event.stack[:-1]]


def all_tags(texts):
    return (frozenset(range(len(texts.tags))), frozenset())


def differs(run, lam, document, book):
    """Where the lines of this reading of a run differ from those of the proved program: a line, or None."""
    from .runs import printed
    everything = all_tags(run.texts)
    mine = ([machine.noted_line(run.texts, it) for it in run.events],
            [machine.seen_line(run.texts, it, everything) for it in run.events])
    theirs = (printed(lam, 'audit', run.program, document, book),
              printed(lam, 'replay', run.program, document, book, run.texts.label(everything)))
    for my_lines, text in zip(mine, theirs):
        for my_line, line in zip([*filter(None, my_lines), None], [*text.splitlines(), None]):
            if my_line != line:
                return line or my_line
    return None
