"""The events of a run as data, for other programs: `why.py --json` and `timeline.py --json`."""
from . import choosing, machine, paths, releases, telling


def place_of(told, unit, at):
    """The place in the program of an operation."""
    op, place = unit.ops[at], told.run.place_of(unit, at)
    return {'unit': told.unit(unit), 'line': place.number, 'column': place.column, 'length': op.end - op.at,
            'source': place.line.strip()}


def event_of(told, event):
    """All that there is to say of an event."""
    texts = told.texts
    things = paths.things_in(f'{event.words} = {event.answer}')
    found = {
        'turn': event.turn, 'thread': event.thread, 'function': told.run.called(event.thread), 'label': texts.label(event.label),
        'caps': texts.caps(event.caps), 'ask': event.ask, 'words': event.words, 'asked': told.words(event), 'answer': event.answer,
        'kinds': choosing.all_kinds(told, event), 'line': machine.line_of(texts, event), 'at': place_of(told, event.unit, event.at),
        'from': [place_of(told, unit, at - 1) for unit, at in event.stack[:-1]],
        'things': {text: told.paths.get(text) for text in things}, 'polling': told.is_polling(event),
        'told': told.sentences(event) + releases.sentences(told, event)}
    if event.refused:
        found['refused'] = {'rule': event.refused.rule, 'tag': texts.tag(event.refused.tag),
                            'meaning': telling.RULES[event.refused.rule].format(tag=texts.tag(event.refused.tag))}
    if event.by:
        found['release'] = releases.data_of(told, event)
    return found


def run_of(told, events, names):
    """A run as data: its files, its threads and these events."""
    threads = [{'number': it.number, 'function': told.run.called(it.number), 'turns': it.turns, 'lives': not it.result}
               for it in told.run.world.threads]
    return {**dict(zip(('program', 'world', 'book'), names)), 'turns': told.run.world.turn, 'tags': told.texts.tags,
            'threads': threads, 'events': [event_of(told, it) for it in events]}
