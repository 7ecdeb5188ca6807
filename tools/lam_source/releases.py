"""What a release let out: the values with their names, the region or the copy, and its line."""
from . import machine


def region_of(told, event):
    """The unit of the region that an event entered."""
    return told.code.of_regions[event.detail['region']]


def values_of(told, event):
    """The values that were let out, each with its name: captures of a region, or slots of a copied thing."""
    if event.ask == 'enter':
        return list(zip(region_of(told, event).names, event.detail['values']))
    made = event.detail['copy']
    return [(told.field(made, slot), value) for slot, value in enumerate(event.detail['slots'])]


def named(told, value):
    """A value as it is printed, with the name that the world has for it."""
    text = told.texts.value(value)
    path = told.paths.get(text)
    return f'{text}, which is {path}' if path else text


def sentences(told, event):
    """What there is to say of a release; nothing of another event."""
    if not event.by:
        return []
    values = values_of(told, event)
    what = ', '.join(f'{name} = {named(told, value)}' for name, value in values) or 'no value, but that this place was reached'
    if event.ask == 'copy':
        thing = told.texts.value(event.detail['thing'])
        return [f'released by a copy of {thing} to {told.texts.label(event.made)}: {what}']
    label = told.texts.label(event.made)
    return [f'released into region {event.detail["region"]} at {label}: {what}']


def data_of(told, event):
    """A release as data, or None."""
    if not event.by:
        return None
    texts = told.texts
    found = {'from': texts.label(event.label), 'to': texts.label(event.made), 'by': texts.caps(event.by),
             'kinds': told.kinds(event), 'line': machine.release_line(texts, event),
             'values': [{'name': name, 'value': texts.value(value)} for name, value in values_of(told, event)]}
    if event.ask == 'enter':
        return {**found, 'region': event.detail['region']}
    return {**found, 'copied': texts.value(event.detail['thing']), 'copy': texts.value(event.detail['copy'])}
