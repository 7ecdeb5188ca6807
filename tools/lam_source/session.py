"""The texts of a language server's session: programs and worlds, each with what is known of it until it changes."""
import os
import urllib.parse

from . import diagnosing, document, in_world
from .positions import Positions


def path_of(uri):
    parts = urllib.parse.urlsplit(uri)
    return urllib.parse.unquote(parts.path) if parts.scheme == 'file' else uri


def is_world(uri):
    return uri.endswith(('.world', '.short'))


class World:
    """A world document or a short text."""

    def __init__(self, text):
        self.take(text)

    def take(self, text):
        self.text, self.known = text, {}

    once = document.Document.once

    @property
    def positions(self):
        return self.once('positions', lambda: Positions(self.text))

    @property
    def pieces(self):
        return self.once('pieces', lambda: in_world.read(self.text))


class Texts:
    """The open texts by their URIs, and programs of worlds that are not open."""

    def __init__(self):
        self.open, self.closed = {}, {}

    def take(self, uri, text):
        if uri in self.open:
            self.open[uri].take(text)
        else:
            self.open[uri] = World(text) if is_world(uri) else document.Document(text)

    def program_of(self, uri):
        """The name and the document of the program of a world: of an open text if there is one, else of the file."""
        name = self.name_of(uri)
        if name is None:
            return None, None
        found = next((it for other, it in self.open.items() if not is_world(other) and path_of(other) == name), None)
        return name, found or self.of_file(name)

    def name_of(self, uri):
        same = os.path.splitext(path_of(uri))[0] + '.lam'
        return same if any(path_of(it) == same for it in self.open) else diagnosing.program_of(path_of(uri))

    def of_file(self, name):
        """The document of a file, read anew where it has changed; None where it cannot be read."""
        try:
            state = os.stat(name)
            stamp = state.st_mtime_ns, state.st_size
            if name not in self.closed or self.closed[name][0] != stamp:
                with open(name, encoding='utf-8') as file:
                    self.closed[name] = stamp, document.Document(file.read())
        except (OSError, UnicodeError):
            return None
        return self.closed[name][1]

    def worlds_of(self, uri):
        """The open worlds that are checked against a program."""
        path = path_of(uri)
        return [other for other in self.open if is_world(other) and self.name_of(other) == path]

    def faults(self, uri):
        text = self.open[uri]
        if not is_world(uri):
            return diagnosing.of_program(text)
        return diagnosing.of_world(text.positions, path_of(uri), *self.program_of(uri))
