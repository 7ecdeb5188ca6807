"""A world's files in a folder, for tools/world.py: how real files come into a world, and how they come out.

The folder has an index, which is a short text, and the files and directories below a folder of its own. Links are not
followed, and nothing is written over.
"""
import os

INDEX, FILES = 'index', 'files'


class Refused(Exception):
    """A folder that cannot be written or read: a sentence."""


def reference(item):
    """The content of a file in the index."""
    return f'< {FILES}/{item.path}'


def write(items, index, folder):
    """Writes the items, whose paths have been looked at, and the index, into a folder that is empty or not there."""
    if os.path.lexists(folder) and (not os.path.isdir(folder) or os.listdir(folder)):
        raise Refused(f'{folder} is there and is not empty; name a new folder')
    os.makedirs(os.path.join(folder, FILES))
    for item in items:
        path = os.path.join(folder, FILES, *item.path.split('/'))
        if item.text is None:
            os.mkdir(path)
        else:
            with open(path, 'xb') as file:
                file.write(item.text if isinstance(item.text, bytes) else item.text.encode())
    with open(os.path.join(folder, INDEX), 'x', encoding='utf-8', newline='') as file:
        file.write(index + '\n')


def listed(folder):
    """The paths of a folder's files and directories, each with whether it is a directory, the upper ones first."""
    top = os.path.join(folder, FILES)
    if not os.path.isdir(top):
        raise Refused(f'there is no folder {top}')
    found = []
    for here, dirs, files in os.walk(top):
        dirs.sort()
        for name in [*dirs, *sorted(files)]:
            path = os.path.join(here, name)
            if os.path.islink(path) or not (os.path.isdir(path) or os.path.isfile(path)):
                raise Refused(f'{path} is neither a file nor a folder')
            found.append((os.path.relpath(path, top).replace(os.sep, '/'), os.path.isdir(path)))
    return sorted(found, key=lambda it: it[0].count('/'))


def content(folder, path, most):
    """The bytes of a file, one more than the most at most."""
    with open(os.path.join(folder, FILES, path), 'rb') as file:
        return file.read(most + 1)
