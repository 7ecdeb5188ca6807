"""Templates of worlds: texts with holes `${NAME}` that a call fills, so that two worlds differ by one word alone."""
import json
import re

HOLE = re.compile(r'\$\{([A-Za-z]\w*)\}')
DECLARED = re.compile(r'\s*hole\s+([A-Za-z]\w*)(?:\s+(.*?))?\s*')
SETTING = re.compile(r'([A-Za-z]\w*)=(.*)', re.S)


def settings_of(words):
    """The words of a call without `--set NAME=VALUE`, and the values by name. Raises ValueError with a sentence."""
    rest, values, at = [], {}, 0
    while at < len(words):
        if words[at] != '--set':
            rest.append(words[at])
            at += 1
            continue
        found = SETTING.fullmatch(words[at + 1]) if at + 1 < len(words) else None
        if not found:
            raise ValueError('--set takes NAME=VALUE')
        if found[1] in values:
            raise ValueError(f'--set {found[1]} stands twice')
        values[found[1]] = found[2]
        at += 2
    return rest, values


def is_in_text(line, at):
    """Whether a place of a line is between `"` and `"`."""
    return len(re.findall(r'"', re.sub(r'\\.', '', line[:at]))) % 2 == 1


class Template:
    """A text with holes: those that `hole` lines of a short text declare, and those that a call names."""

    def __init__(self, text, values):
        self.lines, self.faults, self.used = text.split('\n'), [], set()
        self.values, self.declared = dict(values), {}
        if not text.lstrip().startswith('{'):
            self.declare()

    def declare(self):
        """Takes the lines that declare holes out; a hole may have a value for where none is given."""
        for at, line in enumerate(self.lines):
            found = DECLARED.fullmatch(line)
            if found and found[1] in self.declared:
                self.faults.append((at + 1, f'the hole `{found[1]}` stands in line {self.declared[found[1]]} already'))
            elif found:
                self.declared[found[1]] = at + 1
                if found[2] is not None:
                    self.values.setdefault(found[1], found[2])
            self.lines[at] = '' if found else line

    def filled(self, line, number):
        def value(found):
            name = found[1]
            if name not in self.values and name not in self.declared:
                return found[0]     # this is no hole
            self.used.add(name)
            given = self.values.get(name, '')
            if is_in_text(line, found.start()):
                return json.dumps(given, ensure_ascii=False)[1:-1]
            if re.search(r'[\r\n]', given):
                self.faults.append((number, f'the value of `{name}` has several lines, and stands outside of a text'))
            return given
        return line if line.lstrip().startswith('#') else HOLE.sub(value, line)

    def whole(self):
        """The text without holes. What is wrong stands in `faults`, each with its line."""
        text = '\n'.join(self.filled(line, number) for number, line in enumerate(self.lines, 1))
        for name, line in self.declared.items():
            if name not in self.values:
                self.faults.append((line, f'the hole `{name}` has no value: say `--set {name}=VALUE`'))
            elif name not in self.used:
                self.faults.append((line, f'the hole `{name}` is nowhere in the text as `${{{name}}}`'))
        for name in self.values:
            if name not in self.declared and name not in self.used:
                self.faults.append((1, f'there is no hole `${{{name}}}`, which `--set {name}=..` would fill'))
        return text


def shown(text):
    """A template for an editor: holes without a value have 0."""
    template = Template(text, {})
    for name in template.declared:
        template.values.setdefault(name, '0')
    return template.whole(), template.faults
