"""What is wrong with a program or a world, for an editor."""
import os
import re

import world as world_tool

from . import faults, holes, program, types, world

ERROR = 1


def found(positions, start, end, text, code=None):
    told = {'range': positions.range(start, max(end, start)), 'severity': ERROR, 'source': 'lam', 'message': text}
    return {**told, 'code': code} if code else told


def of_program(whole):
    """All faults of a program, the one that counts first."""
    return [of_fault(whole, it) for it in faults.of_document(whole)]


def of_fault(whole, it):
    name = it.kind if it.unit is None else f'{it.kind} {it.unit}'
    return found(whole.positions, it.at or 0, it.end or 0, '\n'.join([name, *it.said]), it.kind)


def refusal_of(text, lam):
    """The line by which the program refuses a text, an empty one where it does not, and None where it cannot say."""
    said, status = program.called(lam, 'check', '/dev/stdin', given=text.encode())
    return {0: '', 3: said.decode(errors='replace').strip()}.get(status)


def of_refusal(whole, line):
    """The refusal of the program as a fault of its own; this reading of the language has told another one first."""
    at = re.fullmatch(r'lam: 3 (\w+) at (\d+)', line)
    place = len(whole.text.encode()[:int(at[2])].decode(errors='replace')) if at else 0
    return found(whole.positions, place, faults.end_of(whole.text, place), f'{line[7:]}\nso says the program', line[7:].split()[0])


# ---- worlds

def program_of(path):
    """The program that a world is probably for: that of its name, else the only one in its folder; None where unclear."""
    same = os.path.splitext(path)[0] + '.lam'
    if os.path.exists(same):
        return same
    folder = os.path.dirname(path)
    names = [it for it in os.listdir(folder) if it.endswith('.lam')] if os.path.isdir(folder) else []
    return os.path.join(folder, names[0]) if len(names) == 1 else None


def of_world(positions, path, name, whole):
    """The faults of a world: those of tools/world.py, and else what the program would refuse.

    `name` is the file of its program, and `whole` the document of that; both are None where it is not known."""
    is_document = positions.text.lstrip().startswith('{')
    told = faults_by_tool(positions, path, is_document, name, whole)
    return told or (refused_start(positions, whole) if is_document else [])


def faults_by_tool(positions, path, is_document, name, whole):
    text, more = (positions.text, []) if is_document else holes.shown(positions.text)
    read_world = (world_tool.read_document if is_document else world_tool.read_short)(path, text)
    read_world.faults += more
    world_tool.look_at(read_world)
    if whole:
        look_with(read_world, name, whole)
    return [{**found(positions, 0, 0, text), 'range': positions.line(line - 1)}
            for line, text in sorted(read_world.faults, key=lambda fault: fault[0])]


def look_with(read_world, name, whole):
    """Looks whether the threads of a world run functions of the program, with arguments of their kinds."""
    functions = whole.once('threads', lambda: world_tool.functions_of(whole.text))
    for place, thread in enumerate(read_world.threads):
        function = functions.get(thread.run)
        if function:
            world_tool.look_at_arguments(read_world, place, thread, function, name)
        else:
            near = world_tool.like(thread.run, functions)
            read_world.fault(thread.line, f'thread {place}: {name} has no function `{thread.run}`{near}')


def functions_of(whole):
    """The functions that a thread may run, of a program without faults: names and types of parameters."""
    return [(it.name, [local.type for local in it.locals]) for it in whole.items if it.kind == 'fn' and it.type == types.INT]


def refused_start(positions, whole):
    """What the program would refuse of a document, where it is known with which program it is run."""
    is_known = bool(whole) and not faults.of_document(whole)
    try:
        world.Start(positions.text, functions_of(whole) if is_known else [])
    except world.Wrong as wrong:
        if is_known or not wrong.kind.endswith((' run', ' args')):
            at = min(wrong.at, len(positions.text))
            message = f'{wrong.kind}\n' + (f'{wrong.where}; ' if wrong.where else '') + f'wanted: {wrong.wanted}'
            return [found(positions, at, end_of_value(positions.text, at), message, wrong.kind.split()[0])]
    return []


def end_of_value(text, at):
    piece = world.PIECES.match(text, at)
    return piece.end() if piece else at + 1
