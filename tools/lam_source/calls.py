"""What each built-in call takes, what it tests and how else it fails, as docs/LANGUAGE.md has it, for a person."""

CALLS = {
    'len': ('len(x: [T]): int', None, 'Null'),
    'size': ('size(b: bytes): int', None, 'Null'),
    'byte': ('byte(b: bytes, i: int): int', None, 'Null, Index'),
    'slice': ('slice(b: bytes, i: int, j: int): bytes', None, 'Null, Index'),
    'cat': ('cat(b: bytes, c: bytes): bytes', None, 'Null, Long'),
    'text': ('text(i: int): bytes', None, ''),
    'number': ('number(b: bytes): int', None, 'Null, Form'),
    'my_label': ('my_label(): label', None, ''),
    'my_caps': ('my_caps(): caps', None, ''),
    'root': ('root(): dir', None, ''),
    'label_of': ('label_of(x): label', None, 'Null'),
    'copy': ('copy(x, l: label)', "read x; change x's label to l; change the acting label to l", 'Null, HomeFull'),
    'mint': ('mint(): tag', 'the acting label is {}/{}', 'HomeFull'),
    'say': ('say(b: bytes)', 'none', 'Null'),
    'make_file': ('make_file(d: dir, n: bytes, l: label): file', 'read d; write d; write l; change the acting label to l',
                  'Null, BadName, Exists, DirFull, HomeFull'),
    'make_dir': ('make_dir(d: dir, n: bytes, l: label): dir', 'read d; write d; write l; change the acting label to l',
                 'Null, BadName, Exists, DirFull, HomeFull'),
    'open_file': ('open_file(d: dir, n: bytes): file', 'read d, and not what is opened', 'Null, NoEntry'),
    'open_dir': ('open_dir(d: dir, n: bytes): dir', 'read d, and not what is opened', 'Null, NoEntry'),
    'remove': ('remove(d: dir, n: bytes)', 'read d; write d, and nothing of what is removed', 'Null, NoEntry'),
    'read': ('read(f: file, at: int, n: int): bytes', 'read f', 'Null, Index, Long'),
    'length': ('length(f: file): int', 'read f', 'Null'),
    'append': ('append(f: file, b: bytes)', 'write f', 'Null'),
    'cut': ('cut(f: file, n: int)', 'write f', 'Null, Index'),
    'make_pipe': ('make_pipe(l: label): pipe', 'write l; change the acting label to l', 'Null, HomeFull'),
    'send': ('send(p: pipe, b: bytes)', 'write p', 'Null, Long'),
    'send_caps': ('send_caps(p: pipe, c: caps)', 'write p; c is held', 'Null'),
    'receive': ('receive(p: pipe): bytes', "equal to p's label; it gives null where no bytes are at the front", 'Null'),
    'receive_caps': ('receive_caps(p: pipe): caps', "equal to p's label; it gives null where no capabilities are at the front",
                     'Null'),
    'join': ('join(t: thread): int', 'read {}/{}; then it waits for the end of t', 'Null, Child'),
}
# What the words of the tests mean, and by which rules each is refused.
MEANT = {
    'read': 'read x: the label of x flows to the acting label (ReadS, ReadI)',
    'write': 'write x: the acting label flows to that of x (WriteS, WriteI)',
    'change': 'change L to M: each tag that M has more or less is covered by a capability that is held or public '
              '(AddS, DropS, AddI, DropI)',
    'equal': 'equal: the label is the acting label (Same)',
    'held': 'c is held: each of its capabilities is held or public (Caps)',
    'acting label is {}/{}': 'a refusal is Mint',
}
FORMS = {
    'region': ('change the acting label to l; c is held', 'Null, Deep'),
    'spawn': ('the acting label is equal to {}/{}; c is held', 'Null, HomeFull'),
    'sync': ("equal to x's label; then it waits while another thread is inside", 'Null, Deep'),
    'new': ('none: it gets the acting label', 'HomeFull'),
    'get': ('read the object', 'Null'),
    'put': ('write the object', 'Null'),
    'get element': ('read the array', 'Null, Index'),
    'put element': ('write the array', 'Null, Index'),
}


def tests_of(tests, faults):
    """Sentences on what is tested and how else it fails."""
    if tests is None:
        said = ['It asks nothing of the reference monitor.']
    else:
        said = [f'Tests, in order: {tests}.'] + [f'{meant}.' for word, meant in MEANT.items() if word in tests]
    return said + ([f'Else it fails with: {faults}.'] if faults else [])
