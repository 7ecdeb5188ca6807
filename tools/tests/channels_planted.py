"""What `tools/why.py --channels` must say: of the programs of examples/channels and examples/cases, and of planted ones.

A fact is a kind, a thread and the lines of the program. The kinds: a `stretch` of unseen turns, which is `open` where it is
not over when the run ends; the `loop` in one; a `monitor` held over one, with who `waits`; a `poll`, which is `open` where
nothing had come when the run ended; what an entry `captured` in sight.
"""

# By folder: program, world, book, and what the public could tell.
EXAMPLES = {
    'channels': {
        ('stop', 'stop', 'stop'): 'stretch t0 5',
        ('stop', 'stop_one', 'stop_one'): 'open stretch t0 5, loop 7',
        ('held', 'held', 'held'): 'stretch t1 16, loop 9, monitor t1 15, waits t2',
        ('held', 'held_eight', 'held_eight'): 'stretch t1 16, loop 9, monitor t1 15, waits t2',
        ('closed', 'closed', 'closed'): 'stretch t0 9, loop 11',
        ('closed', 'closed_seven', 'closed_seven'): 'stretch t0 9, loop 11',
    },
    # Loops of cases are left out, but of the clock: how many there are is the schedule's.
    'cases/clock': {('clock', 'clock', 'clock'): 'stretch t0 12, loop 6, poll t1 34'},
    'cases/battleship': {('battleship', 'battleship', 'battleship'):
                         'stretch t0 23, stretch t1 23, stretch t2 63, stretch t3 71, poll t0 12 15, poll t1 12 15'},
    'cases/calendar': {('calendar', 'calendar', 'calendar'): 'stretch t2 39, stretch t3 62, stretch t4 62, stretch t6 82'},
    'cases/chat': {('chat', 'chat', 'chat'): 'stretch t0 12, stretch t1 30, stretch t2 30, stretch t3 45, stretch t4 67, '
                                             'stretch t5 83, stretch t7 102, poll t3 56'},
    'cases/grades': {('grades', 'grades', 'grades'): 'stretch t0 14, stretch t1 14, stretch t2 14, stretch t3 25, stretch t4 37, '
                                                     'stretch t5 54, stretch t6 62, stretch t8 70'},
    'cases/reviews': {('reviews', 'reviews', 'reviews'):
                      'stretch t0 13, stretch t1 13, stretch t2 13, stretch t3 13, stretch t4 26, stretch t5 26, stretch t6 56, '
                      'stretch t7 56, stretch t9 76, poll t6 52, poll t7 52'},
    'cases/tax': {('tax', 'tax', 'tax'): 'stretch t0 13, stretch t1 32, stretch t2 53, stretch t3 65, stretch t4 73, stretch t5 84'},
    'cases/wiki': {('wiki', 'wiki', 'wiki'): 'stretch t0 37, stretch t1 37, stretch t4 71, stretch t5 71, stretch t6 85'},
}

TAGS = '''tag ann export
tag v integrity
file pin {ann}/{} "1234"
file empty {}/{} ""
file menu {}/{} "tea"
pipe flag {}/{}
pipe other {}/{}
pipe hers {ann}/{}
'''
ALL = 1000
# The lines 1 to 7 of a program: a thread that works in Ann's region for as long as the secret says, and then tells that it is out.
WORKER = '''fn worker(ann: tag, flag: pipe): int {
  region (label{ann;}, caps{}) [] {
    let i: int = 0;
    while (i < length(open_file(root(), "pin"))) { i = i + 1; }
  } catch (e) { }
  %s return 0;
}
'''
STUCK = WORKER.replace('i = i + 1;', '')

# By name: the program, its threads, which of them took how many turns, the observer, and what it could tell.
PLANTED = {
    'a region that does not end, and who polls for its flag': (
        STUCK % 'send(flag, "up");' + '''fn spy(flag: pipe): int {
  while (receive(flag) == null) { }
  say("up");
  return 0;
}
''', 'worker(ann, flag)|spy(flag)', ((0, 50), (1, 60), (0, 50), (1, 60)), '{}/{}', 'open stretch t0 2, loop 4, open poll t1 9'),
    'a poll by length that looks once before the change': (
        WORKER % 'append(open_file(root(), "empty"), "x");' + '''fn spy(): int {
  while (length(open_file(root(), "empty")) == 0) { }
  say("up");
  return 0;
}
''', 'worker(ann, flag)|spy()', ((1, 4), (0, ALL), (1, ALL)), '{}/{}', 'stretch t0 2, loop 4, poll t1 9'),
    'a poll of a field, beside a counter that its own thread changes': (
        WORKER % '' + '''class Box { value: int; }
fn raise(ann: tag, box: Box): int {
  worker(ann, make_pipe(label{;}));
  box.value = 1;
  return 0;
}
fn main(ann: tag): int {
  let box: Box = new Box();
  let mine: Box = new Box();
  spawn(caps{}) raise(ann, box);
  while (box.value == 0) {
    mine.value = mine.value + 1;
  }
  return mine.value;
}
''', 'main(ann)', ((0, 40), (1, ALL), (0, ALL)), '{}/{}', 'stretch t1 2, loop 4, poll t0 18'),
    'a poll of two pipes in turn': (
        WORKER % 'send(flag, "up");' + '''fn spy(flag: pipe, other: pipe): int {
  let at: pipe = other;
  while (receive(at) == null) {
    if (at == flag) { at = other; } else { at = flag; }
  }
  say("up");
  return 0;
}
''', 'worker(ann, flag)|spy(flag, other)', ((1, 60), (0, ALL), (1, ALL)), '{}/{}',
        'stretch t0 2, loop 4, poll t1 10, open poll t1 10'),
    'a poll for an entry of a directory': (
        WORKER % 'make_file(root(), "done", label{;});' + '''class Box { value: bool; }
fn spy(): int {
  let seen: Box = new Box();
  while (!seen.value) {
    region (my_label(), caps{}) [seen] {
      let found: file = open_file(root(), "done");
      seen.value = true;
    } catch (e) { }
  }
  say("up");
  return 0;
}
''', 'worker(ann, flag)|spy()', ((1, 60), (0, ALL), (1, ALL)), '{}/{}', 'stretch t0 2, loop 4, poll t1 13'),
    'a poll by read that gives up': (
        STUCK % 'append(open_file(root(), "empty"), "x");' + '''fn spy(): int {
  let i: int = 0;
  while (i < 3) {
    if (size(read(open_file(root(), "empty"), 0, 1)) > 0) { say("up"); }
    i = i + 1;
  }
  return 0;
}
''', 'worker(ann, flag)|spy()', ((0, 50), (1, 20), (0, 50), (1, ALL)), '{}/{}', 'open stretch t0 2, loop 4, open poll t1 11'),
    'a monitor held over a region that does not end': (
        STUCK % '' + '''class Door { opened: bool; }
fn keep(ann: tag, door: Door): int {
  sync (door) {
    worker(ann, make_pipe(label{;}));
  }
  return 0;
}
fn call(door: Door): int {
  sync (door) { say("in"); }
  return 0;
}
fn main(ann: tag): int {
  let door: Door = new Door();
  spawn(caps{}) keep(ann, door);
  spawn(caps{}) call(door);
  return 0;
}
''', 'main(ann)', ((0, ALL), (1, 60), (2, ALL)), '{}/{}', 'open stretch t1 2, loop 4, monitor t1 10, waits t2'),
    'who waits for the end of a thread in a region that does not end': (
        STUCK % '' + '''fn main(ann: tag): int {
  let other: thread = spawn(caps{}) worker(ann, make_pipe(label{;}));
  join(other);
  say("ended");
  return 0;
}
''', 'main(ann)', ((0, 20), (1, 60), (0, ALL)), '{}/{}', 'open stretch t1 2, loop 4, waits t0'),
    'a lock that is the entry of a directory': (
        'class Box { value: bool; }\n' + WORKER % 'remove(root(), "menu");' + '''fn spy(): int {
  let mine: Box = new Box();
  while (!mine.value) {
    region (my_label(), caps{}) [mine] {
      let made: file = make_file(root(), "menu", label{;});
      mine.value = true;
    } catch (e) { }
  }
  say("mine");
  return 0;
}
''', 'worker(ann, flag)|spy()', ((1, 60), (0, ALL), (1, ALL)), '{}/{}', 'stretch t0 3, loop 5, poll t1 13'),
    # Who reads settings again looks as who polls and gives up: it is named, and the counter that nobody else changes is not.
    'settings that are read again, and a counter of one thread': (
        WORKER % '' + '''class Box { value: int; }
fn settings(): int {
  let mine: Box = new Box();
  while (mine.value < size(read(open_file(root(), "menu"), 0, 3))) {
    mine.value = mine.value + 1;
  }
  return mine.value;
}
''', 'worker(ann, flag)|settings()', ((1, 20), (0, ALL), (1, ALL)), '{}/{}', 'stretch t0 2, loop 4, open poll t1 11'),
    'settings that are read again where nobody works out of sight': (
        WORKER % '' + '''class Box { value: int; }
fn settings(): int {
  let mine: Box = new Box();
  while (mine.value < size(read(open_file(root(), "menu"), 0, 3))) {
    mine.value = mine.value + 1;
  }
  return mine.value;
}
''', 'worker(ann, flag)|settings()', ((1, ALL), (0, ALL)), '{}/{}', 'stretch t0 2, loop 4'),
    'what an observer with integrity sees: a thread begins out of its sight': (
        '''fn main(v: tag): int {
  let i: int = 0;
  while (i < 3) { i = i + 1; }
  region (label{; v}, caps{}) [i] { say(text(i)); } catch (e) { }
  return 0;
}
''', 'main(v) +{v}-{}', ((0, ALL),), '{}/{v}', 'stretch t0 start, loop 3'),
    'a captured order, which is sent at a secret label only': (
        '''fn order(ann: tag, menu: bytes, to: pipe): int {
  let wanted: bytes = read(open_file(root(), "menu"), 0, 9);
  region (label{ann;}, caps{}) [wanted, to] {
    send(to, cat(wanted, " please"));
  } catch (e) { }
  return 0;
}
''', 'order(ann, "x", hers)', ((0, ALL),), '{}/{}', 'stretch t0 3, captured t0 3'),
    'a captured order, which is said to the public too': (
        '''fn order(ann: tag, to: pipe): int {
  let wanted: bytes = read(open_file(root(), "menu"), 0, 9);
  say(wanted);
  region (label{ann;}, caps{}) [wanted, to] {
    send(to, wanted);
  } catch (e) { }
  return 0;
}
''', 'order(ann, hers)', ((0, ALL),), '{}/{}', 'stretch t0 4'),
}
