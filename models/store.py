#!/usr/bin/env python3
"""Plays the sections of the program `script_route_book`, and writes random ones.

It goes by the rules of `store_rules.py`.

usage: store.py SEED LINES >stdin 2>stdout     random sections with so many lines each,
                                               and what must be written
       store.py answer <stdin >stdout          what the gate must write for these sections
       store.py answer all <stdin >stdout      the same over all that their headers name
       store.py faults >stdin 2>stdout         an input whose reads and writes fail
                                               at each byte in turn
       store.py rooms SEED                     the arguments of the program `route_book`
                                               for random lines
       store.py lines SEED LINES >stdin 2>stdout     these lines, and what must be answered to them

`crates/script_route_book/src/main.rt` says how a section is written. How many comparisons a search
makes depends on the tree, so what a section of `inputs` or `answer` wants stands in the section.
"""
import random
import sys

sys.dont_write_bytecode = True

from kinds import moves_of_gate, of_gate, played
from store_rules import LAST_TICKET, Store

# The greatest index of each pointer type, and its greatest generation.
POINTERS = {
    'P0': (2**64 - 1, 2**64 - 1),
    'P1': (255, 255),
    'P5': (2**64 - 1, 1),
    'N3': (255, 3),
}
BACKINGS = ('heap', 'limited', 'fixed', 'array')
# The arrays, and what each has room for.
ARRAYS = {'array': 10, 'array3': 3, 'array4': 4}
# What a store that moves on the way may begin as, and what it may become.
ANY = [(p, b) for p in POINTERS for b in BACKINGS if (p, b) != ('P5', 'array')]
ANY += [('P1', 'array3'), ('P1', 'array4')]
MOVING = {
    ('P0', 'heap'): ANY,
    ('P1', 'limited'): [('N3', 'fixed')],
    ('N3', 'fixed'): [('P1', 'array')],
    ('P1', 'array'): [('P0', 'heap')],
}
# No machine has room for so many items.
TOO_MANY = 2**60
# How many bytes a read takes, how many a reply gathers before it is written, and how many the
# longest line of a reply has with its LF.
PIECE, GATHERED, LONGEST = 4096, 4096, 59
PLAYS_OF_AN_INPUT = 5


class Fault(Exception):
    """A read or a write failed, and so does the run."""


class Page:
    """A writer, with the count of its calls and of those that failed."""

    def __init__(self, how, taken, room):
        self.how, self.taken = how, taken or 2**64
        self.room = 0 if how in ('full', 'idle') else room or 2**64
        self.text, self.calls, self.failed, self.flushed = '', 0, 0, 0

    def fail(self, kind):
        self.failed += 1
        raise Fault(kind)

    def send(self, rest):
        while rest:
            self.calls += 1
            taken = min(self.taken, self.room, len(rest))
            if not taken:
                self.fail('WriteZero' if self.how in ('stalling', 'idle') else 'Interrupted')
            self.text += rest[:taken]
            self.room -= taken
            rest = rest[taken:]

    def answer(self, lines):
        """Writes the lines of a reply, in as few writes as may be."""
        gathered = ''
        for line in lines:
            if GATHERED - len(gathered) < LONGEST:
                self.send(gathered)
                gathered = ''
            gathered += line + '\n'
        self.send(gathered)

    def flush(self):
        self.calls += 1
        self.flushed += 1
        if self.how == 'unflushed':
            self.fail('Interrupted')


class Input:
    """A reader, with the count of its calls and of those that failed."""

    def __init__(self, data, how, step):
        self.left, self.how, self.step = data, how, step or PIECE
        self.calls, self.failed = 0, 0

    def read(self):
        self.calls += 1
        if not self.left and self.how == 'broken':
            self.failed += 1
            raise Fault('Interrupted')
        size = min(self.step, PIECE)
        piece, self.left = self.left[:size], self.left[size:]
        return piece


def run(store, reader, page):
    """Answers an input, and says how that ended."""
    line = ''
    while True:
        try:
            piece = reader.read()
        except Fault as fault:
            return f'read failed Some({fault})'
        *whole, rest = (line + piece).split('\n')
        try:
            for line in whole:
                page.answer(store.reply(line.encode()))
            line = rest
            if not piece:
                page.answer(['bad'] if rest else [])
                page.flush()
                return 'ok'
        except Fault as fault:
            return f'write failed Some({fault})'


def play_run(store, words, lines):
    """What a run over a store writes, with its own line."""
    what, how, *numbers = words.split(' ') + [''] * (' ' not in words)
    read, taken, room = ([int(number) for number in numbers] + [0] * 3)[:3]
    page = Page(how, taken, room)
    if what == 'run':
        reader = Input(lines, how, read)
        end = run(store, reader, page)
        return (
            f'>{words}\n{page.text}-> {end}, unread {len(reader.left)}, flushed {page.flushed}, '
            f'reads and failed ones ({reader.calls}, {reader.failed}), '
            f'writes and failed ones ({page.calls}, {page.failed})\n'
        )
    for line in lines.removesuffix('\n').split('\n'):
        answer_line(store, line, page, what == 'sweeps')
    return f'>{words}\n{page.text}'


def answer_line(store, line, page, tells_sweeps):
    """Answers a line alone.

    One that says which comparisons are wanted of the line before is written as it is.
    """
    if line.startswith('='):
        page.text += line + '\n'
        return
    try:
        page.answer(store.reply(line.encode()))
    except Fault as fault:
        page.text += f'-> {fault}\n'
    if tells_sweeps:
        page.text += f"= {store.looks} {store.counters['place']} {store.counters['stop']}\n"


def refusal(pointers, backing, rooms, refused):
    """What a store of these rooms writes if it cannot be made, or None."""
    greatest, generations = POINTERS[pointers]
    if generations < 3:
        return 'room refused: generation\n'
    if sum(rooms) > greatest:
        return 'room refused: index\n'
    if backing in ARRAYS:
        return 'room refused: stack\n' if sum(rooms) > ARRAYS[backing] else None
    if max(rooms) > TOO_MANY:
        return 'room refused: memory\n'
    # Each arena with room takes memory for itself and for its mirror, and the ticket book for
    # itself.
    if 0 < refused <= requests(rooms):
        return 'room refused: memory\nmemory was refused\n'
    return None


def requests(rooms):
    """The requests for memory that make a store on the heap."""
    return 2 * sum(room > 0 for room in rooms) + any(rooms)


def move(store, words, to, spent, refused):
    """Moves a store after so many requests for memory, and says how that ended."""
    _, _, *numbers = words.split(' ')
    rooms = [int(number) for number in numbers]
    # All else is tested before memory is asked for.
    why = refusal(*to, rooms, 0)
    if why in (None, 'room refused: memory\n') and not store.fits(*rooms):
        return 'not moved: too small\n'
    why = why or refusal(*to, rooms, max(refused - spent, 0))
    if why:
        return 'not ' + why.partition('\n')[0].replace('room refused', 'moved') + '\n'
    store.move(*rooms, POINTERS[to[0]][1])
    return 'moved\n'


def play_over(pointers, backing, to, numbers, lines):
    """What a section's lines write over a new store, which may become one of another kind."""
    *rooms, last, refused = numbers
    text = refusal(pointers, backing, rooms, refused)
    if text is not None:
        return text
    store = Store(*rooms, last, POINTERS[pointers][1])
    if lines.startswith('>'):
        text, spent = '', 0 if backing in ARRAYS else requests(rooms)
        for part in lines[1:].split('>'):
            words, _, run_lines = part.partition('\n')
            if words.startswith('move '):
                text += f'>{words}\n' + move(store, words, to, spent, refused)
            else:
                text += play_run(store, words, run_lines)
        return text + ('memory was refused\n' if 'not moved: memory' in text and refused else '')
    page = Page('plain', 0, 0)
    end = run(store, Input(lines, 'plain', 0), page)
    return f'{page.text}-> {end}, unread 0, flushed {page.flushed}\n'


def kinds_of(header, lines, in_gate):
    """What the stores of a section begin as, and what they become, which may be nothing."""
    if '>move ' not in lines:
        gate = of_gate('script_route_book') if in_gate else None
        return [(*kind, None) for kind in played(header, gate)]
    words = lines.partition('>move ')[2].split(' ')[0]
    pointers, backings = words.split(',')
    targets = [(p, b) for p in pointers.split('/') for b in backings.split('/')]
    moves = moves_of_gate('script_route_book') if in_gate else MOVING
    found = [(*it, to) for it in played(header, None) for to in targets if to in moves.get(it, ())]
    return found or sys.exit(f'a section moves to nothing: {header}, {words}')


def play(section, in_gate):
    """What a section writes."""
    comment, _, behind = section.partition('\n')
    header, _, lines = behind.partition('\n')
    numbers = ([int(number) for number in header.split(' ')[2:]] + [0] * 5)[:5]
    texts = [play_over(*kind, numbers, lines) for kind in kinds_of(header, lines, in_gate)]
    assert all(text == texts[0] for text in texts), f'the stores of a section differ: {comment}'
    plays = len(texts) * (1 if lines.startswith('>') else PLAYS_OF_AN_INPUT)
    return f'#{comment}\n{header}\n{texts[0]}{plays} plays\n'


def answer(script, in_gate=False):
    """What a script writes."""
    return ''.join(play(section, in_gate) for section in script.split('#') if section)


# The rooms of places, stops and marks, in an array and elsewhere.
SMALL = [1, 3, 4], [0, 2, 4], [0, 1, 2]
LARGE = [1, 4, 12, 40], [0, 2, 9, 40, 90], [0, 1, 5, 20]


class Writer:
    """Writes random lines that mostly fit what the store holds."""

    def __init__(self, pick, sizes, last):
        self.random = pick
        self.rooms = [pick.choice(choices) for choices in sizes]
        self.keys = pick.choice([3, 20, 200])
        self.store = Store(*self.rooms, last)

    def key(self):
        if self.random.random() < 0.02:
            return self.random.choice([0, 2**64 - 1, 2**64])
        return self.random.randrange(self.keys)

    def ticket(self, kind):
        """Mostly one of a living item of the kind."""
        living = list(getattr(self.store, kind))
        chance = self.random.random()
        if living and chance < 0.9:
            # Late ones often, since they hang together.
            return self.random.choice(living[-6:] if chance < 0.4 else living)
        last = self.store.last
        given = self.random.randrange(last + 1)
        return self.random.choice([0, last + 1, given, LAST_TICKET, 2**64])

    def word(self):
        size = self.random.choice([1, 2, 3, 8, 16])
        return ''.join(self.random.choice('abcxyz019') for _ in range(size))

    def hint(self):
        return ['near', self.ticket('place')] if self.random.random() < 0.3 else []

    def end(self):
        """A stop without a next one, and one without a previous one, if there are any."""
        store = self.store
        ends = [t for t in store.stop if t not in store.next]
        starts = [t for t in store.stop if t not in store.previous]
        if ends and starts and self.random.random() < 0.8:
            return self.random.choice(ends), self.random.choice(starts)
        return self.ticket('stop'), self.ticket('stop')

    def linked(self):
        """Mostly a stop with a next one."""
        linked = [t for t in self.store.stop if t in self.store.next]
        if linked and self.random.random() < 0.85:
            return self.random.choice(linked)
        return self.ticket('stop')

    def line(self):
        verbs = ['place'] * 4 + ['start', 'walk', 'join'] * 3 + ['extend', 'swap'] * 4
        verbs += ['word', 'cut', 'mark', 'show', 'floor', 'find', 'after', 'before', 'all', 'pack']
        verbs += ['remove'] * 4
        verb = self.random.choice(verbs)
        fields = {
            'place': lambda: [self.key(), self.word()] + self.hint(),
            'word': lambda: [self.ticket('place'), self.word()],
            'all': lambda: [],
            'pack': lambda: [],
            'find': lambda: [self.key()],
            'floor': lambda: [self.key()],
            'after': lambda: [self.ticket('place')],
            'before': lambda: [self.ticket('place')],
            'start': lambda: [self.ticket('place')],
            'extend': lambda: [self.ticket('stop'), self.ticket('place')],
            'join': self.end,
            'cut': lambda: [self.linked()],
            'swap': lambda: [self.linked(), self.linked()],
            'walk': lambda: [self.ticket('stop')],
            'mark': lambda: [self.ticket('place'), self.ticket('stop')],
            'show': lambda: [self.ticket(self.random.choice(['place', 'stop', 'mark']))],
            'remove': lambda: [self.ticket(self.random.choice(['place', 'stop', 'mark']))],
        }[verb]()
        return ' '.join(map(str, [verb, *fields]))

    def spoiled(self, line):
        """The line with a fault, which may spell another command."""
        at = self.random.randrange(len(line) + 1)
        return self.random.choice(
            [
                line[:at] + ' ' + line[at:],
                line[:at] + line[at + 1 :],
                line + '\r',
                ' ' + line,
                line.upper(),
                '',
                line[:at] + '0' + line[at:],
                line + ' ' + line,
                line + 'x' * 70,
                line.replace(' ', '\t'),
            ]
        )

    def lines(self, count):
        written = []
        for _ in range(count):
            line = self.line()
            if self.random.random() < 0.04:
                line = self.spoiled(line)
            self.store.reply(line.encode())
            written.append(line)
        return '\n'.join(written) + '\n'


def random_run(writer, count):
    """A run of so many lines, whose streams may fail."""
    pick = writer.random
    how = pick.choice(['plain', 'plain', 'broken', 'stalling', 'unflushed'])
    room = pick.choice([0, 20, 200]) if how in ('plain', 'stalling') else 0
    words = f"run {how} {pick.choice([0, 1, 2, 3, 7, 64])} {pick.choice([0, 1, 5])} {room}"
    lines = writer.lines(count)
    # The last line may have no LF.
    return f'>{words}\n' + (lines if pick.random() < 0.5 else lines[:-1])


def random_section(pick, pointers, backings, count, runs=()):
    """A section's lines with its header over each of these: one input, or runs of these kinds."""
    last = pick.choice([0, 0, 0, LAST_TICKET - 25])
    writer = Writer(pick, SMALL if 'array' in backings else LARGE, last)
    rooms = writer.rooms
    header = f'{pointers} {backings} {rooms[0]} {rooms[1]} {rooms[2]} {last} {requests(rooms) + 1}'
    part = max(count // max(len(runs), 1), 1)
    lines = ''.join(
        random_run(writer, part) if kind == 'run' else f'>{kind}\n' + writer.lines(part)
        for kind in runs
    )
    return f'{header}\n' + (lines or writer.lines(count))


def random_move(pick, kind, backing, count):
    """A section of lines, a move, and lines again, over a store of this kind."""
    pointers, where = pick.choice([it for it in MOVING[kind, backing] if it[1] in BACKINGS])
    writer = Writer(pick, SMALL if 'array' in (backing, where) else LARGE, 0)
    made = list(writer.rooms)
    before = [f'>run\n{writer.lines(count)}', f'>sweeps\n{writer.lines(count)}']
    store, least = writer.store, writer.store.living()
    more = [0, 0, 1] if 'array' in (backing, where) else [0, 1, 5, 20]
    rooms = [n + pick.choice(more) for n in least]
    if pick.random() < 0.15:
        rooms[pick.randrange(3)] = 0
    spent = 0 if backing == 'array' else requests(made)
    refused = spent + pick.choice([requests(rooms) + 1] * 8 + [1, 2, 3])
    words = f'move {pointers},{where} {rooms[0]} {rooms[1]} {rooms[2]}'
    move(store, words, (pointers, where), spent, refused)
    behind = [f'>run\n{writer.lines(count)}', f'>sweeps\n{writer.lines(count)}']
    header = f'{kind} {backing} {made[0]} {made[1]} {made[2]} 0 {refused}'
    return '\n'.join([header, ''.join(before) + f'>{words}\n' + ''.join(behind)])


def random_sections(seed, count):
    pick = random.Random(seed)
    sections = [
        random_section(pick, 'P0,P1,N3', ','.join(backings), count)
        for backings in (BACKINGS, BACKINGS[:3])
    ]
    sections += [random_section(pick, 'P0,P1,N3', 'heap', count, ['run'] * 8)]
    sections += [
        random_section(pick, kind, backing, count, ['sweeps'])
        for kind, backing in (('P1', 'heap'), ('N3', 'array'), ('N3', 'limited'))
    ]
    sections += [random_move(pick, kind, backing, count) for kind, backing in MOVING]
    return ''.join(f'# random lines of seed {seed}\n{section}' for section in sections)


# Places, stops on a ring that is swapped and packed, and walks, and what tells how far a run came.
ROUTES = '''place 1 a
start 1
extend 2 1
extend 3 1
walk 3
join 4 2
walk 3
swap 2 3
pack
walk 3
walk 2
swap 2 2
'''
STATE = 'all\nshow 4\nwalk 2\nwalk 3\n'


def fault_sections():
    """The routes, by a reader that gives so many bytes and by a writer that takes so many.

    Each number of bytes has its turn.
    """
    size = len(Store(4, 4, 2).text(ROUTES.encode()))
    cuts = []
    for how, end in (('broken', 'fails'), ('plain', 'ends')):
        for k in range(len(ROUTES) + 1):
            cuts.append((f'a reader gives {k} bytes and then {end}', f'run {how}', ROUTES[:k]))
    for how, at_once, end in (('plain', 'full', 'fails'), ('stalling', 'idle', 'takes none')):
        for k in range(size + 1):
            words = f'run {how} 0 0 {k}' if k else f'run {at_once}'
            cuts.append((f'a writer takes {k} bytes and then {end}', words, ROUTES))
    return ''.join(
        f'# {shown}\nP0,N3 heap,array 4 4 2 0 8\n>{words}\n{lines}>run\n{STATE}'
        for shown, words, lines in cuts
    )


def random_lines(seed, count):
    """The rooms of the program `route_book`, and lines for it."""
    writer = Writer(random.Random(seed), LARGE, 0)
    return writer.rooms, writer.lines(count)


def main(words):
    if words[:1] == ['answer']:
        print(answer(sys.stdin.buffer.read().decode(), words[1:] != ['all']), end='')
    elif words == ['faults']:
        script = fault_sections()
        print(script, end='')
        print(answer(script), end='', file=sys.stderr)
    elif words[:1] == ['rooms'] and len(words) == 2:
        print(*random_lines(int(words[1]), 0)[0])
    elif words[:1] == ['lines'] and len(words) == 3:
        rooms, lines = random_lines(*map(int, words[1:]))
        print(lines, end='')
        print(Store(*rooms).text(lines.encode()), end='', file=sys.stderr)
    elif len(words) == 2:
        script = random_sections(*map(int, words))
        print(script, end='')
        print(answer(script), end='', file=sys.stderr)
    else:
        usage = 'store.py SEED LINES | answer [all] | faults | rooms SEED | lines SEED LINES'
        sys.exit(f'usage: {usage}')


if __name__ == '__main__':
    main(sys.argv[1:])
