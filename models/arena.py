#!/usr/bin/env python3
"""Plays the sections of `script_arena` by the rules of `arena_rules.py`, and writes random ones.

usage: arena.py SEED LINES >stdin 2>stdout     random sections with so many calls each,
                                               and what must be answered
       arena.py answer <stdin >stdout          what the gate must answer to these sections
       arena.py answer all <stdin >stdout      the same over all that their headers name

`crates/script_arena/src/main.rt` says how a section is written.
"""
import random
import sys

sys.dont_write_bytecode = True

from arena_rules import (
    Arena,
    Direct,
    Heap,
    POINTERS,
    Refused,
    Room,
    SLOTS_OF_AN_ARRAY,
    done,
    either,
    option,
    result,
    some,
    told,
)

NAMES_OF_AN_ARRAY = 4
# The pointer types that the program has arrays for.
IN_ARRAYS = {'array': ('P0', 'P1', 'P5', 'N3'), 'renaming_array': ('P0',)}
from kinds import of_gate, played


def reads(arena, verb, x, y):
    """The answers of a call that every arena has and that changes nothing, or None."""
    pointers, i, g = arena.pointers, arena.pointers.index(x), arena.pointers.generation(y)
    entry, live = arena.entries.get(i), arena.indexes()
    lists = {
        'walk': lambda: live,
        'walk_nowhere': lambda: [],
        'walk_from': lambda: [j for j in live if i <= j],
        'walk_back_from': lambda: [j for j in reversed(live) if j <= i],
    }
    if verb in lists:
        return [arena.pointer_text(j) for j in lists[verb]()] + ['None']
    texts = {
        'ptrs': arena.pointer_text,
        'vals': lambda j: str(arena.entries[j][1]),
        'iter': lambda j: f'({arena.pointer_text(j)}, {arena.entries[j][1]})',
    }
    if verb in texts:
        return [texts[verb](j) for j in live]
    counter = arena.source_counter()
    counted = None if counter is None else pointers.generation_text(counter)
    one = {
        'capacity': lambda: str(arena.room.capacity()),
        'max_capacity': lambda: option(arena.room.limit()),
        'len': lambda: str(len(live)),
        'is_empty': lambda: str(not live).lower(),
        'slots': lambda: str(arena.slots),
        'show': arena.show,
        'singular_generation': lambda: option(counted),
        'get': lambda: option(arena.value(i, g)),
        'contains': lambda: str(arena.is_live(i, g)).lower(),
        'get_inx': lambda: option(entry and f'({pointers.generation_text(entry[0])}, {entry[1]})'),
        'get_inx_unwrap': lambda: option(entry and entry[1]),
        'find_first_inx_ptr': lambda: option(arena.pointer_text(live[0]) if live else None),
        'find_last_inx_ptr': lambda: option(arena.pointer_text(live[-1]) if live else None),
    }
    return [one[verb]()] if verb in one else None


def changes(arena, verb, x, y, z, w):
    """The answers of a call that every arena has and that can change it, or None."""
    pointers, i, g = arena.pointers, arena.pointers.index(x), arena.pointers.generation(y)
    if verb == 'reallocate_min_capacity':
        return [result(lambda: arena.room.grow_to(x) or '()')]
    if verb in ('set', 'set_inx', 'set_inx_unwrap'):
        is_live = arena.is_live(i, g) if verb == 'set' else i in arena.entries
        was = arena.entries[i][1] if is_live else None
        if is_live:
            arena.entries[i] = (arena.entries[i][0], z if verb == 'set' else y)
        return [str(is_live).lower() if verb == 'set_inx_unwrap' else option(was)]
    if verb == 'remove':
        return [remove(arena, i) if arena.is_live(i, g) else 'InvalidPtr']
    if verb == 'remove_inx':
        if i not in arena.entries:
            return ['InvalidPtr']
        own, value = arena.take(i)
        return [told(arena.step_counter(), f'({pointers.generation_text(own)}, {value})')]
    if verb == 'invalidate':
        return [arena.invalidate(i) if arena.is_live(i, g) else 'InvalidPtr']
    if verb == 'walk_and_remove':
        return [remove(arena, j) for j in arena.indexes()]
    simple = {
        'clear': lambda: [arena.clear()],
        'compress': lambda: arena.compress(x == 1, False),
        'compress_with': lambda: arena.compress(x == 1, True),
        'drain': lambda: arena.drain(x),
        'swap': lambda: [arena.swap(i, g, pointers.index(z), pointers.generation(w))],
        'swap_inx': lambda: [arena.swap_inx(i, pointers.index(y))],
        'add_to_each': lambda: done(arena.add_to_first(x, len(arena.entries))),
        'add_to_first': lambda: arena.add_to_first(x, y),
    }
    return simple[verb]() if verb in simple else None


def remove(arena, i):
    _, value = arena.take(i)
    return told(arena.step_counter(), str(value))


def fill(arena, count):
    """Stores so many values, 0 and on, up to the first that is refused.

    It answers how many entries there are.
    """
    for value in range(count):
        try:
            arena.insert(value)
        except Refused:
            break
    return str(len(arena.entries))


def walk_and_insert(arena, value, i):
    """A walk goes on over an arena that changes after its first step.

    Once it has ended it gives nothing more.
    """
    live = arena.indexes()
    answers = [option(arena.pointer_text(live[0]) if live else None)]
    last = arena.last_index()
    answers.append(result(lambda: arena.insert(value)))
    if i in arena.entries:
        remove(arena, i)
    if live:
        if last < arena.last_index():
            raise NotImplementedError(
                'whether a walk comes to an entry behind its end is left open'
            )
        answers += [arena.pointer_text(j) for j in arena.indexes() if live[0] < j]
    return answers + [result(lambda: arena.insert(value)), 'None']


def free_links(arena, i):
    """The free indexes before and after this one, in the order in which they are taken."""
    if arena.slots < i:
        return '"no such slot"'
    if i in arena.entries:
        return 'None'
    around = [None, *arena.free, None]
    at = around.index(i)
    return some(f'({option(around[at - 1])}, {option(around[at + 1])})')


def of_arena(arena, verb, x, y):
    """The answers of a call that an arena has alone."""
    if verb in ('insert', 'insert_reallocating', 'insert_within_capacity'):
        return [result(lambda: arena.insert(x, verb != 'insert_within_capacity'))]
    if verb in ('entry_insert', 'entry_insert_reallocating', 'entry_insert_within_capacity'):
        return either(lambda: arena.entry_insert(x, y == 1, verb != 'entry_insert_within_capacity'))
    if verb == 'fill':
        return [fill(arena, x)]
    if verb == 'walk_and_insert':
        return walk_and_insert(arena, x, arena.pointers.index(y))
    if verb == 'generation':
        return [arena.pointers.generation_text(arena.counter)]
    if verb == 'set_generation':
        return done(arena.set_counter(arena.pointers.generation(x)))
    if verb == 'inc_generation':
        return [told(arena.step_counter(), '()')]
    if verb == 'freelist_root':
        return [option(arena.free[0] if arena.free else None)]
    if verb == 'free_links':
        return [free_links(arena, arena.pointers.index(x))]
    if verb == 'canonicalize_freelist':
        return done(arena.free.sort())
    if verb == 'remove_free_end_slots':
        return done(arena.pop_free_end())
    return ['"no such call"']


def of_direct(arena, verb, x, y, z):
    """The answers of a call that a direct arena has alone."""
    if verb == 'direct_insert':
        i, g = arena.pointers.index(x), arena.pointers.generation(y)
        return either(lambda: [arena.insert(i, g, z)])
    if verb == 'pop_free_end_slots':
        return done(arena.pop_free_end())
    return ['"no such call"']


class Section:
    """The arenas of a section over a stack for numbers, and the calls at them."""

    def __init__(self, pointers, stack, heap, room, more):
        self.pointers, self.stack, self.heap = pointers, stack, heap
        kinds = ('a', Arena, room), ('b', Arena, room + more)
        kinds += ('d', Direct, room), ('e', Direct, room + more)
        self.arenas = {
            whom: kind(pointers, Room(pointers, stack, heap, least)) for whom, kind, least in kinds
        }

    def answers(self, whom, verb, words):
        """The answers to a line, or None where it is written as it is."""
        x, y, z, w, _ = words
        if whom in self.arenas:
            arena = self.arenas[whom]
            for found in (reads(arena, verb, x, y), changes(arena, verb, x, y, z, w)):
                if found is not None:
                    return found
            return of_arena(arena, verb, x, y) if whom in 'ab' else of_direct(arena, verb, x, y, z)
        if whom in ('a|', 'd|') and self.stack == 'limited':
            return [self.arenas[whom[0]].set_max_capacity(x)]
        if whom in ('a=b', 'a=d', 'd=a', 'd=e', 'a~b', 'd~e', 'a<b', 'a<d', 'd<a', 'd<e'):
            target, source = self.arenas[whom[0]], self.arenas[whom[2]]
            return self.of_two(target, whom[1], source, x)
        return None

    def of_two(self, target, sign, source, x):
        try:
            if sign == '<':
                return target.transfer(self.pointers.generation(x), source)
            return target.copy(source, x, True) if sign == '=' else target.copy(source, 0, False)
        except Refused as refusal:
            return [f'Err({refusal})']

    def end(self):
        """Clones, and arenas that are gone over by value."""
        lines = []
        for whom in 'ad':
            arena = self.arenas[whom]
            lines.append(f'{whom} clone -> {result(lambda: self.clone(arena))}')
        for whom in 'be':
            arena = self.arenas[whom]
            for i in arena.indexes():
                item = f'({arena.pointer_text(i)}, {arena.entries[i][1]})'
                lines.append(f'{whom} into_iter -> {item}')
        return lines

    def clone(self, arena):
        """What a clone holds, for which there must be room."""
        Room(self.pointers, self.stack, self.heap, arena.last_index())
        return arena.show()


class Renaming:
    """The arenas `h` and `k`, and the names `n` and `m`.

    The values of `h` and `k` are numbers with a pointer or none.
    """

    def __init__(self, pointers, stack, heap, room, _more):
        self.pointers, self.stack, self.heap = pointers, stack, heap
        kinds = ('h', Arena, SLOTS_OF_AN_ARRAY), ('k', Direct, SLOTS_OF_AN_ARRAY)
        kinds += ('n', Direct, NAMES_OF_AN_ARRAY), ('m', Arena, NAMES_OF_AN_ARRAY)
        self.arenas = {
            whom: kind(pointers, Room(pointers, stack, heap, room, slots))
            for whom, kind, slots in kinds
        }

    def held(self, value):
        return f'({value[0]}, {option(value[1] and self.pointers.text(*value[1]))})'

    def pointer(self, i, g):
        return self.pointers.index(i), self.pointers.generation(g)

    def answers(self, whom, verb, words):
        """The answers to a line, or None where it is written as it is."""
        x, y, *_ = words
        if verb == 'compress_recaster':
            return self.compress_recaster(x == 1)
        if whom in ('h=n', 'h=m', 'k=n', 'k=m'):
            return [self.recast(self.arenas[whom[0]], self.arenas[whom[2]])]
        if whom == 'h|':
            return of_arena(self.arenas['h'], 'set_generation', x, y)
        if whom not in self.arenas:
            return None
        arena = self.arenas[whom]
        text = self.held if whom in 'hk' else lambda p: self.pointers.text(*p)
        i, g = self.pointer(x, y)
        if verb == 'recast_item' and whom in 'nm':
            image = arena.value(i, g)
            answer = f'Err({self.pointers.text(i, g)})' if image is None else 'Ok(())'
            return [answer, self.pointers.text(*(image or (i, g)))]
        if verb == 'remove' and whom in 'hnm':
            if not arena.is_live(i, g):
                return ['InvalidPtr']
            value = arena.take(i)[1]
            return [told(arena.step_counter(), text(value))]
        if whom == 'h' and verb == 'generation':
            return [option(self.pointers.generation_text(arena.counter))]
        answers = self.insertion(whom, verb, words)
        return [arena.show(text)] if answers is None else answers

    def insertion(self, whom, verb, words):
        """The answers of a call that inserts, or None where there is no such call."""
        x, y, z, w, v = words
        arena, pointer = self.arenas[whom], self.pointer(x, y)
        puts = {
            ('h', 'hold'): (x, None),
            ('h', 'point'): (x, self.pointer(y, z)),
            ('m', 'name'): pointer,
        }
        if (whom, verb) in puts:
            return [result(lambda: arena.insert(puts[whom, verb]))]
        direct = {
            ('k', 'hold'): (z, None),
            ('k', 'point'): (z, self.pointer(w, v)),
            ('n', 'name'): self.pointer(z, w),
        }
        if (whom, verb) in direct:
            return either(lambda: [arena.insert(*pointer, direct[whom, verb])])
        return None

    def recast(self, arena, names, image=None):
        """Renames in index order, up to the first pointer that has no name."""
        image = image or (lambda p: names.value(*p))
        for i in arena.indexes():
            generation, (number, held) = arena.entries[i]
            if held is not None:
                if image(held) is None:
                    return f'Err({self.pointers.text(*held)})'
                arena.entries[i] = (generation, (number, image(held)))
        return 'Ok(())'

    def compress_recaster(self, reset):
        h = self.arenas['h']
        try:
            room = Room(self.pointers, self.stack, self.heap, h.last_index(), NAMES_OF_AN_ARRAY)
        except Refused as refusal:
            return [str(refusal)]
        old = {i: h.entries[i][0] for i in h.indexes()}
        h.compress(reset, False)
        names = Direct(self.pointers, room)
        for new, (i, g) in enumerate(old.items(), 1):
            names.insert(i, g, (new, h.entries[new][0]))
        shown = names.show(lambda p: self.pointers.text(*p))
        return [
            shown,
            str(room.capacity()),
            self.recast(h, names),
            self.recast(self.arenas['k'], names),
        ]


def words_of(line):
    """The first two words of a line and up to five numbers, which are 0 where the line has none."""
    words = line.split(' ')
    numbers = [int(word) if word.isdigit() and int(word) < 2**64 else 0 for word in words[2:7]]
    return words[0], words[1] if len(words) > 1 else '', numbers + [0] * (5 - len(numbers))


def run(kind, stack, refused_request, header, calls):
    """The lines of one run of a section."""
    _, _, (room, _, _, more, end) = words_of(header)
    heap = Heap(refused_request)
    lines = [f'over -> ("{kind}", "{stack}", {refused_request})']
    try:
        arenas = make(kind, stack, heap, room, more)
        for line in calls:
            answers = arenas.answers(*words_of(line))
            if answers is None:
                lines.append(line)
            else:
                lines += [line if answer is None else f'{line} -> {answer}' for answer in answers]
        if end == 1 and isinstance(arenas, Section):
            lines += arenas.end()
    except Refused as refusal:
        lines.append(f'made -> {refusal}')
    return lines + [f'was refused -> {str(heap.has_refused()).lower()}']


def make(kind, stack, heap, room, more):
    renames = stack.startswith('renaming')
    if kind not in IN_ARRAYS.get(stack, POINTERS):
        raise Refused('BeyondMaxCapacity')
    stack = {'renaming': 'heap', 'renaming_array': 'array'}.get(stack, stack)
    if kind not in POINTERS or stack not in ('heap', 'limited', 'boxed', 'array'):
        raise Refused('BeyondMaxCapacity')
    return (Renaming if renames else Section)(POINTERS[kind], stack, heap, room, more)


def play(section, gate=None):
    """The lines of a section, over each pointer type and stack, and for each refused request."""
    header, _, calls = section.partition('\n')
    _, _, (_, first, last, _, _) = words_of(header)
    lines = [header]
    for kind, stack in played(header, gate):
        for refused_request in range(first, last + 1):
            lines += run(kind, stack, refused_request, header, calls.splitlines())
    return lines


READS = '''
    get get get_inx get_inx_unwrap contains walk walk_from walk_back_from walk_nowhere
    find_first_inx_ptr find_last_inx_ptr show show len is_empty capacity max_capacity
    singular_generation slots slots ptrs vals iter
'''.split()
CHANGES = '''
    remove remove remove remove_inx remove_inx remove_inx remove_inx invalidate invalidate
    set set_inx set_inx_unwrap swap swap swap_inx compress_with reallocate_min_capacity
    add_to_each add_to_first
'''.split()
OF_ARENAS = ['insert'] * 10 + ['insert_within_capacity', 'insert_reallocating'] * 3
OF_ARENAS += ['entry_insert', 'entry_insert_reallocating', 'entry_insert_within_capacity'] * 2
OF_ARENAS += '''
    walk_and_insert inc_generation generation set_generation
    freelist_root freelist_root freelist_root canonicalize_freelist remove_free_end_slots
    free_links free_links free_links
'''.split()
OF_DIRECT = ['direct_insert'] * 14 + ['pop_free_end_slots'] * 2
SELDOM = ['clear', 'compress', 'drain', 'walk_and_remove']
POINTS = {'remove', 'invalidate', 'set', 'get', 'contains', 'swap'}
AT_INDEX = '''
    remove_inx get_inx get_inx_unwrap walk_from walk_back_from reallocate_min_capacity free_links
'''.split()


class Random:
    """Writes sections. It knows the arenas as they stand, so that most calls find something."""

    def __init__(self, seed):
        self.random = random.Random(seed)

    def index(self, top):
        if 0.02 < self.random.random():
            return self.random.randrange(1, top + 1)
        return self.random.choice([0, 256, 70000])

    def generation(self, pointers):
        return self.random.randrange(1, 12 if pointers.last is None else min(12, pointers.last + 1))

    def pointer(self, arena, top):
        live = arena.indexes()
        if live and self.random.random() < 0.7:
            i = self.random.choice(live)
            return [i, arena.entries[i][0]]
        return [self.index(top), self.generation(arena.pointers)]

    def call(self, arenas, whom, top, limits):
        """A call at one arena."""
        arena, choose = arenas.arenas[whom], self.random.choice
        verb = choose(READS + CHANGES + 2 * (OF_ARENAS if whom in 'ab' else OF_DIRECT))
        if self.random.random() < 0.03:
            verb = choose(SELDOM)
        if verb == 'walk_and_insert' and not self.is_told(arena, limits):
            verb = 'insert'
        if verb in POINTS:
            words = self.pointer(arena, top)
            if verb == 'swap':
                words += self.pointer(arena, top)
            elif verb == 'set':
                words.append(self.random.randrange(1000))
        elif verb == 'drain':
            # Each step is a line of the answer.
            words = [min(self.index(top), 256)]
        elif verb in AT_INDEX:
            words = [self.index(top)]
        elif verb == 'swap_inx':
            words = [self.index(top), self.index(top)]
        elif verb in ('add_to_each', 'add_to_first'):
            words = [self.random.randrange(1000), self.random.randrange(6)]
        elif verb in ('set_inx', 'set_inx_unwrap', 'walk_and_insert'):
            words = [self.index(top), self.random.randrange(1000)]
            words = words[::-1] if verb == 'walk_and_insert' else words
        elif verb.startswith('entry_insert'):
            words = [self.random.randrange(1000), int(self.random.random() < 0.2)]
        elif verb.startswith('insert'):
            words = [self.random.randrange(1000)]
        elif verb == 'direct_insert':
            words = [self.index(top), self.generation(arena.pointers), choose(range(10))]
        elif verb == 'set_generation':
            last = arena.pointers.last or 2
            words = [choose([2, 3, min(last, 250), max(2, min(last, 300) - 1), min(last, 300)])]
        elif verb in ('compress', 'compress_with'):
            words = [self.random.randrange(2)]
        else:
            words = []
        return whom, verb, words

    def is_told(self, arena, limits):
        """Whether the rules say what a walk gives that goes on after an insertion."""
        free_before_last = arena.free and arena.free[0] < arena.last_index()
        return not limits and (not arena.entries or free_before_last)

    def call_of_two(self, arenas, top, limited):
        """A copy, a clone or a transfer, or a limit."""
        if limited and self.random.random() < 0.4:
            return self.random.choice(['a|', 'd|']), 'set_max_capacity', [self.index(top)]
        sign = self.random.choice('==~<')
        pairs = ['ab', 'de'] if sign == '~' else ['ab', 'ad', 'da', 'de']
        pair = self.random.choice(pairs)
        verb = {'=': 'copy', '~': 'clone_from', '<': 'transfer'}[sign]
        words = {
            '=': [self.random.choice([0, 0, 0, 1, 2, 3])],
            '~': [],
            '<': [self.generation(arenas.pointers)],
        }[sign]
        return pair[0] + sign + pair[1], verb, words

    def call_of_renaming(self, arenas, top):
        pointers = arenas.pointers
        whom = self.random.choice('hhhhkknnmm=')
        if self.random.random() < 0.03:
            return 'h|', 'set_generation', [2]
        two = [self.index(top), self.generation(pointers)]
        if whom == '=':
            return self.random.choice(['h=n', 'h=m', 'k=n', 'k=m']), 'recast', []
        arena = arenas.arenas[whom]
        other = self.pointer(arenas.arenas[self.random.choice('hknm')], top)
        value = self.random.randrange(1000)
        gone, show = ('remove', self.pointer(arena, top)), ('show', [])
        if whom == 'h':
            point, compress = ('point', [value, *other]), ('compress_recaster', [value % 2])
            calls = [('hold', [value]), point, point, gone, show, ('generation', []), compress]
        elif whom == 'k':
            point = ('point', [*two, value, *other])
            calls = [('hold', [*two, value]), point, point, show]
        else:
            names = [other + two, other + two] if whom == 'n' else [other, two]
            calls = [('name', name) for name in names] + [gone, ('recast_item', other), show]
        return whom, *self.random.choice(calls)

    def section(self, kind, stack, count):
        """A section, which may refuse some of the requests for memory that its calls make."""
        top = self.random.choice([4, 7, 20])
        rooms = [1, 3, 6] if stack == 'boxed' else [0, 1, 2, 5]
        room = self.random.choice([0] if stack.endswith('array') else rooms)
        more, end = self.random.choice([0, 0, 2]) * (stack != 'array'), self.random.randrange(2)
        refuses = stack in ('heap', 'limited', 'boxed', 'renaming') and self.random.random() < 0.5
        heap = Heap(0)
        arenas = make(kind, stack, heap, room, more)
        made = heap.requests
        calls = []
        for _ in range(count):
            if isinstance(arenas, Renaming):
                whom, verb, words = self.call_of_renaming(arenas, top)
            elif self.random.random() < 0.1:
                whom, verb, words = self.call_of_two(arenas, top, stack == 'limited')
            else:
                whom, verb, words = self.call(arenas, self.random.choice('aaaabddde'), top, refuses)
            calls.append(' '.join([whom, verb, *map(str, words)]))
            arenas.answers(*words_of(calls[-1]))
        # A request of the arenas' making would leave no call to play.
        first = self.random.randrange(made + 1, heap.requests + 2) if refuses else 0
        last = first + 2 if refuses else 0
        return '\n'.join([f'{kind} {stack} {room} {first} {last} {more} {end}'] + calls)


def random_sections(seed, count):
    writer = Random(seed)
    return [
        writer.section(kind, stack, count)
        for kind in POINTERS
        for stack in ('heap', 'limited', 'boxed', 'array', 'renaming', 'renaming_array')
        if kind in IN_ARRAYS.get(stack, POINTERS)
    ]


def main(words):
    if words[:1] == ['answer']:
        gate = None if words[1:] == ['all'] else of_gate('script_arena')
        for section in sys.stdin.read().rstrip('\n').split('\n\n'):
            print('\n'.join(play(section, gate)))
        return
    if len(words) != 2:
        sys.exit('usage: arena.py SEED LINES | answer [all]')
    sections = random_sections(int(words[0]), int(words[1]))
    print('\n\n'.join(sections))
    print('\n'.join('\n'.join(play(section)) for section in sections), file=sys.stderr)


if __name__ == '__main__':
    main(sys.argv[1:])
