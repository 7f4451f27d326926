#!/usr/bin/env python3
"""Plays the sections of `script_ord`, `script_ord_copies` and `script_ord_search`.

It goes by the rules of `ord_rules.py` and of `ord_copies.py`, and writes random sections.

usage: ord.py SEED LINES >stdin 2>stdout             random sections of script_ord,
                                                     and what must be answered
       ord.py copies SEED LINES >stdin 2>stdout      the same of script_ord_copies,
                                                     whose headers have four words
       ord.py searches SEED LINES >stdin 2>stdout    the same of script_ord_search,
                                                     whose headers have five words
       ord.py answer <stdin >stdout                  what must be answered to these sections,
                                                     of any of them
"""
import random
import sys

sys.dont_write_bytecode = True

from ord_copies import Copies, Renaming
from ord_rules import Arena, FORMS, Heap, LAST, Open, Refused, compare


class Section:
    """A section that is being played, with one request for memory refused, or none."""

    def __init__(self, header, nth):
        kind, stack, *room = header.split()
        heap = Heap(nth)
        if len(room) == 2:
            copies = Renaming if stack == 'renaming' else Copies

            def make(kind, stack):
                return Arena(kind, stack, 0, heap, False)

            self.copies = copies(make, kind, stack.removeprefix('copying-'))
            self.a, self.b = self.copies.ordered()
            return
        self.copies = None
        self.a = Arena(kind, stack, int(room[0]) if room else 0, heap, bool(room))
        self.b = Arena('P1', 'heap', 0, heap, bool(room))

    def play(self, line):
        """What the script writes for a line."""
        words = line.split(' ')
        whom, verb = words[0], words[1] if len(words) > 1 else ''
        if self.copies:
            numbers = [] if whom == '#' else [int(word) for word in words[2:]]
            told = self.copies.answer(whom, verb, numbers)
        elif whom in ('a', 'b'):
            arena = self.a if whom == 'a' else self.b
            told = arena.answer(verb, [int(word) for word in words[2:]])
        elif whom in ('ab', 'ba'):
            both = (self.a, self.b) if whom == 'ab' else (self.b, self.a)
            told = [compare(*both, verb)]
        else:
            told = [None]
        return [line if it is None else f'{line} -> {it}' for it in told]


def answers(script):
    """What must be answered to a script."""
    told = []
    for section in script.split('\n\n'):
        header, *lines = section.rstrip('\n').split('\n')
        told.append(header)
        for nth in turns(header):
            told += [f'refused request -> {nth}'] if nth is not None else []
            try:
                play = Section(header, nth)
            except Refused as refused:
                told.append(f'{header} -> {refused}')
                continue
            for line in lines:
                try:
                    told += play.play(line)
                except Open:
                    sys.exit(f'the rules leave this open: {line}')
    return told


def turns(header):
    """The requests for memory that are refused in turn, where the header names them."""
    words = header.split()[2:]
    return range(int(words[-2]), int(words[-1]) + 1) if words else [None]


KINDS = ('normal', 'nonhereditary', 'linear', 'nonhereditary_linear')
SEARCHES = [
    verb + form
    for verb in '''
        find_key find_similar_key find_key_linear find_similar_key_linear find_with
        find_similar_with
    '''.split()
    for form in ('', '_counted')
]
SEARCHES.append('find_similar_by_counted')
NOTED = ['find_first_noted', 'find_last_noted']
# The arenas of each script, and its calls: those that are made often, and others.
ARENAS = {
    'lists': [(kind, 'heap') for kind in ('P0', 'P3', 'N3')],
    'copies': [
        (kind, f'copying-{stack}') for kind in ('P0', 'P5', 'N3') for stack in ('heap', 'limited')
    ],
    'searches': [(kind, stack) for kind in LAST for stack in ('heap', 'limited', 'boxed')],
}
ARENAS['lists'] += [('P0', 'array'), ('P1', 'array'), ('P5', 'array')]
ARENAS['copies'] += [('P1', 'copying-array')]
ARENAS['searches'] += [('P0', 'array'), ('P1', 'array')]
COMMON = {
    'lists': '''
        insert insert insert insert get_or_insert get_or_insert_within_capacity remove remove_inx
        find_key invalidate advancer_ordered walk_over_a_change get get_inx_link_no_gen show first
        last set_value walk_from walk_back_from compare repair lower_bound upper_bound
    '''.split(),
    'copies': '''
        insert insert insert insert remove remove_inx find_key invalidate get get_inx show first
        last iter_ordered walk_from walk_back_from repair
    '''.split(),
    'searches': '''
        insert insert insert_within_capacity insert_reallocating get_or_insert_counted entry entry
        entry remove remove_inx search search search search invalidate show check repair
    '''.split(),
}
RARE = {
    'lists': '''
        clear drain drain_ordered pop_first pop_last walk_and_remove walk_ordered_and_remove iter
        vals ptrs iter_ordered into_iter walk walk_nowhere set_key generation capacity max_capacity
        singular_generation inc_generation set_generation len is_empty find_first_inx_ptr
        find_last_inx_ptr contains index get_inx get_inx_unwrap index_set set_inx set_inx_unwrap
    '''.split(),
    'copies': '''
        clear drain drain_ordered walk_and_remove walk walk_nowhere set_key generation capacity
        max_capacity singular_generation inc_generation len is_empty find_first_inx_ptr
        find_last_inx_ptr contains get_inx_unwrap set_inx set_inx_unwrap
    '''.split(),
    'searches': '''
        clear manual generation len capacity max_capacity reallocate_min_capacity
        _check_invariants empty find_with_the_pointer each get_inx_node get_inx_node rank rank
        compress_canonical compress_canonical remove_odd grow
    '''.split(),
}


def a_line(r, script, s, most):
    """A line for an arena with some entries, mostly at one that lives."""
    verb = r.choice((COMMON if r.random() < 0.8 else RARE)[script])
    k, v = r.randrange(most), r.randrange(100)
    i = r.choice(s.order) if s.order and r.random() < 0.85 else r.randrange(1, 12)
    g = s.e[i][0] if i in s.e and r.random() < 0.9 else r.randrange(1, 6)
    g = min(g, s.counter + 3) if s.last else 0
    num = r.choice([0, 1, 2, 3, 5, 7])
    if verb in ('entry', 'empty'):
        kind = 'empty' if verb == 'empty' else r.choice(KINDS)
        return f'{r.choice(FORMS)}:{kind}', [k, v, i, num, int(r.random() < 0.2)]
    if verb == 'manual':
        return a_manual_insertion(r, k, v, i)
    if verb == 'search':
        return r.choice(SEARCHES + NOTED), [k, num, i, g]
    if verb == 'repair':
        return a_repair(s)
    if verb == 'find_with_the_pointer':
        i = s.order[0] if s.order else i
        return verb, [0, 0, i, s.e[i][0] if i in s.e else 2]
    if verb == 'set_key':
        verb = 'set'
    return a_call(r, s, verb, most, k, v, i, g, num)


def a_manual_insertion(r, k, v, i):
    way = r.choice(['less', 'equal', 'greater'])
    if r.random() < 0.5:
        return f'insert_inx_manual:{way}', [k, v, i]
    if r.random() < 0.5:
        way = way.replace('equal', 'none')
        return f'insert_inx_manual_within_capacity:{way}', [k, v, i]
    return f'{r.choice(FORMS)}:manual_{way}', [k, v, i, 0, int(r.random() < 0.2)]


def a_repair(s):
    """The keys are made to ascend again, one a line."""
    keys = s.keys()
    for n, key in enumerate(keys[:-1]):
        if key > keys[n + 1]:
            return 'remove_inx', [s.order[n + 1] if n % 2 else s.order[n]]
    return 'show', []


def a_call(r, s, verb, most, k, v, i, g, num):
    """A call with its numbers."""
    # All are drawn, whatever the call is, so that a seed gives the same lines.
    drawn = {
        'walk_over_a_change': [i, g, r.randrange(2), r.choice(s.order) if s.order else 1, k],
        'advancer_ordered': [i, g, r.randrange(2)],
        'walk_ordered_and_remove': [i, g, r.randrange(2)],
        'each': [r.choice(SEARCHES), 0, most, num, i, g],
        'grow': [r.choice(KINDS + ('insert',)), r.choice([1, 1008, 389]), most, 7, i],
        'drain': [r.randrange(6)],
        'drain_ordered': [r.randrange(6)],
        'reallocate_min_capacity': [r.randrange(20)],
        'set_generation': [r.randrange(1, 6)],
        'compress_canonical': [r.randrange(2)],
        'remove_odd': [r.randrange(most)],
    }
    if verb in ('each', 'grow'):
        form, *numbers = drawn[verb]
        return f'{verb}:{form}', numbers
    if verb in drawn:
        return verb, drawn[verb]
    if verb in ('set', 'index_set'):
        return verb, [i, g, k, v]
    if verb in ('set_inx', 'set_inx_unwrap'):
        return verb, [i, k, v]
    if verb.startswith(('insert', 'get_or_insert')):
        return verb, [k, v]
    if verb in ('remove', 'invalidate', 'get', 'contains', 'index'):
        return verb, [i, g]
    if verb.endswith(('inx', 'unwrap', 'gen', 'node', 'rank', 'from')):
        return verb, [i]
    return verb, {'set_value': [i, g, v], 'find_key': [k]}.get(verb, [])


def a_header(r, script):
    kind, stack = r.choice(ARENAS[script])
    header = f'{kind} {stack}'
    if script == 'copies':
        nth = r.choice([0, 0, 1, 2, 3, 4, 5])
        header += f' {nth} {nth}'
    if script == 'searches':
        rooms = {
            'heap': r.choice([0, 0, 3, 9]),
            'limited': r.choice([0, 5]),
            'boxed': r.choice([0, 4, 12]),
            'array': r.choice([0, 7]),
        }
        nth = r.choice([0, 0, 1, 2, 3, 4])
        header += f' {rooms[stack]} {nth} {nth}'
    return header


def a_whole_line(r, script, play, most):
    whom = 'b' if script != 'searches' and r.random() < 0.1 else 'a'
    verb, words = a_line(r, script, play.a if whom == 'a' else play.b, most)
    if script == 'copies' and r.random() < 0.3:
        whom, verb, words = play.copies.a_line(r)
    elif script == 'copies':
        whom = 'c' if whom == 'b' else 'a'
    elif verb == 'compare':
        whom, words = r.choice(['ab', 'ba']), []
        verb = r.choice(['canonical_eq', 'canonical_partial_cmp', 'canonical_cmp'])
    return ' '.join([whom, verb, *map(str, words)])


def section(r, script, lines):
    header = a_header(r, script)
    nth = turns(header)[0]
    asked, told = [header], [header] + ([f'refused request -> {nth}'] if nth is not None else [])
    try:
        play = Section(header, nth)
    except Refused as refused:
        return asked, told + [f'{header} -> {refused}']
    most = r.choice([8, 20, 60])
    while len(asked) <= lines:
        line = a_whole_line(r, script, play, most)
        try:
            answer = play.play(line)
        except Open:
            continue
        asked.append(line)
        told += answer
    return asked, told


def main():
    words = sys.argv[1:]
    # These programs play over all that their sections name.
    if words in (['answer'], ['answer', 'all']):
        print('\n'.join(answers(sys.stdin.read())))
        return
    script = words.pop(0) if words[:1] in (['copies'], ['searches']) else 'lists'
    if len(words) != 2:
        sys.exit('usage: ord.py [copies|searches] SEED LINES | answer')
    r = random.Random(int(words[0]))
    each, left = [], int(words[1])
    while left > 0:
        each.append(section(r, script, min(left, r.choice([40, 100, 250]))))
        left -= len(each[-1][0])
    print('\n\n'.join('\n'.join(it[0]) for it in each))
    print('\n'.join('\n'.join(it[1]) for it in each), file=sys.stderr)


if __name__ == '__main__':
    main()
