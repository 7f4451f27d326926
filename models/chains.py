#!/usr/bin/env python3
"""Plays the sections of `script_chain` by the rules of `chain_rules.py`, and writes random ones.

usage: chains.py SEED LINES >stdin 2>stdout     random sections, some LINES lines in all
       chains.py answer <stdin >stdout          what the gate must answer to these sections
       chains.py answer all <stdin >stdout      the same over all that their headers name
"""
import random
import sys

sys.dont_write_bytecode = True

from chain_lines import Writer
from chain_rules import ARRAY, Arena, Chains, Heap, KINDS, LAST, Links, WORD, some
from kinds import of_gate, played


class Section:
    """The arenas of a section, and the transcript."""

    def __init__(self, kind, stack, room, nth):
        self.kind, self.stack, self.heap = kind, stack, Heap(nth)
        made = [self.new(it, room) for it in (Chains, Chains, Links, Arena)]
        self.error = next((('made', it) for it in made if isinstance(it, str)), None)
        self.a, self.b, self.l, self.v = made

    def end(self):
        return []

    def new(self, which, room):
        limit = {'boxed': room, 'array': ARRAY}.get(self.stack)
        made = which(self.kind, self.stack, self.heap, ARRAY if self.stack == 'array' else 0, limit)
        error = made.reach(room)
        return error or made

    def answer(self, line):
        """The answers to a line, or [None] where it stands as it is."""
        whom, verb, *numbers = [*line.split(' '), '']
        w = [int(it) if it.isdigit() else 0 for it in numbers] + [0] * 5
        if whom in ('a', 'b'):
            return getattr(self, whom).answer(verb, w)
        if whom == 'a|':
            return self.set_max_capacity(w[0])
        if whom == 'l':
            return self.link(verb, w)
        if whom == 'v':
            return [self.v.show()]
        if whom == 'a=b':
            return self.copy(self.a, verb, w[0])
        if whom == 'a<b':
            return self.transfer(self.a, self.b, w[0])
        if whom == 'v=a':
            return self.clone_from_with(self.v, self.a, w[0])
        if whom == 'a=l':
            return self.from_arena(verb)
        return [None]

    def set_max_capacity(self, n):
        a = self.a
        if n < max(a.entries, default=0):
            return ['Err(MaxCapacityReductionError)']
        if a.slots > n:
            a.slots = max(a.entries, default=0)
            a.free = [i for i in a.free if i <= a.slots]
        a.limit = n
        return ['Ok(())']

    def link(self, verb, w):
        l = self.l
        if verb == 'insert':
            error = l.make_room()
            if error:
                return [f'Err({error})']
            i = l.store((w[1] or None, w[2] or None, w[0]))
            return [f'Ok({l.at(i)})']
        if verb == 'remove':
            return [l.step(l.text(l.take(w[0])[1]))] if l.live(w[0], w[1]) else ['InvalidPtr']
        if verb == 'clear':
            l.cut()
            return [l.step('()')]
        return [str(l.interlinks_agree()).lower() if verb == 'interlinks_agree' else l.show()]

    def copy(self, target, verb, refused):
        source = self.b
        if verb == 'clone':
            made = self.new(Chains, max(source.entries, default=0))
            if isinstance(made, str):
                return [made]
            made.become(dict(source.entries), source.counter)
            made.lists = [(is_ring, list(own)) for is_ring, own in source.lists]
            self.a = made
            return [None]
        if verb == 'clone_from':
            return self.clone_from_with(target, source, None)
        return self.clone_from_with(target, source, refused)

    def clone_from_with(self, target, source, refused):
        """By a map that adds 1 and refuses at the call of that number.

        Where the number is None, it is by clones of the values.
        """
        maps = refused is not None
        error = target.reach(max(source.entries, default=0))
        if error:
            return [f'Err({error})']
        told = []
        for n, i in enumerate(sorted(source.entries)):
            told.append(f'({source.at(i)}, {source.link(i)})')
            if maps and n + 1 == refused:
                target.cut()
                target.step('')
                return told + ['Err(AllocError)']
        entries = {i: (g, value + maps) for i, (g, value) in source.entries.items()}
        target.become(entries, source.counter)
        if isinstance(target, Chains):
            target.lists = [(is_ring, list(own)) for is_ring, own in source.lists]
        return (told if maps else []) + ['Ok(())']

    def transfer(self, target, source, generation):
        """Takes all chains of the source, which steps for each link.

        The map tells what it gets, and adds 1.
        """
        error = target.reach(len(source.entries))
        if error:
            return [f'Err({error})']
        told, moved, lists = [], {}, []
        for is_ring, own in source.in_order():
            lists.append((is_ring, [len(moved) + n + 1 for n in range(len(own))]))
            for i in own:
                name, value, new = source.at(i), source.entries[i][1], len(moved) + 1
                told.append(f'({name}, {source.step(value)}, {target.name(new, generation)})')
                moved[new] = (generation, value + 1)
        source.cut()
        target.become(moved, generation)
        target.lists = lists
        return told + ['Ok(())']

    def from_arena(self, verb):
        a, l = self.a, self.l
        if not l.interlinks_agree():
            return ['None' if verb == 'exchange_arena' else '"handed back"']
        left = self.new(Links, 0) if verb == 'from_arena' else self.as_links(a)
        self.a, self.l = self.as_chains(l), left
        return [None if verb == 'from_arena' else 'Some(())']

    @staticmethod
    def moved(which, old):
        made = which(old.kind, old.stack, old.heap, old.reserved, old.limit)
        made.slots, made.free, made.counter = old.slots, old.free, old.counter
        return made

    def as_links(self, a):
        made = self.moved(Links, a)
        made.entries = {i: (g, (*a.ends(i), value)) for i, (g, value) in a.entries.items()}
        return made

    def as_chains(self, l):
        made = self.moved(Chains, l)
        made.entries = {i: (g, value[2]) for i, (g, value) in l.entries.items()}
        next = {i: value[1] for i, (_, value) in l.entries.items()}
        starts = [i for i, (_, value) in l.entries.items() if value[0] is None]
        seen = set()
        for i in starts + sorted(l.entries):
            own, k = [], i
            while k is not None and k not in seen:
                seen.add(k)
                own.append(k)
                k = next[k]
            if own:
                made.lists.append((i not in starts, own))
        return made


class Renaming:
    """Chains `x` of pointers, the arena `t` of what they point to, and names `n` for pointers."""

    def __init__(self, kind, nth):
        self.kind, self.heap = kind, Heap(nth)
        self.x, self.t = (it(self.kind, 'heap', self.heap, 0, None) for it in (Chains, Arena))
        self.x.text = self.text
        self.names = {}
        self.error = None if self.heap.gives() else ('names', 'AllocError')

    def pointer(self, i, g):
        return i, None if LAST[self.kind] is None else g

    def text(self, p):
        return self.x.name(*p)

    def shown(self, names):
        shown = (f'{self.text(p)}: {self.text(names[p])}' for p in sorted(names))
        return '{' + ', '.join(shown) + '}'

    def recast(self, names):
        for i in sorted(self.x.entries):
            g, p = self.x.entries[i]
            if p not in names:
                return f'Err({self.text(p)})'
            self.x.entries[i] = (g, names[p])
        return 'Ok(())'

    def answer(self, line):
        whom, verb, *numbers = [*line.split(' '), '']
        w = [int(it) if it.isdigit() else 0 for it in numbers] + [0] * 5
        if whom == 't':
            return [self.point_to(verb, w)]
        if whom == 'n':
            return self.give_name(w)
        if whom == 'x<n':
            return [self.recast(self.names)]
        return self.hold(verb, w) if whom == 'x' else [None]

    def point_to(self, verb, w):
        t = self.t
        if verb == 'insert':
            error = t.make_room()
            return f'Err({error})' if error else f'Ok({t.at(t.store(w[0]))})'
        if verb == 'remove':
            return t.step(str(t.take(w[0])[1])) if t.live(w[0], w[1]) else 'InvalidPtr'
        return t.show()

    def give_name(self, w):
        p, refusal = self.pointer(w[0], w[1]), None
        if not 0 < w[0] <= 5:
            refusal = 'NotWithinCapacity'
        elif any(q[0] == w[0] for q in self.names):
            refusal = 'ExistingElementAtIndex'
        else:
            self.names[p] = self.pointer(w[2], w[1])
        return ([refusal] if refusal else []) + [self.shown(self.names)]

    def hold(self, verb, w):
        x = self.x
        if verb == 'show':
            return [x.show()]
        if verb == 'get_link':
            return [some(x.whole_link(w[0]) if x.live(*w[:2]) else None)]
        if verb == 'remove_inx':
            if w[0] not in x.entries:
                return ['InvalidPtr']
            g, p = x.take_out(w[0])
            return [x.step(f'({x.generation(g)}, {self.text(p)})')]
        place = x.meets(verb, [0, *w[2:], 0])
        error = x.make_room() if place else 'FailedLinkRequirement'
        return [f'Err({error})' if error else f'Ok({x.at(x.put(place, self.pointer(w[0], w[1])))})']

    def end(self):
        """The targets are compressed, and the chains recast by the map of that, twice."""
        k = sorted(self.t.entries)
        if k and not self.heap.gives():
            return ['made -> AllocError']
        old = {i: self.pointer(i, self.t.entries[i][0]) for i in k}
        self.t.step('')
        names = {old[i]: self.pointer(n + 1, self.t.counter) for n, i in enumerate(k)}
        out = [f'compress_recaster -> {self.shown(names)}']
        for line in ('recast', 'recast again'):
            out += [f'{line} -> {self.recast(names)}', f'show -> {self.x.show()}']
        return out


def told(line, answers):
    return [line if it is None else f'{line} -> {it}' for it in answers]


def answers_to(section, gate):
    """The transcript of a section that is given."""
    header, *lines = section.split('\n')
    room, first, last = [*header.split(' '), '0', '0', '0'][2:5]
    out = [header]
    for kind, stack in played(header, gate):
        for nth in range(int(first), int(last) + 1):
            out += answers_over(kind, stack, int(room), nth, lines)
    return out


def answers_over(kind, stack, room, nth, lines):
    out = [f'over -> ("{kind}", "{stack}", {nth})']
    if stack == 'renaming':
        s = Renaming(kind, nth or WORD)
    else:
        s = Section(kind, stack, room, nth or WORD)
    if s.error:
        out.append(f'{s.error[0]} -> {s.error[1]}')
    else:
        for line in lines:
            out += told(line, s.answer(line))
    return out + s.end() + [f'was refused -> {str(s.heap.has_refused).lower()}']


# random sections


def section(r, kind, stack, lines):
    room = 0 if stack == 'array' else r.choice([1, 3, 6, 12] if stack == 'boxed' else [0, 2, 5])
    header = f'{kind} {stack} {room}'
    s = Section(kind, stack, room, WORD)
    writer = Writer(r, s, KINDS)
    asked, answers = [header], [header, f'over -> ("{kind}", "{stack}", 0)']
    for _ in range(lines):
        line = writer.line()
        asked.append(line)
        answers += told(line, s.answer(line))
    return asked, [*answers, 'was refused -> false']


def write_random(seed, lines):
    r = random.Random(seed)
    pairs = [(kind, stack) for kind in LAST for stack in ('heap', 'limited', 'boxed', 'array')]
    made = [section(r, kind, stack, max(1, lines // len(pairs))) for kind, stack in pairs]
    print('\n\n'.join('\n'.join(it[0]) for it in made))
    print('\n'.join('\n'.join(it[1]) for it in made), file=sys.stderr)


def main(words):
    if words[:1] == ['answer']:
        gate = None if words[1:] == ['all'] else of_gate('script_chain')
        sections = sys.stdin.read().rstrip('\n').split('\n\n')
        print('\n'.join('\n'.join(answers_to(it, gate)) for it in sections))
    elif len(words) == 2:
        write_random(int(words[0]), int(words[1]))
    else:
        sys.exit('usage: chains.py SEED LINES | answer [all]')


if __name__ == '__main__':
    main(sys.argv[1:])
