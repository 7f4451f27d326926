"""What `script_ord_copies` must answer to its sections.

`ord_rules.py` has the calls at one arena.
"""

from ord_rules import option


def pieces(entries):
    return '{' + ', '.join(f'{name}: {value}' for name, value in entries) + '}'


def grow_for(target, last):
    """What refuses room up to this index, if anything does."""
    return target.grows(last) if last > target.capacity() else None


def become(target, source, entries):
    """The entries, the list, the tree and the counter of the source."""
    last = max(source.e, default=0)
    target.e, target.order, target.nodes = entries, list(source.order), source.nodes
    target.counter = source.counter
    target.slots, target.free = last, [i for i in range(1, last) if i not in entries]


class Copies:
    """The ordered arenas `a` and `c`, the chain arena `h` and the arena `v` of values.

    They are made by `make`.
    """

    def __init__(self, make, kind, stack):
        plain = 'array' if stack == 'array' else 'heap'
        self.make, self.limited = lambda: make(kind, stack), stack == 'limited'
        self.a, self.c = make(kind, stack), make(kind, stack)
        self.h, self.v = make(kind, plain), make(kind, plain)

    def answer(self, whom, verb, words):
        x = words[0] if words else 0
        if whom in ('a', 'c'):
            return (self.a if whom == 'a' else self.c).answer(verb, words)
        if whom in ('a|', 'c|'):
            return [self.limit(self.a if whom == 'a|' else self.c, x)]
        if whom == 'c=a':
            return [self.clone_from() if verb == 'clone_from' else self.clone()]
        if whom == 'h=a':
            return self.copy(self.h, lambda i: f'({self.a.name(i)}, {self.a.item(i)})', x)
        if whom == 'v=a':
            return self.copy(self.v, self.whole_item, x)
        if whom == 'a<c':
            return self.transfer(self.a, self.c, x)
        if whom == 'a*':
            return self.compress_with(self.a, x == 1)
        if whom == 'h':
            return [self.link(i) for i in sorted(self.h.e)] + [self.h.gen(self.h.counter)]
        if whom == 'v' and verb == 'capacity':
            return [str(self.v.capacity())]
        if whom == 'v' and verb == 'generation':
            return [self.v.gen(self.v.counter)]
        if whom == 'v':
            return [pieces((self.v.name(i), self.v.e[i][2]) for i in sorted(self.v.e))]
        return [None]

    def ordered(self):
        return self.a, self.c

    def a_line(self, r):
        """A line of a copy, or one that shows or limits what is copied."""
        others = ['a|', 'c|', 'c|'] if self.limited else ['h=a', 'v=a', 'h', 'v']
        whom = r.choice(['c=a', 'c=a', 'c=a', 'a<c', 'a*'] + others)
        verbs = {
            'c=a': r.choice(['clone_from', 'clone_from', 'clone']),
            'h=a': 'clone_to_chain_arena',
            'v=a': 'clone_to_arena',
            'h': 'links',
            'v': r.choice(['show', 'show', 'capacity', 'generation']),
            'a<c': 'transfer_canonical',
            'a*': 'compress_with',
        }
        below = {'h=a': 8, 'v=a': 8, 'a<c': 8, 'a*': 2, 'a|': 20, 'c|': 20}
        words = [r.randrange(below[whom])] if whom in below else []
        return whom, verbs.get(whom, 'set_max_capacity'), words

    def neighbors(self, arena, i):
        return option(arena.neighbor(i, -1)), option(arena.neighbor(i, 1))

    def whole_item(self, i):
        prev, next = self.neighbors(self.a, i)
        return f'({self.a.name(i)}, ({prev}, {next}), {self.a.item(i)})'

    def link(self, i):
        h, (prev, next) = self.h, self.neighbors(self.h, i)
        return f'({h.name(i)}, IndexLink {{ prev: {prev}, next: {next}, t: {h.e[i][2]} }})'

    def limit(self, arena, most):
        last = max(arena.e, default=0)
        if most < last:
            return 'Err(MaxCapacityReductionError)'
        if arena.slots > most:
            arena.slots, arena.free = last, [i for i in arena.free if i <= last]
        arena.limit = arena.told_limit = min(most, arena.top)
        return 'Ok(())'

    def transfer(self, target, source, number):
        """Along the list, by a map that tells what it gets and adds 1 to the value."""
        error = grow_for(target, len(source.e))
        if error:
            return [f'Err({error})']
        told, entries, g = [], {}, target.g(number)
        for n, i in enumerate(source.order, 1):
            name, (_, k, v) = source.name(i), source.e[i]
            told.append(f'({name}, {source.step(source.item(i))}, {target.named(n, g)})')
            entries[n] = (g, k, v + 1)
        source.empty()
        target.e, target.counter = entries, g
        target.rebuild(sorted(entries))
        return told + ['Ok(())']

    def compress_with(self, arena, resets):
        """By index, with the same map."""
        names = {i: (arena.name(i), arena.item(i)) for i in sorted(arena.e)}
        to = {i: n for n, i in enumerate(names, 1)}
        answer = 'Success(())' if resets else arena.step('()')
        if resets:
            arena.counter = 2
        arena.e = {to[i]: (arena.counter, k, v + 1) for i, (_, k, v) in arena.e.items()}
        arena.rebuild([to[i] for i in arena.order])
        told = [f'({name}, {item}, {arena.name(to[i])})' for i, (name, item) in names.items()]
        return told + [answer]

    def clone_from(self):
        error = grow_for(self.c, max(self.a.e, default=0))
        if error:
            return f'Err({error})'
        become(self.c, self.a, dict(self.a.e))
        return 'Ok(())'

    def clone(self):
        made = self.make()
        error = grow_for(made, max(self.a.e, default=0))
        if error:
            return error
        become(made, self.a, dict(self.a.e))
        self.c = made
        return None

    def copy(self, target, tell, refused):
        """By a map that adds 1 to a value, and refuses at its call of this number."""
        error = grow_for(target, max(self.a.e, default=0))
        if error:
            return [f'Err({error})']
        told = []
        for n, i in enumerate(sorted(self.a.e), 1):
            told.append(tell(i))
            if n == refused:
                target.empty()
                target.step('')
                return told + ['Err(AllocError)']
        become(target, self.a, {i: (g, k, v + 1) for i, (g, k, v) in self.a.e.items()})
        return told + ['Ok(())']


class Renaming:
    """The ordered arena `x`, whose values are pointers, and the arena `n` of names for them."""

    def __init__(self, make, kind, _):
        self.x, self.n = make(kind, 'heap'), make(kind, 'heap')

    def ordered(self):
        return self.x, None

    def answer(self, whom, verb, words):
        x, y, z = (list(words) + [0] * 3)[:3]
        if whom == 'x':
            if verb == 'insert':
                return [self.x.insert(x, self.x.named(self.x.i(y), self.x.g(z)), True)[0]]
            return self.x.answer(verb, words)
        if whom == 'x<n':
            return [self.recast()]
        return [self.name(verb, x, y)] if whom == 'n' else [None]

    def name(self, verb, x, y):
        n = self.n
        if verb == 'insert':
            error = n.room(True)
            if error:
                return f'Err({error})'
            return f'Ok({n.name(n.put(len(n.order), 0, n.named(n.i(x), n.g(y))))})'
        if verb == 'remove':
            return n.step(n.take(n.i(x))[2]) if n.live(n.i(x), n.g(y)) else 'InvalidPtr'
        return pieces((n.name(i), n.e[i][2]) for i in sorted(n.e))

    def recast(self):
        images = {self.n.name(i): entry[2] for i, entry in self.n.e.items()}
        for i in sorted(self.x.e):
            g, k, v = self.x.e[i]
            if v not in images:
                return f'Err({v})'
            self.x.e[i] = (g, k, images[v])
        return 'Ok(())'
