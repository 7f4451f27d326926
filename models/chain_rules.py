"""The rules of chains in plain Python: what every arena of the base does, links, and chains.

Chains are Python lists, each with a mark for a ring. The model knows nothing of how the crates keep
their links: interlinks are read off the lists.
"""
from functools import partial

WORD = 2**64 - 1
LAST = {'P0': WORD, 'P1': 255, 'P3': 2**32 - 1, 'P5': None, 'N3': 3}
INDEXES = {'P0': WORD, 'P1': 255, 'P3': 2**32 - 1, 'P5': WORD, 'N3': 255}
ARRAY = 8
KINDS = {
    'Disconnected': 0,
    'SingleLinkCyclic': 0,
    'ChainEnd': 1,
    'ChainStart': 1,
    'NextTo': 1,
    'PrevTo': 1,
    'AtInterlink': 2,
    'Bridge': 2,
}


class Heap:
    """Counts requests for memory, and refuses one of them."""

    def __init__(self, nth):
        self.left, self.has_refused = nth, False

    def gives(self):
        self.left -= 1
        self.has_refused = self.has_refused or self.left == 0
        return self.left != 0


def some(text):
    return 'None' if text is None else f'Some({text})'


class Arena:
    """Entries by index, the counter, the free list and the room, as each arena of the base has."""

    def __init__(self, kind, stack, heap, reserved, limit):
        self.kind, self.stack, self.heap, self.last = kind, stack, heap, LAST[kind]
        self.entries, self.slots, self.free, self.counter = {}, 0, [], 2
        self.reserved, self.limit = reserved, limit

    # numbers and texts

    def name(self, i, g):
        return f'{self.kind}[{i:x}]' + ('' if self.last is None else f'({g:x})')

    def at(self, i):
        return self.name(i, self.entries[i][0])

    def generation(self, g):
        if self.last is None:
            return '()'
        return f'Gen3 {{ number: {g} }}' if self.kind == 'N3' else str(g)

    def text(self, value):
        return str(value)

    def show(self):
        shown = (f'{self.at(i)}: {self.text(self.entries[i][1])}' for i in sorted(self.entries))
        return '{' + ', '.join(shown) + '}'

    # the room

    def greatest(self):
        return INDEXES[self.kind] if self.limit is None else min(self.limit, INDEXES[self.kind])

    def capacity(self):
        return min(self.reserved, self.greatest())

    def max_capacity(self):
        has_none = self.limit is None and INDEXES[self.kind] == WORD
        return some(None if has_none else self.greatest())

    def grows(self, reserved):
        if self.stack != 'array' and not self.heap.gives():
            return False
        self.reserved = reserved
        return True

    def make_room(self):
        """The refusal, or None."""
        if len(self.entries) < self.capacity():
            return None
        if len(self.entries) == self.greatest():
            return 'BeyondMaxCapacity'
        most = WORD if self.limit is None else self.limit
        return None if self.grows(min(max(4, 2 * self.reserved), most)) else 'AllocError'

    def reach(self, n):
        """Grows to exactly n where n is past the capacity, and gives the refusal or None."""
        if n > self.greatest():
            return 'BeyondMaxCapacity'
        return None if n <= self.capacity() or self.grows(n) else 'AllocError'

    # entries

    def live(self, i, g):
        return i in self.entries and (self.last is None or self.entries[i][0] == g)

    def step(self, text):
        wraps = self.last is not None and self.counter == self.last
        self.counter = 2 if wraps else self.counter + 1
        return f"{'GenerationOverflow' if wraps else 'Success'}({text})"

    def next_index(self):
        return self.free[0] if self.free else self.slots + 1

    def next_name(self):
        return self.name(self.next_index(), self.counter)

    def store(self, value):
        i = self.next_index()
        if self.free:
            self.free.pop(0)
        else:
            self.slots += 1
        self.entries[i] = (self.counter, value)
        return i

    def take(self, i):
        g, value = self.entries.pop(i)
        if i == self.slots:
            self.slots -= 1
        else:
            self.free.insert(0, i)
        return g, value

    def cut(self):
        self.entries, self.slots, self.free = {}, 0, []

    def become(self, entries, counter):
        self.entries, self.counter = entries, counter
        self.slots = max(entries, default=0)
        self.free = [i for i in range(1, self.slots + 1) if i not in entries]


class Links(Arena):
    """An arena of links that are no chains yet.

    Each value is the previous index, the next one, and the value.
    """

    def text(self, value):
        return f'IndexLink {{ prev: {some(value[0])}, next: {some(value[1])}, t: {value[2]} }}'

    def interlinks_agree(self):
        e = self.entries
        return all(
            (next is None or next in e and e[next][1][0] == i)
            and (prev is None or prev in e and e[prev][1][1] == i)
            for i, (_, (prev, next, _)) in e.items()
        )


class Chains(Arena):
    """An arena of chains. `lists` has the indexes of each, and before them whether it is a ring."""

    def __init__(self, *words):
        super().__init__(*words)
        self.lists = []

    # what the lists say

    def list_of(self, i):
        return next(it for it in self.lists if i in it[1])

    def ends(self, i):
        """The previous and the next index of a live index."""
        is_ring, own = self.list_of(i)
        k = own.index(i)
        if is_ring:
            return own[k - 1], own[(k + 1) % len(own)]
        return own[k - 1] if k else None, own[k + 1] if k + 1 < len(own) else None

    def next(self, i):
        return self.ends(i)[1] if i in self.entries else None

    def prev(self, i):
        return self.ends(i)[0] if i in self.entries else None

    def walk(self, i):
        is_ring, own = self.list_of(i)
        k = own.index(i)
        return own[k:] + (own[:k] if is_ring else own[:k][::-1])

    def link(self, i):
        prev, next = map(some, self.ends(i))
        return f'IndexLink {{ prev: {prev}, next: {next}, t: {self.text(self.entries[i][1])} }}'

    def whole_link(self, i):
        prev, next = (some(None if it is None else self.at(it)) for it in self.ends(i))
        return f'Link {{ prev: {prev}, next: {next}, t: {self.text(self.entries[i][1])} }}'

    # what changes the lists

    def replace(self, old, new):
        self.lists = [it for it in self.lists if not any(it is gone for gone in old)] + new

    def meets(self, kind, w):
        """The place that the kind asks for, or None where its requirement is not met.

        The numbers are a value, and then pointers or, by `Inx`, indexes.
        """
        by_index = kind.endswith('Inx')
        kind = kind[:-3] if by_index else kind
        named = (w[1:3] if by_index else w[1:5:2])[: KINDS[kind]]
        for k, i in enumerate(named):
            if not (i in self.entries if by_index else self.live(i, w[2 + 2 * k])):
                return None
        p, q = (*named, None, None)[:2]
        holds = {
            'ChainEnd': lambda: self.next(p) is None,
            'ChainStart': lambda: self.prev(p) is None,
            'AtInterlink': lambda: self.next(p) == q,
            'Bridge': lambda: self.next(p) is None and self.prev(q) is None,
        }.get(kind, lambda: True)
        return (kind, p, q) if holds() else None

    def put(self, place, value):
        kind, p, q = place
        i = self.store(value)
        if p is None:
            self.lists.append((kind == 'SingleLinkCyclic', [i]))
        elif kind == 'Bridge':
            self.join(p, q, [i])
        else:
            own = self.list_of(p)[1]
            own.insert(own.index(p) + (kind not in ('ChainStart', 'PrevTo')), i)
        return i

    def join(self, p, q, between):
        first, second = self.list_of(p), self.list_of(q)
        if first is second:
            self.replace([first], [(True, first[1] + between)])
        else:
            self.replace([first, second], [(False, first[1] + between + second[1])])

    def connect(self, p, q):
        met = self.next(p) is None and self.prev(q) is None
        if met:
            self.join(p, q, [])
        return met

    def break_next(self, p):
        own = self.list_of(p)
        k = own[1].index(p) + 1
        if own[0]:
            self.replace([own], [(False, own[1][k:] + own[1][:k])])
        elif k < len(own[1]):
            self.replace([own], [(False, own[1][:k]), (False, own[1][k:])])
        else:
            return False
        return True

    def exchange_next(self, p, q):
        if self.next(p) is None or self.next(q) is None:
            return False
        first, second = self.list_of(p), self.list_of(q)
        if p == q:
            return True
        if first is second:
            a, b = sorted((first[1].index(p) + 1, first[1].index(q) + 1))
            own = first[1]
            self.replace([first], [(first[0], own[:a] + own[b:]), (True, own[a:b])])
            return True
        if first[0] and not second[0]:
            p, q, first, second = q, p, second, first
        (is_ring, own), (other_is_ring, other) = first, second
        a, b = own.index(p) + 1, other.index(q) + 1
        if other_is_ring:
            new = [(is_ring, own[:a] + other[b:] + other[:b] + own[a:])]
        else:
            new = [(False, own[:a] + other[b:]), (False, other[:b] + own[a:])]
        self.replace([first, second], new)
        return True

    def move(self, p, q, is_behind):
        if p == q:
            return False
        own = self.list_of(p)
        own[1].remove(p)
        if not own[1]:
            self.replace([own], [])
        other = self.list_of(q)[1]
        other.insert(other.index(q) + is_behind, p)
        return True

    def take_out(self, i):
        own = self.list_of(i)
        own[1].remove(i)
        if not own[1]:
            self.replace([own], [])
        return self.take(i)

    def cut(self):
        super().cut()
        self.lists = []

    # the calls

    def answer(self, verb, w):
        """The lines' answers, or [None] where there is none."""
        if ':' in verb:
            return self.insertion(*verb.split(':'), w)
        parts = self.reads, self.reads_links, self.removes, self.changes, self.changes_links
        for part in (*parts, self.walks):
            told = part(verb, *w[:4])
            if told is not None:
                return told
        raise ValueError(verb)

    def insertion(self, form, kind, w):
        place = self.meets(kind, w)
        if form == 'meets':
            return ['true' if place else 'false']
        is_entry = form.startswith('entry_')
        error = None if place else 'FailedLinkRequirement'
        if not place and form in ('insert', 'entry_insert'):
            return ['"not met"']
        if not error and form.endswith('within_capacity'):
            error = None if len(self.entries) < self.capacity() else 'NotWithinCapacity'
        elif not error:
            error = self.make_room()
        if error:
            return [error if is_entry else f'Err({error})']
        if is_entry and w[0] == 0:
            return [self.next_name()]
        p = self.at(self.put(place, w[0]))
        return [p, p] if is_entry else [f'Ok({p})']

    def reads(self, verb, x, y, z, _):
        e, k = self.entries, sorted(self.entries)
        ways = {
            'walk': k,
            'walk_from': [i for i in k if i >= x],
            'walk_back_from': [i for i in reversed(k) if i <= x],
        }
        if verb in ways:
            return [self.at(i) for i in ways[verb]] + ['None']
        texts = {
            'ptrs': self.at,
            'vals': lambda i: str(e[i][1]),
            'iter': lambda i: f'({self.at(i)}, {e[i][1]})',
            'iter_link_no_gen': lambda i: f'({self.at(i)}, {self.link(i)})',
        }
        if verb in texts:
            return [texts[verb](i) for i in k]
        has_room = len(k) < self.capacity()
        value = {
            'get': lambda: some(e[x][1] if self.live(x, y) else None),
            'get_inx': lambda: some(f'({self.generation(e[x][0])}, {e[x][1]})' if x in e else None),
            'get_inx_unwrap': lambda: some(e[x][1] if x in e else None),
            'contains': lambda: str(self.live(x, y)).lower(),
            'at': lambda: str(e[x][1]) if self.live(x, y) else '"not live"',
            'find_first_inx_ptr': lambda: some(self.at(k[0]) if k else None),
            'find_last_inx_ptr': lambda: some(self.at(k[-1]) if k else None),
            'show': self.show,
            'len': lambda: str(len(k)),
            'is_empty': lambda: str(not k).lower(),
            'capacity': lambda: str(self.capacity()),
            'max_capacity': self.max_capacity,
            'slots': lambda: str(self.slots),
            'generation': lambda: self.generation(self.counter),
            'singular_generation': lambda: some(self.generation(self.counter)),
            'next_ptr': lambda: some(self.next_name() if has_room else None),
        }.get(verb)
        return value and [value()]

    def reads_links(self, verb, x, y, z, u):
        e, is_live = self.entries, self.live(x, y)
        if verb in ('iter_chain', 'walk_chain') and not is_live:
            return ['"no chain"']
        if verb == 'iter_chain':
            return [f'({self.at(i)}, {self.link(i)})' for i in self.walk(x)]
        if verb == 'walk_chain':
            return [self.at(i) for i in self.walk(x)] + ['None']
        value = {
            'get_link': lambda: some(self.whole_link(x) if is_live else None),
            'get_link_no_gen': lambda: some(self.link(x) if is_live else None),
            'get_inx_link_no_gen': lambda: some(
                f'({self.generation(e[x][0])}, {self.link(x)})' if x in e else None
            ),
            'are_neighbors': lambda: str(is_live and self.live(z, u) and self.next(x) == z).lower(),
            'are_neighbors_inx': lambda: str(x in e and self.next(x) == y).lower(),
        }.get(verb)
        return value and [value()]

    def removes(self, verb, x, y, *_):
        if verb in ('remove', 'remove_link_no_gen'):
            if not self.live(x, y):
                return ['InvalidPtr']
            link = self.link(x)
            value = self.take_out(x)[1]
            return [self.step(link if verb == 'remove_link_no_gen' else value)]
        if verb in ('remove_inx', 'remove_inx_link_no_gen'):
            if x not in self.entries:
                return ['InvalidPtr']
            link = self.link(x)
            g, value = self.take_out(x)
            item = link if verb == 'remove_inx_link_no_gen' else value
            return [self.step(f'({self.generation(g)}, {item})')]
        return None

    def changes(self, verb, x, y, z, _):
        if verb == 'invalidate':
            if not self.live(x, y):
                return ['InvalidPtr']
            told = self.step('')[:-2]
            self.entries[x] = (self.counter, self.entries[x][1])
            return [f'{told}({self.at(x)})']
        if verb in ('set', 'set_inx', 'put'):
            is_live, value = (x in self.entries, y) if verb == 'set_inx' else (self.live(x, y), z)
            was = self.entries[x][1] if is_live else None
            if is_live:
                self.entries[x] = (self.entries[x][0], value)
            return [some(was)] if verb != 'put' else [None if is_live else '"not live"']
        if verb == 'clear':
            self.cut()
            return [self.step('()')]
        if verb in ('compress', 'compress_with'):
            return self.compress(x == 1, verb == 'compress_with')
        if verb == 'compress_canonical':
            return self.compress_canonical(x == 1)
        if verb == 'drain':
            return self.drain(x)
        if verb in ('inc_generation', 'set_generation'):
            if verb == 'inc_generation':
                return [self.step('()')]
            self.counter = x
            return [None]
        if verb in ('reallocate_min_capacity', 'make_room'):
            error = self.make_room() if verb == 'make_room' else self.reach(x)
            value = self.next_name() if verb == 'make_room' else '()'
            return [f'Err({error})' if error else f'Ok({value})']
        if verb in ('insert_in_gap_within_capacity', 'insert_in_gap_reallocating'):
            return [self.insert_in_gap(x, verb == 'insert_in_gap_reallocating')]
        return None

    def insert_in_gap(self, value, grows):
        if grows:
            error = self.make_room()
        else:
            error = None if len(self.entries) < self.capacity() else 'NotWithinCapacityError'
        if error:
            return f'Err({error})'
        return f'Ok({self.at(self.put(("Disconnected", None, None), value))})'

    def compress(self, resets, maps):
        told, old, k = 'Success(())', self.entries, sorted(self.entries)
        if resets:
            self.counter = 2
        else:
            told = self.step('()')
        new = {i: n + 1 for n, i in enumerate(k)}
        self.become({new[i]: (self.counter, old[i][1] + maps) for i in k}, self.counter)
        self.lists = [(is_ring, [new[i] for i in own]) for is_ring, own in self.lists]
        shown = [f'({self.name(i, old[i][0])}, {old[i][1]}, {self.at(new[i])})' for i in k if maps]
        return shown + [told]

    def in_order(self):
        """The lists in the order of their least indexes, a ring from its least one."""
        lists = []
        for is_ring, own in sorted(self.lists, key=lambda it: min(it[1])):
            k = own.index(min(own)) if is_ring else 0
            lists.append((is_ring, own[k:] + own[:k]))
        return lists

    def canonical_layout(self):
        """The new indexes, where the rules leave one layout alone, or None.

        That is the layout that stands, or that of a single list.
        """
        places = [i for _, own in self.in_order() for i in own]
        if places == list(range(1, len(places) + 1)):
            return {i: i for i in places}
        if len(self.lists) == 1 and not self.lists[0][0]:
            return {i: n + 1 for n, i in enumerate(self.lists[0][1])}
        return None

    def compress_canonical(self, resets):
        new, old, told = self.canonical_layout(), self.entries, 'Success(())'
        if new is None:
            raise ValueError('the rules leave the layout open')
        if resets:
            self.counter = 2
        else:
            told = self.step('()')
        self.become({new[i]: (self.counter, value) for i, (_, value) in old.items()}, self.counter)
        self.lists = [(is_ring, [new[i] for i in own]) for is_ring, own in self.lists]
        return [told]

    def drain(self, count):
        told = []
        for _ in range(count):
            k = sorted(self.entries)
            if k:
                i = k[0]
                name, value = self.at(i), self.entries[i][1]
                self.take_out(i)
                told.append(some(self.step(f'({name}, {value})')))
            else:
                told.append('None')
        left = len(self.entries)
        for _ in range(left):
            self.step('')
        self.cut()
        return told + [str(left)]

    def changes_links(self, verb, x, y, z, u):
        both = dict(connect=self.connect, exchange_next=self.exchange_next)
        both |= {f'move_{it}_to': partial(self.move, is_behind=it == 'next')
                 for it in ('next', 'prev')}
        if verb not in ('break_next', 'break_prev', 'drain_chain', *both):
            return None
        if verb == 'drain_chain':
            return self.drain_chain(x, z) if self.live(x, y) else ['"no chain"']
        is_done = self.live(x, y) and (verb not in both or self.live(z, u))
        if is_done and verb in both:
            is_done = both[verb](x, z)
        elif is_done:
            p = x if verb == 'break_next' else self.prev(x)
            is_done = p is not None and self.break_next(p)
        return [some('()' if is_done else None)]

    def drain_chain(self, i, count):
        told = []
        for n, k in enumerate(self.walk(i)):
            name, link = self.at(k), self.link(k)
            self.take_out(k)
            item = self.step(f'({name}, {link})')
            if n < count:
                told.append(some(item))
        return told + ['None'] * (count - len(told))

    def walks(self, verb, x, y, *_):
        if verb == 'walk_and_remove':
            return [self.removes('remove', i, self.entries[i][0])[0] for i in sorted(self.entries)]
        if verb not in ('walk_chain_and_remove', 'walk_chain_and_break'):
            return None
        if not self.live(x, y):
            return ['"no chain"']
        told, at, goes_back = [], x, False
        # As the advancer gives a link it notes the index that comes next, and ends where nothing
        # is live there.
        while at in self.entries:
            i = at
            prev, next = self.ends(i)
            if goes_back:
                at = prev
            elif next is None:
                at, goes_back = self.prev(x), True
            else:
                at = None if next == x else next
            if verb == 'walk_chain_and_remove':
                told += self.removes('remove', i, self.entries[i][0])
            else:
                told.append(f"({self.at(i)}, {some('()' if self.break_next(i) else None)})")
        return told
