"""The rules of ordered arenas in plain Python: one list of entries, a counter and the free slots.

The model knows nothing of the library. What the rules leave open (which of two neighbors a search
answers, which of several equal keys, the tree's shape) the scripts tell in a form that does not
depend on it, and where they cannot, the model refuses the line.
"""

LAST = {'P0': 2**64 - 1, 'P1': 255, 'P3': 2**32 - 1, 'P5': None, 'N3': 3}
TOP = {'P0': 2**64 - 1, 'P1': 255, 'P3': 2**32 - 1, 'P5': 2**64 - 1, 'N3': 255}
ARRAY = 8
PRIME = 1009
FORMS = ('entry_insert', 'entry_insert_reallocating', 'entry_insert_within_capacity')


class Open(Exception):
    """The rules leave the answer open."""


class Refused(Exception):
    """An arena could not be made."""


class Heap:
    """Counts the requests for memory, and refuses one of them."""

    def __init__(self, nth):
        self.nth, self.seen = nth, 0

    def gives(self):
        self.seen += 1
        return self.seen != self.nth


def option(it):
    return 'None' if it is None else f'Some({it})'


def worse(first, second):
    """The one of two notes on comparisons that tells more."""
    if 'Within' in (first, second):
        return 'Within'
    if first == 'Nothing':
        return second
    if second == 'Nothing':
        return first
    return max(first, second, key=lambda it: int(it[6:-1]))


def halving(part, parent, top, nodes):
    """The nodes of the halving tree over these indexes: parent, children and rank by index.

    It answers the root. A part of more than four entries has the rank that is given, and others
    have one by their number.
    """
    if not part:
        return None
    middle = len(part) // 2
    root = part[middle]
    rank = top if len(part) > 4 else (1, 2, 3, 3)[len(part) - 1]
    left = halving(part[:middle], root, top - 1, nodes)
    right = halving(part[middle + 1 :], root, top - 1, nodes)
    nodes[root] = (parent, left, right, rank)
    return root


class Arena:
    """An ordered arena: the entries by index, and the list of their indexes."""

    def __init__(self, kind, stack, room, heap, counting):
        # Whether insertions and searches are told with a note on their comparisons.
        self.counting = counting
        self.kind, self.heap, self.last, self.top = kind, heap, LAST[kind], TOP[kind]
        self.e, self.order, self.slots, self.free, self.counter = {}, [], 0, [], 2
        # The nodes of the tree, where its shape is known.
        self.nodes = None
        self.limit = {
            'heap': self.top,
            'limited': self.top,
            'boxed': min(room, self.top),
            'array': ARRAY,
        }[stack]
        if room > (ARRAY if stack == 'array' else self.top):
            raise Refused('BeyondMaxCapacity')
        if room > 0 and stack != 'array' and not heap.gives():
            raise Refused('AllocError')
        self.reserved = ARRAY if stack == 'array' else room
        has_none = stack in ('heap', 'limited') and self.top == 2**64 - 1
        self.told_limit = None if has_none else self.limit

    # Pointers, generations and the counter.

    def i(self, number):
        return number if 0 < number <= self.top else self.top

    def g(self, number):
        """The generation that the script takes from a number."""
        if self.last is None or number == 1:
            return 1
        return 2 + (max(number, 2) - 2) % (self.last - 1)

    def gen(self, g):
        if self.last is None:
            return '()'
        return f'Gen3 {{ number: {g} }}' if self.kind == 'N3' else str(g)

    def name(self, i):
        return self.named(i, self.e[i][0])

    def named(self, i, g):
        return f'{self.kind}[{i:x}]' + ('' if self.last is None else f'({g:x})')

    def item(self, i):
        return f'({self.e[i][1]}, {self.e[i][2]})'

    def step(self, text):
        wraps = self.last is not None and self.counter == self.last
        self.counter = 2 if wraps else self.counter + 1
        return f"{'GenerationOverflow' if wraps else 'Success'}({text})"

    def live(self, i, g):
        return i in self.e and (self.last is None or self.e[i][0] == g)

    # Slots and room.

    def grows(self, want):
        """What refuses room for so many entries, if anything does."""
        if want > self.limit:
            return 'BeyondMaxCapacity'
        if not self.heap.gives():
            return 'AllocError'
        self.reserved = want
        return None

    def capacity(self):
        return min(self.reserved, self.limit)

    def room(self, growing):
        """What refuses a new entry, if anything does."""
        if len(self.e) < self.capacity():
            return None
        if not growing:
            return 'NotWithinCapacity'
        if self.capacity() == self.limit:
            return 'BeyondMaxCapacity'
        return self.grows(min(max(4, 2 * self.capacity()), self.limit))

    def next_index(self):
        return self.free[0] if self.free else self.slots + 1

    def put(self, at, k, v):
        """A new entry before the one at this place of the list."""
        i = self.next_index()
        if self.free:
            self.free.pop(0)
        else:
            self.slots += 1
        self.e[i] = (self.counter, k, v)
        self.order.insert(at, i)
        self.nodes = None
        return i

    def take(self, i):
        gone = self.e.pop(i)
        self.order.remove(i)
        self.nodes = None
        if i == self.slots:
            self.slots -= 1
        else:
            self.free.insert(0, i)
        return gone

    def empty(self):
        self.e, self.order, self.slots, self.free = {}, [], 0, []
        self.nodes = None

    def compress_canonical(self, resets):
        told, n = 'Success(())', len(self.order)
        if resets:
            self.counter = 2
        else:
            told = self.step('()')
        self.e = {at + 1: (self.counter, *self.e[i][1:]) for at, i in enumerate(self.order)}
        self.rebuild(list(range(1, n + 1)))
        return [told]

    def rebuild(self, order):
        """The list has these indexes, which are all from 1 on, and the tree is written anew."""
        n = len(order)
        self.order, self.slots, self.free, self.nodes = order, n, [], {}
        halving(order, None, 1 + next(t for t in range(n + 1) if 2**t >= n - 1), self.nodes)

    # The list and its keys.

    def keys(self):
        return [self.e[i][1] for i in self.order]

    def ascends(self):
        k = self.keys()
        return all(a <= b for a, b in zip(k, k[1:]))

    def equals(self, k):
        return [n for n, key in enumerate(self.keys()) if key == k]

    def gap(self, k):
        """How many entries stand before the place of a key that is not there."""
        return sum(key < k for key in self.keys())

    def neighbor(self, i, step):
        n = self.order.index(i) + step
        return self.order[n] if 0 <= n < len(self.order) else None

    def along(self, i, k):
        """How many comparisons a search from an index along the list makes.

        It goes until it comes to a key, or over its place.
        """
        s, keys = self.order.index(i), self.keys()
        if keys[s] == k:
            return 1
        way = keys[s:] if keys[s] < k else keys[s::-1]
        for n, key in enumerate(way):
            if key == k or (key < k) != (keys[s] < k):
                return n + 1
        return len(way)

    def work(self, comparing=True):
        return 'Within' if comparing and self.e else 'Nothing'

    def work_along(self, i, k, num):
        if i in self.e and self.ascends() and self.along(i, k) <= num:
            return f'Along({self.along(i, k)})'
        return self.work()

    def place(self, k, similar):
        if not self.ascends():
            return 'Anywhere'
        equals = self.equals(k)
        if equals:
            return f'At({self.name(self.order[equals[0]])})' if len(equals) == 1 else f'OneOf({k})'
        if not similar or not self.e:
            return 'Nowhere'
        return self.between(self.gap(k))

    def noted(self, k, first):
        """The first entry with a key, with the one before it.

        Or the last whose key is not above, with the one behind.
        """
        if not self.ascends():
            return 'Anywhere'
        noted = [n for n, key in enumerate(self.keys()) if (key == k if first else key <= k)]
        if not noted:
            return 'Nowhere'
        return self.between(noted[0] if first else noted[-1] + 1)

    def between(self, n):
        """The entries before and behind a place of the list."""
        before = self.name(self.order[n - 1]) if n else None
        after = self.name(self.order[n]) if n < len(self.order) else None
        return f'Between({option(before)}, {option(after)})'

    def search(self, verb, k, num, i, g):
        """The place, and the note on comparisons, or None where there is no such search."""
        verb = verb.removesuffix('_counted')
        if verb in ('find_key', 'find_with'):
            return self.place(k, False), self.work()
        if verb in ('find_similar_key', 'find_similar_with', 'find_similar_by'):
            return self.place(k, True), self.work()
        if verb in ('find_first_noted', 'find_last_noted'):
            return self.noted(k, verb == 'find_first_noted'), self.work()
        if verb == 'find_key_linear':
            found = self.live(i, g) and self.ascends() and self.equals(k)
            return self.place(k, False), self.work_along(i, k, num) if found else self.work()
        if verb == 'find_similar_key_linear':
            return self.place(k, True), self.work_along(i, k, num)
        if verb == 'find_with_the_pointer':
            if not self.ascends() or not self.order or not self.live(i, g) or self.order[0] != i:
                raise Open
            return self.place(self.e[i][1], False), self.work()
        return None

    def found(self, place):
        """What a search without a note answers, where there is one answer alone."""
        if place.startswith(('Anywhere', 'OneOf')):
            raise Open
        return 'None' if place == 'Nowhere' else f'Some({place[3:-1]})'

    # Insertions.

    def kind_place(self, kind, k, i, num):
        """Where a kind puts its item, or None.

        That is a place in the list, and whether the item replaces what stands there.
        """
        if kind == 'empty':
            return None if self.e else (0, False)
        if kind.startswith('manual'):
            if i not in self.e:
                return None
            n = self.order.index(i)
            return {
                'manual_less': (n, False),
                'manual_equal': (n, True),
                'manual_greater': (n + 1, False),
            }[kind]
        if not self.ascends():
            raise Open
        equals = self.equals(k)
        if not equals:
            return self.gap(k), False
        n = equals[0]
        if len(equals) > 1:
            if not kind.endswith('linear') or i not in self.e or self.along(i, k) > num:
                raise Open
            s = self.order.index(i)
            n = s + (self.along(i, k) - 1) * (-1 if self.e[i][1] > k else 1)
        return n, not kind.startswith('nonhereditary')

    def kind_work(self, kind, k, i, num):
        if kind == 'empty' or kind.startswith('manual'):
            return 'Nothing'
        return self.work_along(i, k, num) if kind.endswith('linear') else self.work()

    def enter(self, kind, k, v, i, num, growing, used):
        """What an entry tells, the item's index, and the note on comparisons.

        It tells the item that it replaces, if any, or the error.
        """
        place, work = self.kind_place(kind, k, i, num), self.kind_work(kind, k, i, num)
        if place is None:
            return 'Err(FailedOrdRequirement)', None, work
        n, replaces = place
        if replaces:
            at = self.order[n]
            old = self.item(at)
            if used:
                self.e[at] = (self.e[at][0], k, v)
            return f'Ok((Replacing({self.name(at)}), {option(old if used else None)}))', at, work
        error = self.room(growing)
        if error:
            return f'Err({error})', None, work
        told = f'Ok((New({self.named(self.next_index(), self.counter)}), None))'
        return told, self.put(n, k, v) if used else None, work

    def insert(self, k, v, growing):
        """What an insertion tells, and the note on comparisons."""
        told, _, work = self.enter('normal', k, v, 0, 0, growing, True)
        for word in ('New(', 'Replacing('):
            if word in told:
                told = told.replace(word, '', 1).replace('),', ',', 1)
        return told, work

    def get_or_insert(self, k, v, growing):
        """The same of one that leaves an entry with the key as it is."""
        n, is_there = self.kind_place('normal', k, 0, 0)
        if is_there:
            return f'Ok(({self.name(self.order[n])}, Some(({k}, {v}))))', self.work()
        return self.insert(k, v, growing)

    def grow(self, kind, factor, last, num, start):
        worst, i = 'Nothing', self.i(start)
        if not self.ascends() or any(len(self.equals(k)) > 1 for k in range(1, last + 1)):
            raise Open
        for n in range(1, PRIME):
            k = n * factor % PRIME
            if k <= last:
                kind_of = 'normal' if kind == 'insert' else kind
                _, at, work = self.enter(kind_of, k, 2 * k, i, num, True, True)
                worst = worse(worst, work)
                if start == 0 and at is not None:
                    i = at
        return f'({len(self.e)}, {worst})'

    def each(self, verb, first, last, num, i, g):
        tally, worst = {'equal': 0, 'beside': 0, 'nowhere': 0, 'wrong': 0}, 'Nothing'
        words = {'At': 'equal', 'Between': 'beside', 'Nowhere': 'nowhere'}
        for k in range(first, last + 1):
            place, work = self.search(verb, k, num, i, g)
            worst = worse(worst, work)
            tally[words.get(place.partition('(')[0], 'wrong')] += 1
        told = ''.join(f'{word}: {n}, ' for word, n in tally.items())
        return f'Tally {{ {told}work: {worst} }}'

    # Walks.

    def walk(self, i, step):
        """The indexes from one on along the list, or backward."""
        n = self.order.index(i)
        return self.order[n:] if step > 0 else self.order[n::-1]

    def walk_over_a_change(self, i, step, j, k):
        if not self.ascends() and [n for n in self.order if n != j] != []:
            left = [self.e[n][1] for n in self.order if n != j]
            if any(a > b for a, b in zip(left, left[1:])):
                raise Open
        if len(self.equals(k)) > 1:
            raise Open
        told, at = [option(self.name(i))], self.neighbor(i, step)
        told += self.answer('remove_inx', [j]) + [self.insert(k, 0, True)[0]]
        if at is not None and at in self.e:
            told += [self.name(n) for n in self.walk(at, step)]
        return told + ['None']

    # The calls.

    def answer(self, verb, words):
        """The answers to a call, each of a line of its own; None stands for none."""
        x, y, z, u, w = (list(words) + [0] * 5)[:5]
        i, g = self.i(x), self.g(y)
        if ':' in verb:
            return self.answer_named(verb, x, y, z, u, w)
        if verb in ('insert', 'insert_reallocating', 'insert_within_capacity'):
            told, work = self.insert(x, y, verb != 'insert_within_capacity')
            return [f'({told}, {work})' if self.counting else told]
        if verb.startswith('get_or_insert'):
            told, work = self.get_or_insert(x, y, not verb.endswith('within_capacity'))
            return [f'({told}, {work})' if self.counting else told]
        if verb.startswith('find_') and not verb.endswith('inx_ptr'):
            place, work = self.search(verb, x, y, self.i(z), self.g(u))
            return [f'({place}, {work})' if self.counting else self.found(place)]
        if verb == 'most_comparisons':
            return [str(max(c for c in range(130) if c == 0 or 2 ** (c + 1) <= (x + 1) ** 2))]
        if verb == 'remove_odd':
            if not self.ascends() or any(len(self.equals(k)) > 1 for k in range(1, x + 1, 2)):
                raise Open
            for k in range(1, x + 1, 2):
                for n in self.equals(k):
                    self.answer('remove_inx', [self.order[n]])
            return [str(len(self.e))]
        for answers in (self.removes, self.writes, self.walks, self.reads):
            told = answers(verb, i, g, x, y, z, u, w)
            if told is not None:
                return told
        return ['"no such call"']

    def answer_named(self, verb, x, y, z, u, w):
        form, kind = verb.split(':')
        if form == 'insert_inx_manual':
            if self.i(z) not in self.e:
                return ['"not live"']
            told, _, _ = self.enter(f'manual_{kind}', x, y, self.i(z), 0, True, True)
            if told.startswith('Ok'):
                told = 'Ok(' + told[told.index(', ') + 2 : -1]
            return [f'({told}, Nothing)']
        if form == 'insert_inx_manual_within_capacity':
            if kind == 'none' and self.e:
                return ['"not empty"']
            if kind != 'none' and self.i(z) not in self.e:
                return ['"not live"']
            kind = 'empty' if kind == 'none' else f'manual_{kind}'
            told, _, _ = self.enter(kind, x, y, self.i(z), 0, False, True)
            if told.startswith('Err'):
                return ['"no room"']
            return [f'({told.removeprefix("Ok((New(").removesuffix("), None))")}, Nothing)']
        if form in FORMS:
            told, _, work = self.enter(
                kind, x, y, self.i(z), u, not form.endswith('within_capacity'), w != 1
            )
            return [f'({told}, {work})']
        if form == 'grow':
            return [self.grow(kind, x, y, z, u)]
        return [self.each(kind, x, y, z, self.i(u), self.g(w))]

    def remove(self, i):
        _, k, v = self.take(i)
        return self.step(f'({k}, {v})')

    def removes(self, verb, i, g, x, y, z, u, w):
        if verb == 'remove':
            return [self.remove(i) if self.live(i, g) else 'InvalidPtr']
        if verb == 'remove_inx':
            if i not in self.e:
                return ['InvalidPtr']
            h, k, v = self.take(i)
            return [self.step(f'({self.gen(h)}, ({k}, {v}))')]
        if verb == 'invalidate':
            if not self.live(i, g):
                return ['InvalidPtr']
            told = self.step('')[:-2]
            self.e[i] = (self.counter, *self.e[i][1:])
            return [f'{told}({self.name(i)})']
        if verb in ('pop_first', 'pop_last'):
            if not self.order:
                return ['None']
            n = self.order[0 if verb == 'pop_first' else -1]
            told = f'({self.name(n)}, {self.item(n)})'
            self.take(n)
            return [option(self.step(told))]
        if verb == 'clear':
            self.empty()
            return [self.step('()')]
        if verb in ('drain', 'drain_ordered'):
            way = sorted(self.e) if verb == 'drain' else self.order
            told = [option(self.step(f'({self.name(n)}, {self.item(n)})')) for n in way[:x]]
            told += ['None'] * (x - len(way))
            left = len(way[x:])
            for _ in range(left if verb == 'drain' else 1):
                self.step('')
            self.empty()
            return told + [str(left) if verb == 'drain' else f'({left}, Some({left}))']
        return None

    def writes(self, verb, i, g, x, y, z, u, w):
        at, k, v = {
            'set': (self.live(i, g), z, u),
            'index_set': (self.live(i, g), z, u),
            'set_inx': (i in self.e, y, z),
            'set_inx_unwrap': (i in self.e, y, z),
            'set_value': (self.live(i, g), None, z),
        }.get(verb, (None, 0, 0))
        if at is not None:
            was = self.e.get(i)
            told = option(self.item(i) if at else None)
            if verb == 'set_value':
                told, k = option(was[2] if at else None), was[1] if at else 0
            if at:
                self.e[i] = (was[0], k, v)
            return [str(at).lower()] if verb in ('index_set', 'set_inx_unwrap') else [told]
        if verb == 'set_generation':
            self.counter = self.g(x)
            return [None]
        if verb == 'inc_generation':
            return [self.step('()')]
        if verb == 'compress_canonical':
            return self.compress_canonical(x == 1)
        if verb == 'reallocate_min_capacity':
            error = self.grows(x) if x > self.capacity() else None
            return [f'Err({error})' if error else 'Ok(())']
        return None

    def walks(self, verb, i, g, x, y, z, u, w):
        rising = sorted(self.e)
        step = -1 if z == 1 else 1
        way = {
            'walk': rising,
            'walk_from': [n for n in rising if n >= i],
            'walk_back_from': [n for n in reversed(rising) if n <= i],
            'walk_nowhere': [],
        }.get(verb)
        if way is not None:
            return [self.name(n) for n in way] + ['None']
        if verb == 'walk_and_remove':
            return [self.remove(n) for n in rising]
        if verb in ('advancer_ordered', 'walk_ordered_and_remove', 'walk_over_a_change'):
            if not self.live(i, g):
                return ['"no walk"']
            if verb == 'walk_over_a_change':
                return self.walk_over_a_change(i, step, self.i(u), w)
            way = self.walk(i, step)
            if verb == 'advancer_ordered':
                return [self.name(n) for n in way] + ['None']
            return [self.remove(n) for n in way]
        return {
            'ptrs': lambda: [self.name(n) for n in rising],
            'vals': lambda: [self.item(n) for n in rising],
            'iter': lambda: [f'({self.name(n)}, {self.item(n)})' for n in rising],
            'iter_ordered': lambda: [f'({self.name(n)}, {self.item(n)})' for n in self.order],
            'into_iter': lambda: [f'({self.name(n)}, {self.item(n)})' for n in self.order],
        }.get(verb, lambda: None)()

    def reads(self, verb, i, g, x, y, z, u, w):
        rising, order = sorted(self.e), self.order
        if verb in ('get_inx_link_no_gen', 'get_inx_node', 'rank') and i not in self.e:
            return ['"not live"']
        if verb in ('get_inx_link_no_gen', 'get_inx_node'):
            ends = f'({option(self.neighbor(i, -1))}, {option(self.neighbor(i, 1))})'
            told = [f'({self.gen(self.e[i][0])}, {ends}, {self.item(i)})']
            return told if verb == 'get_inx_link_no_gen' else told + [self.node(i)]
        if verb == 'rank':
            return [self.rank(i)]
        at = option(self.item(i)) if self.live(i, g) else 'None'
        told = {
            'show': lambda: '{' + ', '.join(f'{self.name(n)}: {self.item(n)}' for n in order) + '}',
            'check': lambda: '"tree and list agree"',
            '_check_invariants': self.check_invariants,
            'contains': lambda: str(self.live(i, g)).lower(),
            'get': lambda: at,
            'index': lambda: at[5:-1] if at != 'None' else '"not live"',
            'get_inx': lambda: option(
                f'({self.gen(self.e[i][0])}, {self.item(i)})' if i in self.e else None
            ),
            'get_inx_unwrap': lambda: option(self.item(i) if i in self.e else None),
            'len': lambda: str(len(order)),
            'is_empty': lambda: str(not order).lower(),
            'capacity': lambda: str(self.capacity()),
            'max_capacity': lambda: option(self.told_limit),
            'generation': lambda: self.gen(self.counter),
            'singular_generation': lambda: option(self.gen(self.counter)),
            'first': lambda: option(self.name(order[0]) if order else None),
            'last': lambda: option(self.name(order[-1]) if order else None),
            'lower_bound': lambda: self.bound(sum(key < x for key in self.keys())),
            'upper_bound': lambda: self.bound(sum(key <= x for key in self.keys())),
            'find_first_inx_ptr': lambda: option(self.name(rising[0]) if rising else None),
            'find_last_inx_ptr': lambda: option(self.name(rising[-1]) if rising else None),
        }.get(verb)
        return None if told is None else [told()]

    def bound(self, before):
        """The entry behind so many of the list, where the keys ascend."""
        if not self.ascends():
            raise Open
        return option(self.name(self.order[before]) if before < len(self.order) else None)

    def check_invariants(self):
        return 'Ok(())' if self.ascends() else 'Err("incorrect ordering")'

    def rank(self, i):
        """The rank, where there is one alone."""
        if self.nodes:
            return str(self.nodes[i][3])
        if len(self.order) == 1 or (len(self.order) == 3 and i != self.order[1]):
            return '1'
        raise Open

    def node(self, i):
        """The parent and the children, where there is one shape alone."""
        if self.nodes:
            return '(' + ', '.join(option(it) for it in self.nodes[i][:3]) + ')'
        if len(self.order) == 1:
            return '(None, None, None)'
        if len(self.order) != 3:
            raise Open
        left, root, right = self.order
        if i == root:
            return f'(None, Some({left}), Some({right}))'
        return f'(Some({root}), None, None)'


def compare(left, right, verb):
    a, b = ([s.e[i][1:] for i in s.order] for s in (left, right))
    told = 'Less' if a < b else 'Equal' if a == b else 'Greater'
    return {
        'canonical_eq': str(a == b).lower(),
        'canonical_partial_cmp': f'Some({told})',
        'canonical_cmp': told,
    }[verb]
