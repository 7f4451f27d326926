"""The rules of arenas in plain Python.

An arena is a dict from an index to a generation and a value. It is written from the rules and not
from the library.
"""

SLOTS_OF_AN_ARRAY = 5
GREATEST_USIZE = 2**64 - 1


class Pointers:
    """A pointer type: its name, its greatest index, and its greatest generation.

    The last is None where no generations are counted.
    """

    def __init__(self, name, greatest_index, last_generation):
        self.name, self.last = name, last_generation
        self.max_index = min(greatest_index, GREATEST_USIZE)

    def index(self, number):
        """A number that is no index stands for the greatest one."""
        return number if 1 <= number <= self.max_index else self.max_index

    def generation(self, number):
        """The generation that a line names: 1, or so many steps from 2."""
        if self.last is None:
            return 1
        return number if number == 1 else 2 + (max(number, 2) - 2) % (self.last - 1)

    def second(self):
        return 1 if self.last is None else 2

    def step(self, generation):
        """The generation after this one, and whether it started again at 2."""
        if self.last is None:
            return generation, False
        return (2, True) if generation == self.last else (generation + 1, False)

    def text(self, index, generation):
        return f'{self.name}[{index:x}]' + ('' if self.last is None else f'({generation:x})')

    def generation_text(self, generation):
        if self.name == 'N3':
            return f'Gen3 {{ number: {generation} }}'
        return '()' if self.last is None else str(generation)


POINTERS = {
    kind.name: kind
    for kind in (
        Pointers('P0', GREATEST_USIZE, 2**64 - 1),
        Pointers('P1', 255, 255),
        Pointers('P2', 2**16 - 1, 2**16 - 1),
        Pointers('P3', 2**32 - 1, 2**32 - 1),
        Pointers('P4', 2**64 - 1, 2**128 - 1),
        Pointers('P5', GREATEST_USIZE, None),
        Pointers('Q2', GREATEST_USIZE, 2**64 - 1),
        Pointers('N3', 255, 3),
    )
}


class Refused(Exception):
    """A call is refused, with this error."""


class Heap:
    """Gives memory, and refuses one request. Request 0 never comes."""

    def __init__(self, refused_request):
        self.refused_request, self.requests = refused_request, 0

    def ask(self):
        self.requests += 1
        if self.requests == self.refused_request:
            raise Refused('AllocError')

    def has_refused(self):
        return 0 < self.refused_request <= self.requests


class Room:
    """How many entries fit: the reserved slots, and the greatest capacity, if there is one."""

    def __init__(self, pointers, stack, heap, least, slots_of_an_array=SLOTS_OF_AN_ARRAY):
        self.pointers, self.stack, self.heap = pointers, stack, heap
        limits = {'heap': None, 'limited': None, 'boxed': least, 'array': slots_of_an_array}
        self.own_limit = limits[stack]
        if self.limit() is not None and self.limit() < least:
            raise Refused('BeyondMaxCapacity')
        if stack != 'array' and 0 < least:
            heap.ask()
        self.reserved = slots_of_an_array if stack == 'array' else least

    def limit(self):
        if self.own_limit is not None:
            return min(self.own_limit, self.pointers.max_index)
        return self.pointers.max_index if self.pointers.max_index < GREATEST_USIZE else None

    def within_limit(self, number):
        return number if self.limit() is None else min(number, self.limit())

    def capacity(self):
        return self.within_limit(self.reserved)

    def grow_to(self, number):
        """Makes the room this great, where it is less."""
        if number <= self.capacity():
            return
        if self.limit() is not None and self.limit() < number:
            raise Refused('BeyondMaxCapacity')
        self.heap.ask()
        self.reserved = number

    def grow(self):
        """The growth of an insertion: to 4 at first, then to the double, never past the limit."""
        if self.capacity() == self.limit():
            raise Refused('BeyondMaxCapacity')
        self.grow_to(self.within_limit(max(4, 2 * self.reserved)))


class AnyArena:
    """What an arena and a direct arena do alike.

    `entries` has a generation and a value at each live index.
    """

    def __init__(self, pointers, room):
        self.pointers, self.room = pointers, room
        self.entries, self.slots = {}, 0

    # What an arena with a counter does in its own way.
    def step_counter(self):
        """Steps the counter, where there is one, and says whether it started again."""
        return False

    def set_counter(self, generation):
        pass

    def source_counter(self):
        return None

    def set_free(self, indexes):
        pass

    def indexes(self):
        return sorted(self.entries)

    def last_index(self):
        return max(self.entries, default=0)

    def is_live(self, index, generation):
        return index in self.entries and self.entries[index][0] == generation

    def value(self, index, generation):
        return self.entries[index][1] if self.is_live(index, generation) else None

    def pointer_text(self, index):
        return self.pointers.text(index, self.entries[index][0])

    def show(self, text=str):
        shown = (f'{self.pointer_text(i)}: {text(self.entries[i][1])}' for i in self.indexes())
        return '{' + ', '.join(shown) + '}'

    def empty(self):
        self.entries, self.slots = {}, 0
        self.set_free([])

    def clear(self):
        self.empty()
        return told(self.step_counter(), '()')

    def drain(self, count):
        """Each item is taken by a step.

        So are those that are left when the drain is let go after so many.
        """
        answers = []
        left = self.indexes()
        for _ in range(count):
            if left:
                i = left.pop(0)
                item = f'({self.pointer_text(i)}, {self.entries[i][1]})'
                answers.append(some(told(self.step_counter(), item)))
            else:
                answers.append('None')
        for _ in left:
            self.step_counter()
        self.empty()
        return answers + [str(len(left))]

    def swap(self, i, g, j, h):
        if not (self.is_live(i, g) and self.is_live(j, h)):
            return 'Err(IndexOutOfBounds)'
        if i == j:
            return 'Err(OverlappingIndices)'
        self.exchange(i, j)
        return 'Ok(())'

    def swap_inx(self, i, j):
        both = i in self.entries and j in self.entries
        if both and i != j:
            self.exchange(i, j)
        return str(both).lower()

    def add_to_first(self, number, count):
        """The first values, so many of them, are greater by a number; the others stay.

        It tells the pointers to these, and how many others there are.
        """
        live = self.indexes()
        for j in live[:count]:
            generation, value = self.entries[j]
            self.entries[j] = (generation, (value + number) % 2**64)
        return [self.pointer_text(j) for j in live[:count]] + [str(max(0, len(live) - count))]

    def exchange(self, i, j):
        """The values change places, and the generations stay."""
        (g, v), (h, w) = self.entries[i], self.entries[j]
        self.entries[i], self.entries[j] = (g, w), (h, v)

    def compress(self, reset, maps):
        """The live entries go to the first indexes, in their order.

        A map tells what it gets, and adds 1.
        """
        wrapped = False
        if reset:
            self.set_counter(self.pointers.second())
        else:
            wrapped = self.step_counter()
        answers, moved = [], {}
        for new, old in enumerate(self.indexes(), 1):
            own, value = self.entries[old]
            generation, own_wrapped = self.pointers.second(), False
            if not reset:
                generation, own_wrapped = self.renewed(own)
            wrapped = wrapped or own_wrapped
            moved[new] = (generation, (value + 1) % 2**64 if maps else value)
            if maps:
                before, after = self.pointers.text(old, own), self.pointers.text(new, generation)
                answers.append(f'({before}, {value}, {after})')
        self.entries, self.slots = moved, len(moved)
        self.set_free([])
        return answers + [told(wrapped, '()')]

    def copy(self, source, refused_call, maps):
        """Becomes a copy with the source's pointers.

        A map tells what it gets, adds 1, and may refuse a call.
        """
        self.room.grow_to(source.last_index())
        answers, copied = [], {}
        for call, i in enumerate(source.indexes(), 1):
            generation, value = source.entries[i]
            if maps:
                answers.append(f'({self.pointers.text(i, generation)}, {value})')
            if call == refused_call:
                self.clear()
                return answers + ['Err(AllocError)']
            copied[i] = (generation, (value + 1) % 2**64 if maps else value)
        self.entries, self.slots = copied, source.last_index()
        self.set_free([i for i in range(1, self.slots) if i not in copied])
        if source.source_counter() is not None:
            self.set_counter(source.source_counter())
        return answers + ['Ok(())']

    def transfer(self, generation, source):
        """Takes all entries of the source, which steps for each.

        The map tells what it gets, and adds 1.
        """
        self.room.grow_to(len(source.entries))
        answers, moved = [], {}
        for new, old in enumerate(source.indexes(), 1):
            own, value = source.entries[old]
            item = told(source.step_counter(), str(value))
            before, after = source.pointers.text(old, own), self.pointers.text(new, generation)
            answers.append(f'({before}, {item}, {after})')
            moved[new] = (generation, (value + 1) % 2**64)
        source.empty()
        self.entries, self.slots = moved, len(moved)
        self.set_free([])
        self.set_counter(generation)
        return answers + ['Ok(())']

    def set_max_capacity(self, limit):
        if limit < self.last_index():
            return 'Err(MaxCapacityReductionError)'
        if limit < self.slots:
            self.pop_free_end()
        self.room.own_limit = limit
        return 'Ok(())'

    def pop_free_end(self):
        self.slots = self.last_index()


class Arena(AnyArena):
    """An arena gives the pointers.

    Each has the index at the head of the free list, or a new one, and the counter.
    """

    def __init__(self, pointers, room):
        super().__init__(pointers, room)
        self.free, self.counter = [], pointers.second()

    def step_counter(self):
        self.counter, wrapped = self.pointers.step(self.counter)
        return wrapped

    def set_counter(self, generation):
        self.counter = generation

    def source_counter(self):
        return self.counter

    def set_free(self, indexes):
        self.free = indexes

    def pop_free_end(self):
        super().pop_free_end()
        self.free = [i for i in self.free if i <= self.slots]

    def renewed(self, _own):
        return self.counter, False

    def next_index(self):
        return self.free[0] if self.free else self.slots + 1

    def make_room(self, grows):
        if len(self.entries) == self.room.capacity():
            if not grows:
                raise Refused('NotWithinCapacityError')
            self.room.grow()

    def insert(self, value, grows=True):
        self.make_room(grows)
        i = self.next_index()
        if self.free:
            self.free.pop(0)
        else:
            self.slots = i
        self.entries[i] = (self.counter, value)
        return self.pointers.text(i, self.counter)

    def entry_insert(self, value, unused, grows):
        """The entry tells its pointer before it is used."""
        self.make_room(grows)
        pointer = self.pointers.text(self.next_index(), self.counter)
        return [pointer] if unused else [pointer, self.insert(value)]

    def take(self, i):
        """The last slot is popped. Another one becomes the head of the free list."""
        entry = self.entries.pop(i)
        if i == self.slots:
            self.slots -= 1
        else:
            self.free.insert(0, i)
        return entry

    def invalidate(self, i):
        wrapped = self.step_counter()
        self.entries[i] = (self.counter, self.entries[i][1])
        return told(wrapped, self.pointer_text(i))


class Direct(AnyArena):
    """To a direct arena the script gives the pointers.

    It has no counter, and a removal leaves the slot.
    """

    def insert(self, i, g, value):
        if self.room.capacity() < i:
            raise Refused('NotWithinCapacity')
        if i in self.entries:
            raise Refused('ExistingElementAtIndex')
        if value:
            self.entries[i] = (g, value)
            self.slots = max(self.slots, i)
        return '()'

    def take(self, i):
        return self.entries.pop(i)

    def renewed(self, own):
        return self.pointers.step(own)

    def invalidate(self, i):
        generation, wrapped = self.pointers.step(self.entries[i][0])
        self.entries[i] = (generation, self.entries[i][1])
        return told(wrapped, self.pointer_text(i))


def told(wrapped, text):
    return f"{'GenerationOverflow' if wrapped else 'Success'}({text})"


def some(text):
    return f'Some({text})'


def option(text):
    return 'None' if text is None else f'Some({text})'


def result(call):
    """`Ok` of what the call answers, or `Err` of why it is refused."""
    try:
        return f'Ok({call()})'
    except Refused as refusal:
        return f'Err({refusal})'


def done(_):
    """A call that answers nothing: the line stands alone."""
    return [None]


def either(call):
    """What the call answers, or why it is refused."""
    try:
        return call()
    except Refused as refusal:
        return [str(refusal)]
