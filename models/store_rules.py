"""What a route book must answer, by a model that knows nothing of the library.

It has tickets, links by ticket, and a sorted list. It is written from the rules of the lines.
Places and stops have a counter each, which a removal steps, and `pack` resets.
"""
import re

LAST_TICKET = 2**64 - 1
NUMBER = '(0|[1-9][0-9]*)'
WORD = '([a-z0-9]{1,16})'
# The fields of each line behind its verb: n is a number and w a word.
FORMS = {
    'place': 'nw',
    'word': 'nw',
    'show': 'n',
    'find': 'n',
    'floor': 'n',
    'after': 'n',
    'before': 'n',
    'all': '',
    'remove': 'n',
    'start': 'n',
    'extend': 'nn',
    'join': 'nn',
    'cut': 'n',
    'swap': 'nn',
    'walk': 'n',
    'mark': 'nn',
    'pack': '',
}


class Refused(Exception):
    """A line is refused, with this reply."""


def spelled(line):
    """The verb and the fields of a line, or None where it spells no command."""
    if len(line) > 69:
        return None
    text = line.decode('latin-1')
    for verb, form in FORMS.items():
        fields = ''.join(' ' + (NUMBER if field == 'n' else WORD) for field in form)
        hint = f'(?: near {NUMBER})?' if verb == 'place' else ''
        found = re.fullmatch(verb + fields + hint, text)
        if found:
            values = [
                v if v is None or field == 'w' else int(v)
                for field, v in zip(form + 'n', found.groups())
            ]
            if all(not isinstance(v, int) or v < 2**64 for v in values):
                return verb, values
    return None


class Store:
    """A store.

    `next` and `previous` lead from a stop to its neighbors, and lack one that it does not have.
    A removal whose counter is at `generations` sweeps first, as `pack` does. `looks` is how many
    stored references the last line looked at.
    """

    def __init__(self, places, stops, marks, last=0, generations=LAST_TICKET):
        self.rooms = {'place': places, 'stop': stops, 'mark': marks}
        self.last, self.generations, self.looks = last, generations, 0
        self.counters = {'place': 2, 'stop': 2}
        self.place, self.stop, self.mark = {}, {}, {}
        self.next, self.previous = {}, {}

    # ---- moves

    def living(self):
        """How many places, stops and marks live."""
        return [len(self.place), len(self.stop), len(self.mark)]

    def fits(self, *rooms):
        return all(count <= room for count, room in zip(self.living(), rooms))

    def move(self, places, stops, marks, generations):
        """The same store in other rooms, over pointers whose generations end there."""
        self.rooms = {'place': places, 'stop': stops, 'mark': marks}
        self.generations = generations
        self.counters = {'place': 2, 'stop': 2}
        # A pack makes each dead reference none, which a reference by ticket is already.

    # ---- tickets

    def wanted(self, ticket, *kinds):
        """The refusals by a ticket: it must name an item of one of these kinds."""
        if not 1 <= ticket <= self.last:
            raise Refused('unknown')
        living = [kind for kind in ('place', 'stop', 'mark') if ticket in getattr(self, kind)]
        if not living:
            raise Refused('gone')
        if living[0] not in kinds:
            raise Refused('kind')
        return living[0]

    def ticket(self, kind):
        """A new ticket for an item of a kind."""
        if len(getattr(self, kind)) >= self.rooms[kind] or self.last == LAST_TICKET:
            raise Refused('full')
        self.last += 1
        return self.last

    def in_order(self):
        """The tickets of the places in the order of their keys, and under one key in their own."""
        return sorted(self.place, key=lambda t: (self.place[t][0], t))

    # ---- lines: each answers the lines of its reply

    def do_place(self, key, word, near):
        if near is not None:
            self.wanted(near, 'place')
        t = self.ticket('place')
        self.place[t] = (key, word)
        return [str(t)]

    def do_word(self, t, word):
        self.wanted(t, 'place')
        key, old = self.place[t]
        self.place[t] = (key, word)
        return [f'old {old}']

    def do_show(self, t):
        kind = self.wanted(t, 'place', 'stop', 'mark')
        if kind == 'place':
            return ['%d %s' % self.place[t]]
        if kind == 'stop':
            return [f'at {self.reference(self.stop[t], self.place)}']
        place, stop = self.mark[t]
        return [f'{self.reference(place, self.place)} {self.reference(stop, self.stop)}']

    @staticmethod
    def reference(ticket, living):
        return str(ticket) if ticket in living else 'gone'

    def do_find(self, key):
        return [str(min((t for t, (k, _) in self.place.items() if k == key), default='none'))]

    def do_floor(self, key):
        below = [t for t in self.in_order() if self.place[t][0] <= key]
        return [str(below[-1]) if below else 'none']

    def beside(self, t, step):
        self.wanted(t, 'place')
        order = self.in_order()
        at = order.index(t) + step
        return [str(order[at]) if 0 <= at < len(order) else 'none']

    def do_after(self, t):
        return self.beside(t, 1)

    def do_before(self, t):
        return self.beside(t, -1)

    def do_all(self):
        return ['%d %d %s' % (t, *self.place[t]) for t in self.in_order()] + ['end']

    def do_start(self, place):
        self.wanted(place, 'place')
        t = self.ticket('stop')
        self.stop[t] = place
        return [str(t)]

    def do_extend(self, stop, place):
        self.wanted(stop, 'stop')
        self.wanted(place, 'place')
        t = self.ticket('stop')
        self.stop[t] = place
        behind = self.next.get(stop)
        self.link(stop, t)
        if behind is not None:
            self.link(t, behind)
        return [str(t)]

    def link(self, stop, behind):
        self.next[stop], self.previous[behind] = behind, stop

    def do_join(self, stop, other):
        self.wanted(stop, 'stop')
        self.wanted(other, 'stop')
        if stop in self.next or other in self.previous:
            raise Refused('no')
        self.link(stop, other)
        return ['ok']

    def do_cut(self, stop):
        self.wanted(stop, 'stop')
        if stop not in self.next:
            raise Refused('no')
        del self.previous[self.next.pop(stop)]
        return ['ok']

    def do_swap(self, stop, other):
        self.wanted(stop, 'stop')
        self.wanted(other, 'stop')
        if stop not in self.next or other not in self.next:
            raise Refused('no')
        first, second = self.next[stop], self.next[other]
        self.link(stop, second)
        self.link(other, first)
        return ['ok']

    def do_walk(self, stop):
        self.wanted(stop, 'stop')
        walk = [stop]
        while self.next.get(walk[-1], stop) != stop:
            walk.append(self.next[walk[-1]])
        if walk[-1] not in self.next:
            back = self.previous.get(stop)
            while back is not None:
                walk.append(back)
                back = self.previous.get(back)
        return [f'{t} {self.reference(self.stop[t], self.place)}' for t in walk] + ['end']

    def do_mark(self, place, stop):
        self.wanted(place, 'place')
        self.wanted(stop, 'stop')
        t = self.ticket('mark')
        self.mark[t] = (place, stop)
        return [str(t)]

    def do_remove(self, t):
        kind = self.wanted(t, 'place', 'stop', 'mark')
        if kind in self.counters:
            if self.counters[kind] == self.generations:
                self.do_pack()
            self.counters[kind] += 1
        del getattr(self, kind)[t]
        if kind == 'stop':
            behind, before = self.next.pop(t, None), self.previous.pop(t, None)
            if behind == t:
                return ['ok']
            for ends, own in ((self.next, before), (self.previous, behind)):
                if own is not None:
                    del ends[own]
            if behind is not None and before is not None:
                self.link(before, behind)
        return ['ok']

    def do_pack(self):
        self.looks += len(self.stop) + 2 * len(self.mark)
        self.counters = {'place': 2, 'stop': 2}
        return ['ok']

    # ---- inputs

    def reply(self, line):
        self.looks = 0
        command = spelled(line)
        if command is None:
            return ['bad']
        verb, fields = command
        try:
            return getattr(self, 'do_' + verb)(*fields)
        except Refused as refusal:
            return [str(refusal)]

    def text(self, data):
        """The replies to the lines of an input, and to what stands behind the last LF, if any."""
        *whole, rest = data.split(b'\n')
        replies = [reply for line in whole for reply in self.reply(line)] + ['bad'] * bool(rest)
        return ''.join(reply + '\n' for reply in replies)
