"""store_lines.py places|all|churn|pack LINES: lines for the store, the same each time.

`places` has the lines on places alone: a new place, at a key that is there another word or one more
place, look-ups, and `all` once, at the end. `all` has routes, marks and removals too: routes are
short, so that walks cost as much at each size. `churn` puts in places, stops and marks, and once as
many live as a quarter of the lines, a removal follows each. `pack` is `churn` with that line behind
it.
"""
import random
import sys


def places(pick, lines):
    last = 0
    keys = {}
    for _ in range(lines - 1):
        way = pick.random()
        key = pick.randrange(2 * lines)
        if way < 0.4:
            if key in keys and pick.random() < 0.8:
                yield f'word {keys[key]} w{key % 1000}'
            else:
                last += 1
                keys[key] = last
                yield f'place {key} w{key % 1000}'
        elif way < 0.7:
            yield f'show {pick.randint(1, last + 1)}'
        else:
            yield f'find {key}'
    yield 'all'


class Items:
    """The living items by kind, in no order, and for each key a place that has it."""

    def __init__(self, pick, lines):
        self.pick, self.lines, self.last = pick, lines, 0
        self.of_kind = {'place': [], 'stop': [], 'mark': []}
        self.keys, self.key_of = {}, {}

    def new(self, kind):
        self.last += 1
        self.of_kind[kind].append(self.last)

    def one(self, kind):
        return self.pick.choice(self.of_kind[kind])

    def key(self):
        return self.pick.randrange(2 * self.lines)

    def place(self, near=''):
        key = self.key()
        if key in self.keys and self.pick.random() < 0.8:
            return f'word {self.keys[key]} w{key % 1000}'
        self.new('place')
        self.keys[key] = self.last
        self.key_of[self.last] = key
        return f'place {key} w{key % 1000}{near}'

    def start(self):
        line = f'start {self.one("place")}'
        self.new('stop')
        return line

    def mark(self):
        line = f'mark {self.one("place")} {self.one("stop")}'
        self.new('mark')
        return line

    def remove(self, kind):
        """The removal of one of these items, or a look-up where too few are left to go on with."""
        living = self.of_kind[kind]
        if len(living) < 4:
            return f'find {self.key()}'
        at = self.pick.randrange(len(living))
        living[at], living[-1] = living[-1], living[at]
        ticket = living.pop()
        key = self.key_of.pop(ticket, None)
        if self.keys.get(key) == ticket:
            del self.keys[key]
        return f'remove {ticket}'

    def living(self):
        return sum(map(len, self.of_kind.values()))


def everything(pick, lines):
    items, ends = Items(pick, lines), []
    yield items.place()
    yield items.start()
    for _ in range(lines - 3):
        way = pick.random()
        at, stop = items.one('place'), items.one('stop')
        if way < 0.16:
            yield items.place()
        elif way < 0.22:
            yield items.place(f' near {at}')
        elif way < 0.3:
            yield items.start()
            ends.append(items.last)
        elif way < 0.38:
            # Behind one of the last stops, so that routes stay short.
            behind = items.of_kind['stop'][-1]
            items.new('stop')
            yield f'extend {behind} {at}'
        elif way < 0.42:
            yield items.mark()
        elif way < 0.52:
            yield items.remove(pick.choice(['place', 'place', 'stop', 'stop', 'mark']))
        elif way < 0.55:
            yield f'join {stop} {ends.pop() if ends and pick.random() < 0.5 else stop}'
        elif way < 0.58:
            yield f'cut {stop}'
        elif way < 0.61:
            yield f'swap {stop} {items.one("stop")}'
        elif way < 0.65:
            yield f'walk {stop}'
        elif way < 0.71:
            yield f'floor {items.key()}'
        elif way < 0.77:
            yield f'{pick.choice(["after", "before"])} {at}'
        elif way < 0.9:
            yield f'show {pick.randint(1, items.last)}'
        else:
            yield f'find {items.key()}'
    yield 'all'


def churn(pick, lines):
    items = Items(pick, lines)
    yield items.place()
    yield items.start()
    for _ in range((lines - 2) // 2):
        yield pick.choice([items.place, items.start, items.mark])()
        if items.living() < lines // 4:
            yield pick.choice([items.place, items.start, items.mark])()
        else:
            yield items.remove(pick.choice(['place', 'stop', 'mark']))


def packed(pick, lines):
    yield from churn(pick, lines)
    yield 'pack'


if __name__ == '__main__':
    kind, count = sys.argv[1], int(sys.argv[2])
    kinds = {
        'places': places,
        'all': everything,
        'churn': churn,
        'pack': packed,
    }
    made = kinds[kind](random.Random(count), count)
    sys.stdout.write(''.join(line + '\n' for line in made))
