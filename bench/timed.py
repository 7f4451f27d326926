"""timed.py time|leaps|plot LAYER BUILD: measures the programs that bench/run put into BUILD.

`time` runs a layer's programs in turn. Each prints what every thousand steps took; of each thousand
the least of all passes is taken, and the sum is shared among the steps. A program over the store is
timed as a whole, by its processor time. What it prints are tables of Markdown, one for each peer.
`leaps` counts what the trace of each program has, of one size. `plot` times some operations of each
layer, whose programs lie in a folder of BUILD, for plot.py. A different checksum or reply ends it.
"""
import os
import pathlib
import subprocess
import sys

# So many entries or lines, so many runs of each program, and so many passes in a run, where each
# fills anew. A run over the store is one pass.
SIZES = {10_000: (20, 5), 100_000: (16, 3), 1_000_000: (6, 1)}
PLOTTED = {1_000: (10, 10), 10_000: (8, 5), 100_000: (6, 3), 1_000_000: (3, 1)}
# No pass gives pages back to the system, so that only the first one meets fresh pages: whether a
# C library does so by itself turns on the sizes of the vectors, and not on what is measured.
KEPT = 4_000_000_000
PLACE = os.environ | {
    'GLIBC_TUNABLES': f'glibc.malloc.mmap_threshold={KEPT}:glibc.malloc.trim_threshold={KEPT}'
}
# As many for leaps, of which each run takes half a minute.
TRACED = 50_000

# By layer: our type, and then the title, the program, its first words, and how many bytes an entry
# has in the table of what finds it. The first two are ours. What is not built is left out.
OURS = {
    'arena': 'Arena',
    'chains': 'ChainArena',
    'ord': 'SimpleOrdArena',
    'store': 'RouteBook',
    'slot_map_c': 'slot_map_c',
    'ord_map_c': 'ord_map_c',
    'route_book_c': 'route_book_c',
}


def ours(*words):
    return [('over `P3`', 'p3', [*words], 8), ('over `P0`', 'p0', [*words], 16)]


PROGRAMS = {
    'arena': [
        *ours('timed-arena'),
        ('`SlotMap`', 'slotmap', ['timed'], 8),
        ("an arena by hand with `P0`'s pointers", 'plain', ['timed'], 16),
    ],
    'chains': [*ours('timed-chains'), ('a slab by hand', 'plain', ['timed'], 8)],
    'ord': [
        *ours('timed-ord'),
        ('`BTreeMap`', 'plain', ['timed', 'map'], 0),
        ('`BTreeMap` with a slab', 'plain', ['timed', 'slab'], 8),
        ('`std::map`', 'std_map', [], 8),
    ],
    'store': [*ours(), ('the plain store', 'plain', [], 0)],
    # A library for C has one program, and our own calls are a peer.
    'slot_map_c': [
        ('by calls', 'calls', ['map'], 8),
        ('the same in Rattle', 'p3', ['timed-arena'], 8),
        ('`SlotMap`', 'slotmap', ['timed'], 8),
    ],
    'ord_map_c': [
        ('by calls', 'calls', ['ord'], 8),
        ('the same in Rattle', 'p3', ['timed-ord'], 8),
        ('`BTreeMap`', 'plain', ['timed', 'map'], 0),
        ('`std::map`', 'std_map', [], 8),
    ],
    'route_book_c': [('by calls', 'calls', ['store'], 0), ('the program', 'p3', [], 0)],
}
# How many of a layer's programs are ours, in its tables.
OWN = {'slot_map_c': 1, 'ord_map_c': 1, 'route_book_c': 1}
OPERATIONS = {
    'arena': ['insert', 'find', 'remove', 'churn', 'walk', 'rewrite'],
    'chains': ['insert', 'remove', 'walk', 'canonical_walk'],
    'ord': ['insert', 'find', 'remove', 'cancel', 'walk', 'canonical_find', 'canonical_walk'],
    'store': ['places', 'all', 'churn'],
    'slot_map_c': ['insert', 'find', 'remove', 'churn', 'walk'],
    'ord_map_c': ['insert', 'find', 'remove', 'cancel', 'walk'],
    'route_book_c': ['places', 'all', 'churn'],
}
NAMES = {
    'canonical_walk': 'walk, renumbered',
    'canonical_find': 'find, renumbered',
    'all': 'any kind',
}
# What is drawn.
DRAWN = {
    'arena': ['find', 'remove'],
    'chains': ['remove', 'walk'],
    'ord': ['find', 'insert'],
    'store': ['places', 'all'],
}
# What is traced: a trace is slow, and these wait for memory most.
TRACES = {
    'arena': ['insert', 'find', 'remove', 'churn'],
    'chains': ['insert', 'remove', 'walk'],
    'ord': ['insert', 'find', 'remove', 'cancel'],
    'store': ['places', 'all', 'churn'],
}
COUNTS = ['instructions', 'stores', 'misses of the second cache', 'leaps']
# The nodes of a `std::map` stay where they are. A `BTreeMap` has no other reference to an entry
# than its key, and so `cancel` has a slab beside it, which is there for that alone.
NEVER = {('`BTreeMap`', 'cancel')}
NEVER |= {('`BTreeMap` with a slab', it) for it in OPERATIONS['ord'] if it != 'cancel'}
NEVER |= {('`std::map`', it) for it in ('canonical_find', 'canonical_walk')}


def shown(number):
    return f'{number:.1f}' if number < 100 else f'{number:.0f}'


class Times:
    """What the runs of a program took: the least of all, and of each half of them."""

    def __init__(self):
        self.halves = [None, None]

    def add(self, at, times):
        known = self.halves[at % 2]
        self.halves[at % 2] = times if known is None else list(map(min, known, times))

    def step(self, steps):
        return sum(map(min, self.halves[0], self.halves[1] or self.halves[0])) / steps

    def half(self, at):
        return sum(self.halves[at] or self.halves[0])


def ratio(own, peer, steps):
    """A ratio, to two digits where those of both halves of the runs are within a twentieth."""
    first, second = (own.half(at) / peer.half(at) for at in range(2))
    value = own.step(steps) / peer.step(steps)
    return f'{value:.2f}' if abs(first - second) < 0.05 else f'{value:.1f}'


class Layer:
    def __init__(self, name, build):
        self.name, self.build = name, pathlib.Path(build)
        self.programs = [it for it in PROGRAMS[name] if (self.build / it[1]).exists()]
        self.titles = [it[0] for it in self.programs]
        self.own = OWN.get(name, 2)

    def does(self, operation):
        return [it for it in self.programs if (it[0], operation) not in NEVER]

    def command(self, program, operation, entries, steps, passes=1):
        _, file, words, _ = program
        return [str(self.build / file), *words, operation, *map(str, (entries, steps, passes))]

    def run(self, program, operation, entries, passes):
        """The least that each thousand steps took in the passes of a run, and the checksum."""
        command = self.command(program, operation, entries, entries, passes)
        said = subprocess.run(
            command, check=True, capture_output=True, text=True, env=PLACE
        ).stdout
        *times, checksum = said.split()
        pieces = entries // 1000
        if len(times) != pieces * passes:
            sys.exit(f'bench/run: {program[0]} {operation} {entries} was not timed')
        return [min(int(it) for it in times[at::pieces]) for at in range(pieces)], checksum

    def timed(self, operation, entries, runs, passes):
        """The times of each program."""
        best = {program[0]: Times() for program in self.does(operation)}
        for at in range(runs):
            checksums = set()
            for program in self.does(operation):
                times, checksum = self.run(program, operation, entries, passes)
                checksums.add(checksum)
                best[program[0]].add(at, times)
            if len(checksums) > 1:
                sys.exit(f'bench/run: the programs answer {operation} {entries} differently')
        return best

    def bytes_of(self, program):
        """How the greatest resident size grows from one million entries to two, less the table."""
        sizes = []
        for entries in (1_000_000, 2_000_000):
            command = self.command(program, 'insert', entries, entries)
            child = subprocess.Popen(command, stdout=subprocess.DEVNULL)
            sizes.append(os.wait4(child.pid, 0)[2].ru_maxrss)
        return (sizes[1] - sizes[0]) * 1024 / 1_000_000 - program[3]

    def tables(self, rows, names):
        """A table for each peer: ours, as over both pointers, the peer, and the ratios to it.

        `rows` has by operation the times of each size, by title.
        """
        own = self.titles[:self.own]
        for peer in self.titles[self.own:]:
            head = [f'`{OURS[self.name]}`, to {peer}', *own, 'peer', *(f'ratio {it}' for it in own)]
            print('\n|', ' | '.join(head), '|')
            print('|' + '---|' * len(head))
            for operation, sizes in rows.items():
                if (peer, operation) in NEVER:
                    continue
                cells = ['; '.join(shown(of[it].step(at)) for at, of in sizes.items())
                         for it in (*own, peer)]
                cells += ['; '.join(ratio(of[it], of[peer], at) for at, of in sizes.items())
                          for it in own]
                print('|', ' | '.join([names.get(operation, operation), *cells]), '|')
            yield peer

    def time(self):
        rows = {}
        for operation in OPERATIONS[self.name]:
            rows[operation] = {
                entries: self.timed(operation, entries, *turns) for entries, turns in SIZES.items()
            }
            print(operation, 'is measured', file=sys.stderr, flush=True)
        sizes = {program[0]: self.bytes_of(program) for program in self.programs}
        for peer in self.tables(rows, NAMES):
            of = [sizes[it] for it in (*self.titles[:self.own], peer)]
            cells = [f'{it:.1f}' for it in of] + [f'{it / of[-1]:.2f}' for it in of[:-1]]
            print('| bytes an entry |', ' | '.join(cells), '|', flush=True)


class Store(Layer):
    def lines(self, kind, count):
        """The lines of a kind in a file, which all programs answer with the same bytes."""
        path = self.build / f'lines.{kind}'
        with open(path, 'w') as file:
            maker = pathlib.Path(__file__).with_name('store_lines.py')
            subprocess.run([sys.executable, maker, kind, str(count)], stdout=file, check=True)
        replies = set()
        for program in self.programs:
            command = self.command(program, count)
            with open(path) as file:
                said = subprocess.run(command, stdin=file, stdout=subprocess.PIPE, check=True)
            replies.add(said.stdout)
        if len(replies) > 1:
            sys.exit(f'bench/run: the programs answer {kind} {count} differently')
        return path

    def command(self, program, count):
        return [str(self.build / program[1]), *program[2], *[str(count)] * 3]

    def run(self, program, count, path):
        """The nanoseconds of processor time that a run over a file takes."""
        command = self.command(program, count)
        with open(path) as file:
            child = subprocess.Popen(command, stdin=file, stdout=subprocess.DEVNULL, env=PLACE)
            used = os.wait4(child.pid, 0)[2]
        return (used.ru_utime + used.ru_stime) * 1e9

    def timed(self, kind, count, runs, passes):
        """The times of each program over lines, less the least over no line."""
        path, titles = self.lines(kind, count), self.titles
        taken = {program[0]: Times() for program in self.programs}
        empty = {program[0]: Times() for program in self.programs}
        for at in range(runs * passes):
            for program in self.programs:
                taken[program[0]].add(at, [self.run(program, count, path)])
                empty[program[0]].add(at, [self.run(program, count, os.devnull)])
        for title in titles:
            less = empty[title].step(1)
            taken[title].halves = [[it[0] - less] if it else None for it in taken[title].halves]
        return taken

    def time(self):
        rows = {}
        for kind in OPERATIONS[self.name]:
            rows[kind] = {count: self.timed(kind, count, *turns) for count, turns in SIZES.items()}
            print(kind, 'is measured', file=sys.stderr, flush=True)
        for _ in self.tables(rows, NAMES):
            pass


class Traces:
    """What leaps.rs counts of runs, each of which is traced once."""

    def __init__(self, layer):
        self.layer, self.known = layer, {}

    def of(self, command, path=os.devnull):
        key = (*command, path)
        if key not in self.known:
            words = ['valgrind', '--tool=lackey', '--trace-mem=yes', '--log-fd=2', *command]
            with open(path) as lines:
                traced = subprocess.Popen(
                    words, stdin=lines, stdout=subprocess.DEVNULL, stderr=subprocess.PIPE
                )
            counted = subprocess.run(
                [self.layer.build / 'leaps'], stdin=traced.stderr, capture_output=True, check=True
            )
            traced.stderr.close()
            if traced.wait():
                sys.exit(f'bench/run: no trace of {command}')
            self.known[key] = [int(it) for it in counted.stdout.split()]
        return self.known[key]

    def row(self, operation):
        """What a step or a line takes over `P3`, over `P0` and in a peer."""
        layer, row = self.layer, []
        peer = layer.programs[-1 if layer.name == 'ord' else 2]
        for program in (*layer.programs[:2], peer):
            if isinstance(layer, Store):
                command = layer.command(program, TRACED)
                whole, less = self.of(command, layer.lines(operation, TRACED)), self.of(command)
            else:
                # A run of no steps does the same for all others.
                is_own = operation == 'insert' or operation.startswith('canonical_')
                before = operation if is_own else 'find'
                whole = self.of(layer.command(program, operation, TRACED, TRACED))
                less = self.of(layer.command(program, before, TRACED, 0))
            row.append([(a - b) / TRACED for a, b in zip(whole, less)])
        return row

    def show(self):
        """A table: of each count what a step takes over `P3`, over `P0`, in the peer."""
        layer = self.layer
        head = [f'`{OURS[layer.name]}`, a step of {TRACED:,}', *COUNTS]
        print('|', ' | '.join(head), '|')
        print('|' + '---|' * len(head))
        for operation in TRACES[layer.name]:
            cells = ['; '.join(f'{it:.{digits}f}' for it in counts)
                     for counts, digits in zip(zip(*self.row(operation)), (0, 1, 2, 2))]
            print('|', ' | '.join([NAMES.get(operation, operation), *cells]), '|', flush=True)


def plot(build):
    """A line for each layer, operation and program: the sizes and the times of a step."""
    for name, operations in DRAWN.items():
        layer = layer_of(name, pathlib.Path(build) / name)
        for operation in operations:
            sizes = {at: layer.timed(operation, at, *turns) for at, turns in PLOTTED.items()}
            for title in next(iter(sizes.values())):
                steps = [f'{at}:{of[title].step(at):.1f}' for at, of in sizes.items()]
                print(OURS[name], NAMES.get(operation, operation), title, *steps, sep='\t',
                      flush=True)


def layer_of(name, build):
    return (Store if name in ('store', 'route_book_c') else Layer)(name, build)


def main():
    way, name, build = sys.argv[1:]
    if way == 'plot':
        plot(build)
    elif way == 'leaps':
        Traces(layer_of(name, build)).show()
    else:
        layer_of(name, build).time()


main()
