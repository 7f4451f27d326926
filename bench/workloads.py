"""workloads.py BUILD: measures the programs of workloads/ that bench/run put into BUILD.

A program prints a line `sum ..`, which must be the same in all of a group, and a line for what each
piece of a phase took, as each thousand events. Programs run in turn. The least of each piece over
the runs is taken, and the pieces of a phase are summed. What is printed are tables of Markdown.
"""
import collections
import os
import pathlib
import subprocess
import sys

# So many entries, which are the events too, and so many runs of each program.
SIZES = {10_000: 40, 100_000: 10, 1_000_000: 4}
LEVELS = '`BTreeMap` and a slab'
# By table: its title, the words of our program, the peer, and its name.
GROUPS = [
    ('Order book, 4,096 prices a side', ['book', '4096'], ['book', '4096'], LEVELS),
    ('Order book, N / 4 prices a side', ['book', 'N/4'], ['book', 'N/4'], LEVELS),
    ('Scheduler, ordered arena', ['scheduler'], ['scheduler'], '`SlotMap` and `BTreeMap`'),
    ("Scheduler, std's `BinaryHeap`", ['heap'], ['heap'], '`SlotMap` and `BinaryHeap`'),
    ('Scene', ['scene'], ['scene'], '`SlotMap` and `SecondaryMap`s'),
    ('Cache, ordered arena', ['cache'], ['cache'], '`HashMap` and a list'),
    ("Cache, std's `HashMap`", ['hash'], ['cache'], '`HashMap` and a list'),
    ("Cache, std's `HashMap`", ['hash'], ['quick'], '`HashMap` with a quick hash, and a list'),
]


def run(words):
    """The line `sum`, the nanoseconds of each piece by phase, and the most resident memory."""
    child = subprocess.Popen(words, stdout=subprocess.PIPE, text=True)
    lines = child.stdout.read().splitlines()
    _, status, usage = os.wait4(child.pid, 0)
    if status:
        sys.exit(f'bench/run: {words} ended with {status}')
    pieces, answer = collections.defaultdict(list), ''
    for line in lines:
        if line.startswith('sum '):
            answer = line
        else:
            phase, time = line.split()
            pieces[phase].append(int(time))
    return answer, pieces, usage.ru_maxrss


class Program:
    def __init__(self, build, name, words):
        self.file, self.words = build / name, words
        self.best, self.memory = {}, 0

    def run(self, entries):
        words = [str(entries // 4) if it == 'N/4' else it for it in self.words]
        at = 0 if self.file.name not in ('p3', 'p0') else 1
        command = [str(self.file), *words[:at], str(entries), *words[at:]]
        answer, pieces, self.memory = run(command)
        for phase, times in pieces.items():
            known = self.best.get((entries, phase), times)
            self.best[entries, phase] = list(map(min, times, known))
        return answer

    def step(self, entries, phase):
        return sum(self.best[entries, phase]) / entries


def shown(number):
    return f'{number:.1f}' if number < 100 else f'{number:.0f}'


def table(build, title, ours, peer, name):
    programs = [
        Program(build, 'p3', ours), Program(build, 'p0', ours), Program(build, peer[0], peer[1:])
    ]
    for entries, runs in SIZES.items():
        for _ in range(runs):
            answers = {it.run(entries) for it in programs}
            if len(answers) > 1:
                sys.exit(f'bench/run: the programs answer {title} {entries} differently')
    print(f'\n| {title}, to {name} | ratio over `P3` | ratio over `P0` | peer, ns |')
    print('|---|---|---|---|')
    *own, other = programs
    phases = dict.fromkeys(phase for _, phase in other.best)
    for phase in phases:
        cells = ['; '.join(f'{it.step(n, phase) / other.step(n, phase):.2f}' for n in SIZES)
                 for it in own]
        cells.append('; '.join(shown(other.step(n, phase)) for n in SIZES))
        print(f'| {phase.replace("_", ", ")} |', ' | '.join(cells), '|')
    cells = [f'{it.memory / other.memory:.2f}' for it in own] + [f'{other.memory // 1024} MiB']
    print('| most memory |', ' | '.join(cells), '|', flush=True)


def main():
    build = pathlib.Path(sys.argv[1])
    for title, ours, peer, name in GROUPS:
        if (build / peer[0]).exists():
            table(build, title, ours, peer, name)


main()
