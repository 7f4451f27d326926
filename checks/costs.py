#!/usr/bin/env python3
"""costs.py FOLDER COUNT: what the functions of a crate cost to prove, the dearest first.

A check with kept work writes a file for each module of a function as it ends, so at one job the
time between two files is what a module cost. FOLDER is that of the kept work, written by one check
from nothing.
"""
import collections
import pathlib
import sys

PARTS = {
    'Lts': "the borrow checker's run of the body",
    'Proof': 'the search for the goals that no file answers',
    'Goals': 'the statements of those that a file answers',
    'Answers': 'those answers',
    'Tie': 'the clauses of what it calls',
    'Reads': 'the same, as a proof reads them',
    'contract': 'its own clauses',
}
# The last words of a module's name that are parts of a function; the others count to the whole
# alone.
OTHERS = """
    Mir Key TheLink Code Symbol Statement Kinds Met Layout Named TheImpl Given TheInside TheBound
    Invariants View
""".split()
INNER = {*PARTS, *OTHERS}


def function_and_part(module):
    """The function that a module belongs to, and the part of it that the module is."""
    library, *path = module.split('.')
    if library.endswith('-specs'):
        return '.'.join(path[1:]) if path[:1] == ['contracts'] else '.'.join(path), 'contract'
    for at, word in enumerate(path):
        if word in INNER:
            return '.'.join(path[:at]), word
    return '.'.join(path), ''


def main(folder, count):
    files = sorted((it.stat().st_mtime_ns, it.stem) for it in pathlib.Path(folder).rglob('*.oantt'))
    costs = collections.defaultdict(collections.Counter)
    for (before, _), (after, module) in zip(files, files[1:]):
        function, part = function_and_part(module)
        costs[function][part] += (after - before) / 1e9
    for function, parts in sorted(costs.items(), key=lambda it: -it[1].total())[:count]:
        dear = [
            f'{part} {cost:.1f}'
            for part, cost in parts.most_common(4)
            if part in PARTS and cost >= 0.3
        ]
        print(f'{parts.total():7.1f}  {function}' + (f"  ({', '.join(dear)})" if dear else ''))
    print(f'{sum(it.total() for it in costs.values()):7.1f}  in all')
    for part, meaning in PARTS.items():
        print(f'{sum(it[part] for it in costs.values()):7.1f}  {part}: {meaning}')


main(sys.argv[1], int(sys.argv[2]))
