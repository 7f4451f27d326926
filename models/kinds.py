"""The pointer types and stacks over which a program of scripts plays in the gate."""
import pathlib
import re
import sys

CRATES = pathlib.Path(__file__).resolve().parent.parent / 'crates'


def source(crate):
    return (CRATES / crate / 'src' / 'kinds.rt').read_text(encoding='utf-8')


def of_gate(crate):
    """The pairs of the crate's src/kinds.rt."""
    return set(re.findall(r'^    \("(\w+)", "(\w+)"\),$', source(crate), re.M))


def played(header, gate):
    """The pairs that a header names, of those of the gate, or all of them."""
    kinds, stacks = header.split(' ')[:2]
    pairs = [(kind, stack) for kind in kinds.split(',') for stack in stacks.split(',')]
    pairs = [it for it in pairs if gate is None or it in gate]
    if not pairs:
        sys.exit(f'a section is played over nothing: {header}')
    return pairs


def moves_of_gate(crate):
    """What each store of the gate may become: the moves of the crate's src/kinds.rt."""
    moves = {}
    for found in re.findall(r'^    \("(\w+)", "(\w+)", "(\w+)", "(\w+)"\),$', source(crate), re.M):
        moves.setdefault(found[:2], []).append(found[2:])
    return moves
