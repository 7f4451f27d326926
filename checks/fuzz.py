"""fuzz.py MODELS PROGRAM SEEDS LINES: plays lines, broken ones and random bytes, cut at random.

It compares the replies with those of the model. The first difference ends it, with the seed and the
two texts up to it.
"""
import random
import subprocess
import sys
import threading

sys.dont_write_bytecode = True
sys.path.insert(0, sys.argv[1])

from store import LARGE, Writer
from store_rules import Store


def broken(pick, line, other):
    """A line that was cut, joined, repeated or written over at one place.

    It may be a command still.
    """
    at, to = sorted(pick.randrange(len(line) + 1) for _ in range(2))
    ways = [line[:at], line[at:], line[:at] + line[to:]]
    ways += [line + other, line[:at] + other[at:], line[:to] + line[at:]]
    ways.append(line[:at] + bytes([pick.randrange(256)]) + line[at:])
    ways.append(line[:at] + bytes([pick.randrange(256)]) + line[at + 1 :])
    word = pick.choice([b' ', b'0', b'\n', b'\r', b'\0', b'\t', b'9' * 20])
    ways.append(line[:at] + word + line[at:])
    return pick.choice(ways)


def noise(pick):
    """Random bytes, of which some are those of commands."""
    alphabet = pick.choice([bytes(range(256)), b'aplcewrt 0123456789', b' \n', b'a'])
    return bytes(pick.choice(alphabet) for _ in range(pick.choice([0, 1, 5, 68, 69, 70, 71, 300])))


def lines_of(seed, count):
    """The rooms, and about so many lines, the last of which may have no LF."""
    pick = random.Random(seed)
    writer = Writer(pick, LARGE, 0)
    written, before = b'', b''
    for _ in range(count):
        line = writer.line().encode()
        kind = pick.random()
        if kind > 0.9:
            line = noise(pick)
        elif kind > 0.7:
            line = broken(pick, line, before)
        # What the line does, the next ones are to fit.
        writer.store.text(line + b'\n')
        written += line + b'\n'
        before = line
    return writer.rooms, written if pick.random() < 0.5 else written[:-1]


def replies(seed, program, rooms, data):
    """What the program writes, if it is given its input in pieces."""
    pick = random.Random(seed)
    words = [program, *map(str, rooms)]
    child = subprocess.Popen(words, stdin=subprocess.PIPE, stdout=subprocess.PIPE)
    text = []
    reader = threading.Thread(target=lambda: text.append(child.stdout.read()))
    reader.start()
    at = 0
    while at < len(data):
        piece = data[at : at + pick.choice([1, 2, 7, 69, 70, 500, 4096, 9000])]
        child.stdin.write(piece)
        child.stdin.flush()
        at += len(piece)
    child.stdin.close()
    reader.join()
    return text[0] + f'the status is {child.wait()}\n'.encode()


def difference(seed, got, wanted):
    """The first difference between two texts, with what stands around it."""
    same = min(len(got), len(wanted))
    same = next((i for i in range(same) if got[i] != wanted[i]), same)
    got, wanted = (text[max(same - 60, 0) : same + 60] for text in (got, wanted))
    return (
        f'the first difference, by seed {seed}, behind {same} bytes:\n'
        f'the program {got!r}\n'
        f'the model   {wanted!r}'
    )


def main(program, seeds, count):
    lines = 0
    for seed in range(1, seeds + 1):
        rooms, data = lines_of(seed, count)
        wanted = Store(*rooms).text(data).encode() + b'the status is 0\n'
        got = replies(seed, program, rooms, data)
        if got != wanted:
            sys.exit(difference(seed, got, wanted))
        lines += data.count(b'\n')
    print(f'seeds 1 to {seeds}: the replies to {lines} lines agree')


main(sys.argv[2], *map(int, sys.argv[3:]))
