"""streams.py MODELS PROGRAM: plays the program over pipes, and says what was not as it must be.

The status and both outputs are compared, and the greatest resident size of a short input with that
of a long one.
"""
import os
import subprocess
import sys
import threading
import time

sys.dont_write_bytecode = True
sys.path.insert(0, sys.argv[1])

from store import random_lines
from store_rules import Store

PROGRAM = sys.argv[2]
# A resident size is in KiB.
MOST_GROWTH = 256
# So many seconds a play may take, till its input is ended though replies are missing.
PATIENCE = 300
failures = []


def check(what, holds):
    if not holds:
        failures.append(what)
        print(f'not as it must be: {what}', file=sys.stderr)


def start(rooms, **streams):
    pipes = dict.fromkeys(('stdin', 'stdout', 'stderr'), subprocess.PIPE)
    return subprocess.Popen([PROGRAM, *map(str, rooms)], **{**pipes, **streams})


def greatest_size(child):
    """The greatest resident size of a child that still runs.

    What `wait4` tells counts this script's own size too.
    """
    with open(f'/proc/{child.pid}/status') as status:
        return next(int(line.split()[1]) for line in status if line.startswith('VmHWM'))


def answers(what, rooms, data):
    """Compares an input's replies with the model's.

    It gives the greatest resident size before the input ends.
    """
    wanted = Store(*rooms).text(data).encode()
    child = start(rooms)
    text = []
    reader = threading.Thread(target=lambda: text.append(child.stdout.read(len(wanted))))
    reader.start()
    child.stdin.write(data)
    child.stdin.flush()
    reader.join(PATIENCE)
    size = greatest_size(child)
    child.stdin.close()
    reader.join()
    check(f'{what}: the replies', text[0] + child.stdout.read() == wanted)
    check(f'{what}: the status and the errors', (child.wait(), child.stderr.read()) == (0, b''))
    return size


def broken_pipe():
    """The reader of the replies has gone before the first one."""
    rooms = (4, 4, 2)
    ours, theirs = os.pipe()
    child = start(rooms, stdout=theirs)
    os.close(theirs)
    os.close(ours)
    _, errors = child.communicate(b'place 1 a\nshow 1\n')
    check('a broken pipe', (child.returncode, errors) == (1, b'write failed\n'))


def pieces():
    """A reply comes as soon as its line is whole, and two lines in pieces are two lines."""
    child = start((4, 4, 2))
    child.stdin.write(b'place 1 a\nsho')
    child.stdin.flush()
    reply = child.stdout.readline()
    check('the reply to the first line, before the second is whole', reply == b'1\n')
    time.sleep(0.3)
    child.stdin.write(b'w 1\n')
    child.stdin.flush()
    reply = child.stdout.readline()
    check('the reply to the second line, before the input ends', reply == b'1 a\n')
    child.stdin.close()
    check('nothing after it', (child.stdout.read(), child.wait()) == (b'', 0))


def slow_reader():
    """The pipe of the replies fills up, and is emptied in small pieces."""
    rooms, lines = random_lines(3, 20000)
    data = lines.encode()
    child = start(rooms)
    feeder = threading.Thread(target=lambda: (child.stdin.write(data), child.stdin.close()))
    feeder.start()
    time.sleep(0.5)
    text = b''
    while piece := child.stdout.read1(997):
        text += piece
        time.sleep(0.0005)
    feeder.join()
    check('a slow reader', (child.wait(), text) == (0, Store(*rooms).text(data).encode()))


def sizes():
    """A long line, and many of them.

    The store takes no memory after it is made, so that neither costs any.
    """
    rooms = (1000, 1000, 1000)
    # After so many lines all pages of its room have been touched.
    _, lines = random_lines(1, 100000)
    short = answers('a hundred thousand lines', rooms, lines.encode())
    _, lines = random_lines(2, 1000000)
    long = answers('a million lines', rooms, lines.encode())
    data = b'place 1 a\n' + b'x' * 10_000_000 + b'\nshow 1\n'
    wide = answers('ten million bytes in a line', rooms, data)
    print(f'the greatest resident sizes: {short} KiB, {long} KiB, {wide} KiB')
    for size in (long, wide):
        check('memory after the start', size - short < MOST_GROWTH)


for play in (broken_pipe, pieces, slow_reader, sizes):
    play()
sys.exit(bool(failures) or print('each stream is as it is wanted'))
