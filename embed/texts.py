"""texts.py REPOSITORY COUNT LINES FILE: writes COUNT random texts of LINES lines for the store, and
what its model answers.

A text is a line with the rooms, the number of its bytes and that of the bytes of its replies, and
then both.
"""
import random
import sys

sys.dont_write_bytecode = True
repository, count, lines, target = sys.argv[1:]
sys.path.insert(0, f'{repository}/models')

from store import LARGE, Writer
from store_rules import Store

with open(target, 'wb') as file:
    for seed in range(int(count)):
        writer = Writer(random.Random(seed), LARGE, 0)
        text = writer.lines(int(lines)).encode()
        replies = Store(*writer.rooms).text(text).encode()
        file.write(' '.join(map(str, [*writer.rooms, len(text), len(replies)])).encode() + b'\n')
        file.write(text + replies)
