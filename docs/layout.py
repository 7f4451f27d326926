"""layout.py >layout.svg: draws how the slots of the three arenas lie, for ARCHITECTURE.md.

Each picture is of four or five slots of a stack, whose indexes begin with 1.
"""
from html import escape

WIDTH, ROW, LEFT, CELL = 900, 26, 150, 150
INK, FAINT, FREE, LIVE, LINK = '#222', '#999', '#eeeeee', '#e3eefb', '#1d5fbf'

ARENA = (
    '`Arena`: a free slot names the free ones before and after it, by index',
    ['generation', 'value', 'before, after'],
    [None, ('2', '"elm"', ''), None, ('5', '"fir"', '')],
    {0: ('', '', '3, none'), 2: ('', '', 'none, 1')},
    'the arena: head 3 (the next entry goes there), counter 7 (its generation), length 2',
    [],
)
CHAIN = (
    '`ChainArena`: a value with the indexes of its neighbors: the list elm, fir, oak and a ring',
    ['generation', 'value', 'previous, next'],
    [
        ('2', '"fir"', '4, 3'),
        ('3', '"ash"', '2, 2'),
        ('4', '"oak"', '1, none'),
        ('5', '"elm"', 'none, 1'),
    ],
    {},
    'a link names its neighbors by index alone, so a walk compares no generation',
    [(3, 0), (0, 2), (1, 1)],
)
TREE = (
    '`SimpleOrdArena`: a chain in the order of the keys, with the nodes of a tree over it',
    ['generation', 'previous, next', 'parent, rank', 'children', 'key, value'],
    [
        ('2', '3, 2', 'none, 2', '3, 2', '20, "elm"'),
        ('3', '1, none', '1, 1', 'none, none', '30, "fir"'),
        ('4', 'none, 1', '1, 1', 'none, none', '10, "oak"'),
    ],
    {},
    'the arena: root 1, first 3, last 2; a search reads children and key, '
    'a repair parent, rank, children',
    [(0, 1), (0, 2)],
)


def text(x, y, words, anchor='middle', color=INK, size=12):
    return (
        f'<text x="{x:.1f}" y="{y:.1f}" text-anchor="{anchor}" fill="{color}" '
        f'font-size="{size}">{escape(words)}</text>'
    )


def box(x, y, fill):
    return (
        f'<rect x="{x}" y="{y}" width="{CELL - 12}" height="{ROW}" fill="{fill}" '
        f'stroke="{FAINT}"/>'
    )


def arrow(start, end, y):
    """From one slot to another below them, or round to the same one."""
    x0, x1 = (LEFT + at * CELL + (CELL - 12) / 2 for at in (start, end))
    if start == end:
        x0, x1 = x0 - 22, x1 + 22
    down = y + 16 + 7 * abs(end - start)
    return (
        f'<path d="M {x0} {y} C {x0} {down}, {x1} {down}, {x1} {y + 3}" fill="none" '
        f'stroke="{LINK}" marker-end="url(#head)"/>'
    )


def picture(top, title, rows, slots, free, below, arrows):
    yield text(10, top, title.replace('`', ''), 'start', size=14)
    for at, slot in enumerate(slots):
        x = LEFT + at * CELL
        yield text(x + (CELL - 12) / 2, top + 20, f'{at + 1}', color=FAINT)
        for row in range(len(rows)):
            y = top + 26 + row * ROW
            words = (slot or free[at])[row]
            yield box(x, y, LIVE if slot else FREE)
            yield text(x + (CELL - 12) / 2, y + 17, words)
    yield text(LEFT - 12, top + 20, 'index', 'end', FAINT)
    for row, words in enumerate(rows):
        yield text(LEFT - 12, top + 43 + row * ROW, words, 'end')
    bottom = top + 26 + len(rows) * ROW
    yield from (arrow(start, end, bottom) for start, end in arrows)
    yield text(10, bottom + (58 if arrows else 22), below, 'start', FAINT)


def height(rows, arrows):
    return 26 + len(rows) * ROW + (86 if arrows else 50)


def main():
    drawn, top = [], 24
    for it in (ARENA, CHAIN, TREE):
        drawn += picture(top, *it)
        top += height(it[1], it[5])
    print(f'<svg xmlns="http://www.w3.org/2000/svg" viewBox="0 0 {WIDTH} {top - 20}" '
          'font-family="sans-serif">')
    print('<defs><marker id="head" viewBox="0 0 8 8" refX="6" refY="4" markerWidth="7" '
          f'markerHeight="7" orient="auto"><path d="M 0 0 L 8 4 L 0 8 z" fill="{LINK}"/></marker>'
          '</defs>')
    print(f'<rect width="{WIDTH}" height="{top - 20}" fill="white"/>', *drawn, '</svg>', sep='\n')


main()
