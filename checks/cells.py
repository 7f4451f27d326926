"""cells.py README PAGE: each cell of the tables under the README's `## Speed` stands in PAGE.

A row's first cell names a table of PAGE and one of its columns: `Arena` over `P3`, to `SlotMap` is
the column `ratio over P3` of the table whose first heading is `Arena`, to `SlotMap`. The heading of
the README's column names a row of that table, and its cell there must be the very same. An empty
cell is passed over.
"""
import re
import sys

NAME = re.compile(r'(`\w+`) (over `\w+`), (to .*)')


def tables(path, section=None):
    """The tables of a page, or of one section, as lists of rows; the row of dashes is left out."""
    table, heading = [], None
    with open(path, encoding='utf-8') as page:
        for line in [*page, '']:
            if line.startswith('#'):
                heading = line.strip('# \n')
            if line.startswith('|'):
                table.append([cell.strip() for cell in line.strip().strip('|').split('|')])
            elif table:
                if section is None or heading.startswith(section):
                    yield [table[0], *table[2:]]
                table = []


def main(readme, page):
    measured = {}
    for head, *rows in tables(page):
        if (head[0], head[0]) in measured:
            sys.exit(f'{page} has two tables: {head[0]}')
        for column, title in enumerate(head):
            measured[head[0], title] = {row[0]: row[column] for row in rows}
    count = stale = 0
    for head, *rows in tables(readme, 'Speed'):
        for name, *cells in rows:
            of, pointers, peer = NAME.fullmatch(name).groups()
            there = measured.get((f'{of}, {peer}', f'ratio {pointers}'), {})
            for column, cell in zip(head[1:], cells, strict=True):
                if cell:
                    count += 1
                    found = there.get(column, 'nothing')
                    if cell != found:
                        stale += 1
                        print(f'{name}, {column}: {cell} in {readme}, {found} in {page}')
    if count == 0:
        sys.exit(f'{readme} has no cell under Speed')
    print(f'{count} cells, {stale} stale')
    sys.exit(stale > 0)


main(*sys.argv[1:])
