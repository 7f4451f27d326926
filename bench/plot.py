"""Draws what `timed.py plot` measured: a panel for each operation of a layer.

Each shows the time of a step against the number of entries, both by logarithms: ours over P3 and
over P0, and each peer. Each line of the input has our type, the operation, the program, and then
the sizes with their nanoseconds, parted by tabs.
"""
import math
import sys
from html import escape

WIDTH, HEIGHT, LEFT, TOP, GAP, ACROSS = 230, 190, 58, 64, 62, 4
INK, FAINT = '#222', '#d8d8d8'
# By program: its color, its dashes, and its words in the legend.
LOOKS = {
    'over `P3`': ('#1d5fbf', '', 'ours over P3'),
    'over `P0`': ('#6fa8dc', '', 'ours over P0'),
    '`SlotMap`': ('#b35c00', '5 4', 'SlotMap'),
    "an arena by hand with `P0`'s pointers": ('#8a8a8a', '2 3', "by hand, P0's pointers"),
    'a slab by hand': ('#b35c00', '5 4', 'a slab by hand'),
    '`BTreeMap`': ('#8a8a8a', '2 3', 'BTreeMap'),
    '`std::map`': ('#b35c00', '5 4', 'std::map'),
    'the plain store': ('#b35c00', '5 4', 'the plain store'),
}


def text(x, y, words, anchor='middle', color=INK, size=12):
    return (
        f'<text x="{x:.1f}" y="{y:.1f}" text-anchor="{anchor}" fill="{color}" '
        f'font-size="{size}">{escape(words)}</text>'
    )


def stroke(x0, y0, x1, y1, color, width=1, dash=''):
    dash = dash and f' stroke-dasharray="{dash}"'
    return (
        f'<line x1="{x0:.1f}" y1="{y0:.1f}" x2="{x1:.1f}" y2="{y1:.1f}" stroke="{color}" '
        f'stroke-width="{width}"{dash}/>'
    )


class Panel:
    """The axes and the lines of an operation, of which `lines` has (size, time) by program."""

    def __init__(self, left, top, lines):
        self.left, self.top, self.lines = left, top, lines
        points = [it for line in lines.values() for it in line]
        self.sizes = sorted({size for size, _ in points})
        times = [time for _, time in points]
        self.low, self.high = math.log10(min(times) / 1.3), math.log10(max(times) * 1.3)

    def place(self, size, time):
        least, most = math.log10(self.sizes[0]), math.log10(self.sizes[-1])
        x = self.left + (math.log10(size) - least) / (most - least) * WIDTH
        share = (math.log10(time) - self.low) / (self.high - self.low)
        return x, self.top + HEIGHT * (1 - share)

    def axes(self):
        for power in range(-1, 5):
            for times in (1, 2, 5):
                time = times * 10**power
                if self.low <= math.log10(time) <= self.high:
                    y = self.place(self.sizes[0], time)[1]
                    yield stroke(self.left, y, self.left + WIDTH, y, FAINT)
                    yield text(self.left - 7, y + 4, f'{time:g}', 'end', size=11)
        for size in self.sizes:
            words = f'{size // 1000:,}k' if size < 1_000_000 else '1M'
            x = self.place(size, 10**self.low)[0]
            yield text(x, self.top + HEIGHT + 16, words, size=11)

    def drawn(self, title):
        yield text(self.left + WIDTH / 2, self.top - 44, title, size=13)
        yield from self.axes()
        for at, (program, line) in enumerate(self.lines.items()):
            color, dash, words = LOOKS[program]
            x, y = self.left + at % 2 * WIDTH / 2, self.top - 28 + at // 2 * 14
            yield stroke(x, y, x + 18, y, color, 2, dash)
            yield text(x + 22, y + 4, words, 'start', color, 11)
            places = [self.place(*it) for it in line]
            path = ' '.join(f'{x:.1f},{y:.1f}' for x, y in places)
            dashes = dash and f' stroke-dasharray="{dash}"'
            yield (
                f'<polyline points="{path}" fill="none" stroke="{color}" stroke-width="2"{dashes}/>'
            )
            yield from (f'<circle cx="{x:.1f}" cy="{y:.1f}" r="2.5" fill="{color}"/>'
                        for x, y in places)


def main():
    panels = {}
    for line in sys.stdin:
        of, operation, program, *steps = line.rstrip('\n').split('\t')
        pairs = [it.split(':') for it in steps]
        lines = panels.setdefault(f'{of}: {operation}', {})
        lines[program] = [(int(size), float(time)) for size, time in pairs]
    rows = math.ceil(len(panels) / ACROSS)
    width, height = LEFT + ACROSS * (WIDTH + GAP), 34 + rows * (TOP + HEIGHT + 30)
    drawn = [text(LEFT, 20, 'Nanoseconds a step (a line, of the store), by the number of entries '
                            '(lines), both by logarithms', 'start', size=14)]
    for at, (title, lines) in enumerate(panels.items()):
        left = LEFT + at % ACROSS * (WIDTH + GAP)
        top = 34 + TOP + at // ACROSS * (TOP + HEIGHT + 30)
        drawn += Panel(left, top, lines).drawn(title)
    box = f'viewBox="0 0 {width} {height}" font-family="sans-serif"'
    print(f'<svg xmlns="http://www.w3.org/2000/svg" {box}>')
    print(f'<rect width="{width}" height="{height}" fill="white"/>', *drawn, '</svg>', sep='\n')


main()
