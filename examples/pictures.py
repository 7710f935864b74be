"""What the scripts of this folder draw with: a plane of costs and values as an SVG picture.

This module is no script. The same data give the same bytes.
"""

from html import escape
from math import ceil, floor, log10

WIDTH, HEIGHT = 900, 540
LEFT, RIGHT, TOP, BOTTOM = 90, 50, 50, 70
MOST_DOTS = 200
INK, SHADE, LINE = '#222222', '#e3d9d9', '#1f5f99'
# colours that are told apart in print and by the colour blind
COLOURS = (
    '#1f5f99 #c2571a #3f7d3b #7b4fa0 #8a6d1f #b03a5b #3a8f8f #6b6b6b #d9a441 #2f4b7c #e07b91 #7f9f3f #a0522d #5aa0d8 #4d4d9e'
).split()


def ticks(most, least=0):
    """Round numbers that reach from at most one value to at least another, with at most eight steps between them."""
    span = most - least if most > least else 1
    step = 10 ** floor(log10(span / 8))
    step = next(step * k for k in (1, 2, 5, 10) if span <= 8 * step * k)
    first = floor(least / step + 1e-9)
    last = max(ceil(most / step - 1e-9), first + 1)
    return [step * k for k in range(first, last + 1)]


def number(x):
    """A tick's label."""
    return '{:,.0f}'.format(x) if abs(x - round(x)) < 1e-9 * max(1, abs(x)) else '%g' % x


class Picture:
    """The plane between the first and the last tick of both directions, and what is drawn in it."""

    def __init__(self, across, upwards, names, height=HEIGHT, right=RIGHT):
        self.across, self.upwards, self.names = across, upwards, names
        self.height, self.right = height, right
        self.parts = []

    def place(self, cost, value):
        x = LEFT + (WIDTH - LEFT - self.right) * (cost - self.across[0]) / (self.across[-1] - self.across[0])
        y = (
            self.height
            - BOTTOM
            - (self.height - TOP - BOTTOM) * (value - self.upwards[0]) / (self.upwards[-1] - self.upwards[0])
        )
        return '%.2f,%.2f' % (x, y)

    def path(self, corners, style, closed=False):
        steps = ' L'.join(self.place(*corner) for corner in corners)
        self.parts.append('<path d="M%s%s" %s/>' % (steps, ' Z' if closed else '', style))

    def dot(self, cost, value, colour, radius=3):
        x, y = self.place(cost, value).split(',')
        self.parts.append('<circle cx="%s" cy="%s" r="%d" fill="%s"/>' % (x, y, radius, colour))

    def words(self, x, y, text, style=''):
        self.parts.append('<text x="%.2f" y="%.2f" %s>%s</text>' % (x, y, style, escape(text)))

    def frame(self):
        for cost in self.across:
            self.path([(cost, self.upwards[0]), (cost, self.upwards[-1])], 'stroke="#dddddd" fill="none"')
            x, y = map(float, self.place(cost, self.upwards[0]).split(','))
            self.words(x, y + 20, number(cost), 'text-anchor="middle"')
        for value in self.upwards:
            self.path([(self.across[0], value), (self.across[-1], value)], 'stroke="#dddddd" fill="none"')
            x, y = map(float, self.place(self.across[0], value).split(','))
            self.words(x - 8, y + 4, number(value), 'text-anchor="end"')
        self.words((LEFT + WIDTH - self.right) / 2, self.height - 20, self.names[0], 'text-anchor="middle"')
        middle = (TOP + self.height - BOTTOM) / 2
        self.words(24, middle, self.names[1], 'text-anchor="middle" transform="rotate(-90 24 %.2f)"' % middle)

    def upright(self, cost, text, colour):
        """A line at a cost, with words beside it."""
        self.path(
            [(cost, self.upwards[0]), (cost, self.upwards[-1])],
            'stroke="%s" stroke-dasharray="6 4" fill="none"' % colour,
        )
        x, y = map(float, self.place(cost, self.upwards[-1]).split(','))
        is_left = x > WIDTH * 0.7
        self.words(
            x - 6 if is_left else x + 6,
            y + 14,
            text,
            'text-anchor="%s" fill="%s"' % ('end' if is_left else 'start', colour),
        )

    def text(self):
        return '\n'.join(
            [
                '<svg xmlns="http://www.w3.org/2000/svg" width="%d" height="%d" viewBox="0 0 %d %d" '
                'font-family="sans-serif" font-size="13" fill="%s">' % (WIDTH, self.height, WIDTH, self.height, INK),
                '<rect width="100%" height="100%" fill="white"/>',
            ]
            + self.parts
            + ['</svg>', '']
        )


# A sweep


def points_of(report):
    """The cost and both ends of each point of the report of a sweep."""
    return [(int(point['cost']), float(point['low']), float(point['high'])) for point in report.all('point')]


def at(line, cost):
    """The value at a cost on a line through points, which goes on level after the last."""
    for (left, low), (right, high) in zip(line, line[1:]):
        if left <= cost <= right:
            return low + (high - low) * (cost - left) / (right - left) if right > left else high
    return line[-1][1]


def within(line, least, most):
    """A line through points, between two costs."""
    inner = [point for point in line if least < point[0] < most]
    return [(least, at(line, least))] + inner + [(most, at(line, most))]


def stairs_of(points, least, most):
    """What the points give for a budget: the total's upper end of the last point that it reaches."""
    stairs = []
    for (cost, _, high), (after, _, _) in zip(points, points[1:] + [(max(most, points[-1][0]), 0, 0)]):
        if after >= least and cost <= most:
            stairs += [(max(cost, least), high), (min(after, most), high)]
    return stairs


def sweep_picture(points, least=None, most=None, reach=0):
    """The picture of a sweep, of all its costs or of a window of them, at least as high as a total; more may be drawn in it."""
    is_window = least is not None or most is not None
    least = 0 if least is None else least
    most = max(points[-1][0], least + 1) if most is None else most
    shown = stairs_of(points, least, most)
    limit = within([point[:2] for point in points], least, most)
    across = ticks(most, least)
    upwards = ticks(max([high for _, high in shown] + [reach]), min(low for _, low in limit) if is_window else 0)
    picture = Picture(across, upwards, ('cost', 'total backorders'))
    if is_window:
        ends = (least, most)
    else:
        ends = (0, across[-1])
        limit = [point[:2] for point in points] + [(across[-1], points[-1][1])]
        shown = stairs_of(points, 0, across[-1])
    picture.path([(ends[0], upwards[0])] + limit + [(ends[1], upwards[0])], 'fill="%s"' % SHADE, closed=True)
    picture.frame()
    picture.path(limit, 'stroke="%s" stroke-dasharray="4 3" fill="none"' % INK)
    picture.path(shown, 'stroke="%s" stroke-width="1.5" fill="none"' % LINE)
    dots = [point for point in points if ends[0] <= point[0] <= ends[1]]
    for cost, _, high in dots if len(dots) <= MOST_DOTS else []:
        picture.dot(cost, high, LINE)
    where = ' from %s to %s' % (number(least), number(most)) if is_window else ''
    points_shown = '1 point' if len(dots) == 1 else '%d points' % len(dots)
    picture.words(LEFT, 28, 'What a budget%s gives: %s. Nothing lies in the shaded region.' % (where, points_shown))
    return picture


# Bars


def bars_picture(title, rows, note=''):
    """A picture of bars, one for each row: a name, a value, and what is written behind the bar. A bar below 0 goes to the left."""
    least, most = min([0] + [value for _, value, _ in rows]), max([0] + [value for _, value, _ in rows])
    span = most - least or 1
    left, wide, high = 210, 560, 22
    zero = left + wide * -least / span
    parts = [
        '<text x="20" y="28" font-size="14">%s</text>' % escape(title),
        '<text x="20" y="46" font-size="12" fill="#555555">%s</text>' % escape(note),
    ]
    for place, (name, value, said) in enumerate(rows):
        y = 66 + high * place
        begin, end = sorted((zero, zero + wide * value / span))
        parts.append('<text x="%d" y="%d" text-anchor="end">%s</text>' % (left - 10, y + 11, escape(name)))
        parts.append(
            '<rect x="%.2f" y="%d" width="%.2f" height="14" fill="%s"/>'
            % (begin, y, end - begin, LINE if value >= 0 else COLOURS[1])
        )
        parts.append('<text x="%.2f" y="%d">%s</text>' % (max(end, zero) + 8, y + 11, escape(said)))
    height = 66 + high * len(rows) + 20
    parts.append('<path d="M%.2f,58 V%d" stroke="%s" fill="none"/>' % (zero, height - 22, INK))
    return '\n'.join(
        [
            '<svg xmlns="http://www.w3.org/2000/svg" width="%d" height="%d" viewBox="0 0 %d %d" font-family="sans-serif" font-size="13" fill="%s">'
            % (WIDTH, height, WIDTH, height, INK),
            '<rect width="100%" height="100%" fill="white"/>',
        ]
        + parts
        + ['</svg>', '']
    )
