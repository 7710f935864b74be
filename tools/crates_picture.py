#!/usr/bin/env python3
"""Draws the crates of crates.txt as docs/crates.svg.

    python3 tools/crates_picture.py [--write]

Each crate is above all crates that it names, as low as that allows. A line leads to each crate that it names and doesn't reach through
another. The colours are the groups of crates.txt, listed at the left. Without `--write` the script compares the picture with its own, as
`tests/run` does, and ends with status 1 if they differ; `--write` draws it anew.
"""

import pathlib
import sys

TOP = pathlib.Path(__file__).resolve().parent.parent
PICTURE = TOP / "docs/crates.svg"
BOX, HIGH, GAP, STEP, MARGIN = 124, 24, 14, 62, 20


def crates_of(text):
    """For each crate its group and the crates of the file that it names."""
    crates, group = {}, ""
    for line in text.splitlines():
        if line.startswith("#"):
            group = line[1:].strip()
        elif ":" in line:
            name, named = line.split(":")
            crates[name] = (group, named.split())
    return {name: (group, [other for other in named if other in crates]) for name, (group, named) in crates.items()}


def reached(crates, name, kept):
    """The crates that one rests on."""
    if name not in kept:
        named = crates[name][1]
        kept[name] = set(named).union(*(reached(crates, other, kept) for other in named))
    return kept[name]


def level(crates, name, kept):
    if name not in kept:
        kept[name] = 1 + max((level(crates, other, kept) for other in crates[name][1]), default=-1)
    return kept[name]


def plain_edges(crates):
    """The crates that each names and doesn't reach through another."""
    kept = {}
    return {
        name: [other for other in named if not any(other in reached(crates, between, kept) for between in named)]
        for name, (_, named) in crates.items()
    }


def rows_of(crates, edges):
    """The crates by level; within one, by where those stand that they are joined to."""
    levels = {}
    for name in crates:
        level(crates, name, levels)
    rows = [[name for name in crates if levels[name] == k] for k in range(max(levels.values()) + 1)]
    joined = {name: list(edges[name]) for name in crates}
    for name in crates:
        for other in edges[name]:
            joined[other].append(name)
    place = {}
    for row in rows:
        place.update(centred(row))
    for turn in range(24):
        for row in rows if turn % 2 else rows[::-1]:
            row.sort(key=lambda name: (round(middle(place, joined[name]), 6), name))
            place.update(centred(row))
    return rows, place


def middle(place, names):
    return sum(place[name] for name in names) / max(1, len(names))


def centred(row):
    return {name: k - (len(row) - 1) / 2 for k, name in enumerate(row)}


def boxed(x, y, wide, high, colour, words):
    """Words in a box round a place."""
    rect = '<rect x="%.1f" y="%.1f" width="%d" height="%d" rx="4" fill="%s" stroke="#555555"/>'
    return [
        rect % (x - wide / 2, y - high / 2, wide, high, colour),
        '<text x="%.1f" y="%.1f" text-anchor="middle">%s</text>' % (x, y + 4, words),
    ]


def drawn(text):
    crates = crates_of(text)
    edges = plain_edges(crates)
    rows, place = rows_of(crates, edges)
    wide = max(len(row) for row in rows) * (BOX + GAP) + 2 * MARGIN
    high = len(rows) * STEP + 2 * MARGIN
    groups = list(dict.fromkeys(group for group, _ in crates.values()))
    colour = {group: "hsl(%d, 60%%, 86%%)" % (k * 360 // len(groups)) for k, group in enumerate(groups)}
    at = {}
    for k, row in enumerate(rows):
        for name in row:
            at[name] = wide / 2 + place[name] * (BOX + GAP), high - MARGIN - STEP / 2 - k * STEP
    out = [
        '<svg xmlns="http://www.w3.org/2000/svg" width="%d" height="%d" viewBox="0 0 %d %d" font-family="sans-serif" font-size="11">'
        % (wide, high, wide, high),
        '<rect width="100%" height="100%" fill="white"/>',
    ]
    for name in crates:
        for other in edges[name]:
            (x, y), (u, v) = at[name], at[other]
            out.append('<line x1="%.1f" y1="%.1f" x2="%.1f" y2="%.1f" stroke="#999999"/>' % (x, y + HIGH / 2, u, v - HIGH / 2))
    for name, (group, _) in crates.items():
        out += boxed(at[name][0], at[name][1], BOX, HIGH, colour[group], name)
    for k, group in enumerate(groups):
        out += boxed(MARGIN + BOX / 2, MARGIN + 10 + 20 * k, BOX, 18, colour[group], group)
    return "\n".join(out + ["</svg>", ""])


def main():
    picture = drawn((TOP / "crates.txt").read_text())
    if sys.argv[1:] == ["--write"]:
        PICTURE.write_text(picture)
    elif not PICTURE.exists() or picture != PICTURE.read_text():
        raise SystemExit("%s is another picture: run tools/crates_picture.py --write" % PICTURE.name)


if __name__ == "__main__":
    main()
