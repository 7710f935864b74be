"""Prints, by the model, what the tests of single crates expect: ends in units of 2^-bits, fractions of rates, and curves.

    python3 tools/ends.py weights BITS MEAN_LO MEAN_HI EXCESS_LO EXCESS_HI
    python3 tools/ends.py table BITS MEAN_LO MEAN_HI VARIANCE_LO VARIANCE_HI
    python3 tools/ends.py series SHARE_LO SHARE_HI
    python3 tools/ends.py rates SITES PARTS RATES
    python3 tools/ends.py curves SITES PARTS RATES
"""

import os
import sys

TOP = os.path.dirname(os.path.dirname(os.path.abspath(__file__)))
sys.path.insert(0, os.path.join(TOP, "tests", "model"))

from cases import names_of, pairs_of
from demands import demands_of
from pipelines import Ratios, table, weights
from planning import curves_of
from scores import log_series
from spares import LONGEST_TABLE, Shelf, read_case


def show_weights(bits, *ends):
    mean, excess = ends[:2], ends[2:]
    found = weights(bits, mean, excess)
    if found is None:
        print("wide")
        return
    print("pivot %d, last %d, sum %d %d" % (Ratios(bits, mean, excess).pivot(), len(found.entries) - 1, *found.sum))
    for index, entry in enumerate(found.entries):
        print(index, *entry)


def show_table(bits, *ends):
    rows = table(bits, ends[:2], ends[2:])
    for stock, (backorders, variance) in enumerate(zip(rows.backorders, rows.variances)):
        tail = rows.tails[stock : stock + 1]
        print(stock, "ebo", *backorders, "vbo", *variance, *(("tail", *tail[0]) if tail else ()))


def show_series(*share):
    print(*log_series(share))


def case_in(*names):
    return read_case({file: Shelf().read(name, LONGEST_TABLE) for file, name in zip(("sites", "parts", "rates"), names)})


def show_rates(*names):
    """Demand, share, D and M of each pair, as fractions."""
    case = case_in(*names)
    demands = demands_of(case)
    for pair in pairs_of(case):
        print(names_of(case, pair), *[of_pair.get(pair, "-") for of_pair in demands])


def show_curves(*names):
    """The vertices of each family: cost, ends and stocks."""
    case = case_in(*names)
    for number, curve in enumerate(curves_of(case, demands_of(case))):
        for point in curve:
            print(number, point.cost, point.lo, point.hi, *point.stocks)


KINDS = {"weights": (show_weights, 5), "table": (show_table, 5), "series": (show_series, 2), "rates": (show_rates, 3), "curves": (show_curves, 3)}


def main():
    kind, *words = sys.argv[1:] or [""]
    if kind not in KINDS or len(words) != KINDS[kind][1]:
        sys.exit(__doc__)
    KINDS[kind][0](*(words if kind in ("rates", "curves") else map(int, words)))


if __name__ == "__main__":
    main()
