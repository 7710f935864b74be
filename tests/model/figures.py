"""The figures of given stocks and their lines (MODEL, Availability in intervals, The figures of given stocks)."""

from collections import namedtuple

from cases import names_of, pairs_of
from families import families_of
from intervals import add, exact, less, mul, over, sum_of, text_of, times
from scores import plain_score

# items by pair, availability by number of the base
Figures = namedtuple("Figures", "bits items bases fleet total")


def factor(bits, backorders, systems, per_system):
    """The factor of a line unit in the availability of a base."""
    present = less(exact(bits, 1), over(backorders, systems * per_system))
    product = present
    for _ in range(per_system - 1):
        product = mul(bits, product, present)
    return product


def base_availability(bits, families, items, j):
    """The product of the factors of the line units at a base."""
    product = exact(bits, 1)
    for family in families:
        backorders = items[family.members[0], j].backorders
        product = mul(bits, product, factor(bits, backorders, family.systems[j], family.part.per_system))
    return product


def fleet_availability(case, bases):
    """The mean of the bases' availabilities, weighted by their systems."""
    total = sum_of(times(bases[j], case.sites[j].systems) for j in bases)
    return over(total, sum(case.sites[j].systems for j in bases))


def items_of(families, stocks):
    """The items of all pairs."""
    items = {}
    for family in families:
        for (i, j), item in family.items(family.vector_of(stocks)).items():
            items[family.members[i], j] = item
    return items


def total_of(families, stocks, score=plain_score):
    """The sum of the families' scored totals in their order."""
    total = (0, 0)
    for family in families:
        total = add(total, family.total(family.vector_of(stocks), score))
    return total


def figures_of(case, demands, stocks, bits):
    """The figures of stocks with this number of fraction bits."""
    families = families_of(case, demands, bits)
    items = items_of(families, stocks)
    bases = {j: base_availability(bits, families, items, j) for j in range(1, len(case.sites))}
    return Figures(bits, items, bases, fleet_availability(case, bases), total_of(families, stocks))


def figures_lines(case, figures):
    """The lines of a report from `item` to `total` (FORMATS, The report of `eval`)."""
    bits = figures.bits
    lines = [item_line(case, pair, figures.items[pair], bits) for pair in pairs_of(case)]
    for j, availability in figures.bases.items():
        lines.append("base,%s,%s" % (case.sites[j].name, text_of(bits, availability)))
    lines.append("fleet," + text_of(bits, figures.fleet))
    lines.append("total," + text_of(bits, figures.total))
    return lines


def item_line(case, pair, item, bits):
    ends = [text_of(bits, ends) for ends in (item.mean, item.variance, item.backorders, item.spread)]
    return ",".join(["item", names_of(case, pair), str(item.stock)] + ends)


def comparison_lines(case, demands, stocks, bits=48):
    """The report of `compare`."""
    lines, totals = ["compare,%d" % bits], []
    both = [families_of(case, demands, bits, is_poisson) for is_poisson in (False, True)]
    columns = [items_of(families, stocks) for families in both]
    for pair in pairs_of(case):
        ends = [text_of(bits, items[pair].backorders) for items in columns]
        lines.append(",".join(["item", names_of(case, pair), str(stocks[pair])] + ends))
    totals = [text_of(bits, total_of(families, stocks)) for families in both]
    return lines + [",".join(["total"] + totals)]
