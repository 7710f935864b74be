"""What the checker verifies, in its order (CERTIFICATE, What must be verified; FORMATS, What a certificate may claim wrongly)."""

from cases import cost_of, limit, names_of, pairs_of
from choice import largest_bound
from curves import LARGEST_COUNT, MOST_TABLES, cost_above, family_curve, least_lagrangian, tables_within
from demands import demands_of, fault_of
from families import families_of
from figures import total_of
from intervals import text_down, text_up
from refusals import Refusal
from scores import SCORES

BITS = 48


def rejected(*fields):
    return Refusal(4, "rejected", *fields)


def leaves_of(nodes, box):
    """The leaves of a cover, each as its kind and its box, or None if the nodes are no tree over the box."""
    leaves, open_boxes = [], [box]
    for node in nodes:
        if not open_boxes:
            return None
        low, high = open_boxes.pop()
        if node in ("cost", "whole"):
            leaves.append((node, (low, high)))
            continue
        place, first = (int(field) for field in node.split(",")[1:])
        if place >= len(low) or not low[place] < first <= high[place]:
            return None
        below = high[:place] + (first - 1,) + high[place + 1 :]
        above = low[:place] + (first,) + low[place + 1 :]
        open_boxes += [(above, high), (low, below)]
    return None if open_boxes else leaves


def cover_leaves(claims, families, held):
    """The leaves of all families. In format 1 each cover is as if it were `whole`."""
    found = []
    for number, family in enumerate(families):
        nodes = claims.covers[number] if claims.form == 2 else ["whole"]
        leaves = leaves_of(nodes, (family.vector_of(held), tuple(family.limits)))
        if leaves is None:
            raise rejected("cover-gap", number)
        found.append(leaves)
    return found


def check_work(families, leaves):
    """The tables of all leaves that are `whole`."""
    count = 0
    for family, family_leaves in zip(families, leaves):
        sizes = len(family.members), len(family.bases)
        count += sum(tables_within(*sizes, box) for kind, box in family_leaves if kind == "whole")
    if count > MOST_TABLES:
        raise rejected("work", min(count, LARGEST_COUNT))


def check_stocks(claims, held):
    """Checks limits, held stocks and budget. Answers the cost of the stocks above the held ones."""
    case, stocks = claims.case, claims.stocks
    for pair in pairs_of(case):
        if stocks[pair] > limit(case, pair):
            raise rejected("stocks-over-limit", names_of(case, pair), stocks[pair])
    for pair in pairs_of(case):
        if stocks[pair] < held[pair]:
            raise rejected("stocks-below-held", names_of(case, pair), stocks[pair])
    cost = cost_of(case, stocks) - cost_of(case, held)
    if cost > claims.budget:
        raise rejected("over-budget", cost)
    return cost


def leaf_least(family, score, kind, box, held, price):
    """What the floor may be at most by this leaf."""
    if kind == "cost":
        return price[0] * cost_above(family, box[0], held, slice(None))
    return least_lagrangian(family_curve(family, score, box, held), price)


def check_floors(claims, families, leaves, held):
    score = SCORES[claims.objective]
    for number, (family, floor) in enumerate(zip(families, claims.floors)):
        for leaf, (kind, box) in enumerate(leaves[number]):
            least = leaf_least(family, score, kind, box, family.vector_of(held), claims.price)
            if floor > least and claims.form == 1:
                raise rejected("floor-too-high", number, floor, least)
            if floor > least:
                raise rejected("leaf-too-low", number, leaf, floor, least)


def check_claims(claims):
    """The cost of the stocks above the held ones, or a refusal by the first claim that fails."""
    demands = demands_of(claims.case)
    if fault_of(claims.case, demands):
        raise rejected("rate")
    families = families_of(claims.case, demands, BITS)
    held = claims.held or {pair: 0 for pair in pairs_of(claims.case)}
    leaves = cover_leaves(claims, families, held)
    check_work(families, leaves)
    cost = check_stocks(claims, held)
    check_floors(claims, families, leaves, held)
    upper = total_of(families, claims.stocks, SCORES[claims.objective])[1]
    if claims.upper < upper:
        raise rejected("upper-too-low", claims.upper, upper)
    largest = largest_bound(claims.floors, claims.price, claims.budget)
    if claims.bound > largest:
        raise rejected("bound-too-high", claims.bound, largest)
    return cost


def check_lines(claims):
    """The report of `check`."""
    cost = check_claims(claims)
    lines = ["accepted,%d" % claims.form, "budget,%d" % claims.budget, "cost,%d" % cost]
    if claims.held is not None:
        lines.append("on-hand,%d" % cost_of(claims.case, claims.held))
    return lines + ["upper," + text_up(BITS, claims.upper), "bound," + text_down(BITS, claims.bound)]
