"""Random certificates for tests/floors.py and tests/differential.py: their floors are exactly the least that the covers show, or one unit
beside it. All is drawn from the random.Random that is given.

The least is found base by base (CERTIFICATE, How to find the least). The model's own `check` finds it by curves.
"""

from cases import limit, pairs_of
from certificate import OBJECTIVES, Claims, trimmed_cover
from checking import BITS, cover_leaves
from choice import largest_bound
from curves import cost_above, vectors_within, whole_curve
from demands import demands_of
from families import families_of
from figures import total_of
from random_damage import random_cover
from scores import SCORES

# The format, the aim, the stocks held, the covers and the price
FORMS = [
    (1, "backorders", "nothing", "whole", "step"),
    (2, "backorders", "nothing", "trimmed", "step"),
    (2, "backorders", "some", "whole", "step"),
    (2, "backorders", "some", "tree", "drawn"),
    (2, "backorders", "nothing", "tree", "nothing"),
    (2, "log-availability", "nothing", "whole", "step"),
    (2, "log-availability", "some", "whole", "drawn"),
    (2, "log-availability", "some", "trimmed", "step"),
    (2, "log-availability", "some", "tree", "nothing"),
    (2, "backorders", "nothing", "whole", "largest"),
    (2, "log-availability", "all", "whole", "drawn"),
]


# The least


def least_at_base(family, score, box, held, price, depot, j):
    """The least Lagrangian of a base with these stocks at the depot, and the first stocks there that have it."""
    size = len(family.members)
    places = slice(j * size, (j + 1) * size)
    found = []
    for stocks in vectors_within(box[0][places], box[1][places]):
        backorders = family.base_line(j, depot[0], depot[1:], stocks[1:]).table.backorders[stocks[0]]
        lo = score(family.systems[j], family.part, backorders)[0]
        found.append((price[1] * lo + price[0] * cost_above(family, stocks, held, places), stocks))
    return min(found)


def least_in(family, score, box, held, price):
    """The least Lagrangian of a box, and a vector that has it."""
    places = slice(0, len(family.members))
    found = []
    for depot in vectors_within(box[0][places], box[1][places]):
        value, vector = price[0] * cost_above(family, depot, held, places), depot
        for j in family.bases:
            least, stocks = least_at_base(family, score, box, held, price, depot, j)
            value, vector = value + least, vector + stocks
        found.append((value, vector))
    return min(found)


class Leasts:
    """Claims with the value of each leaf of each family: the largest floor that the leaf shows. Rates and covers must be sound."""

    def __init__(self, claims, families):
        self.claims, self.families, self.score = claims, families, SCORES[claims.objective]
        self.held = claims.held or nothing(claims.case)
        leaves = cover_leaves(claims, self.families, self.held)
        self.values = [[self.value(family, *leaf) for leaf in own] for family, own in zip(self.families, leaves)]
        self.floors = [min(values) for values in self.values]

    def value(self, family, kind, box):
        held = family.vector_of(self.held)
        if kind == "cost":
            return self.claims.price[0] * cost_above(family, box[0], held, slice(None))
        return least_in(family, self.score, box, held, self.claims.price)[0]

    def first_low(self, floors):
        """The fields of the refusal of these floors, or None if all of them hold."""
        for number, (floor, values) in enumerate(zip(floors, self.values)):
            for leaf, value in enumerate(values):
                if value < floor and self.claims.form == 1:
                    return "floor-too-high", number, floor, value
                if value < floor:
                    return "leaf-too-low", number, leaf, floor, value
        return None

    def with_floors(self, floors):
        """The claims with these floors, the largest bound that follows from them, and the least upper end."""
        upper = total_of(self.families, self.claims.stocks, self.score)[1]
        bound = largest_bound(floors, self.claims.price, self.claims.budget)
        return self.claims._replace(floors=floors, upper=upper, bound=bound)


def families_in(case):
    """The families of a case whose rates are accepted."""
    return families_of(case, demands_of(case), BITS)


def nothing(case):
    """No stocks, by pair."""
    return dict.fromkeys(pairs_of(case), 0)


def best_stocks(families, objective, held, price):
    """Stocks by pair that have the least Lagrangian of each family, and what they cost above the held ones."""
    stocks, cost = {}, 0
    for family in families:
        least = family.vector_of(held)
        vector = least_in(family, SCORES[objective], (least, tuple(family.limits)), least, price)[1]
        cost += cost_above(family, vector, least, slice(None))
        stocks.update({(family.members[i], j): stock for (i, j), stock in family.stocks_in(vector).items()})
    return stocks, cost


def step_prices(families, objective, held):
    """The slopes of all families' steps, as prices: at each of them two vertices have the same Lagrangian."""
    prices = []
    for family in families:
        curve = whole_curve(family, SCORES[objective], family.vector_of(held))
        prices += [(first.lo - last.lo, last.cost - first.cost) for first, last in zip(curve, curve[1:])]
    return prices


# Claims


def random_form(rng):
    """A form like the ones above."""
    price = rng.choice(["step", "step", "drawn", "drawn", "nothing", "largest"])
    if rng.random() < 0.2:
        return 1, OBJECTIVES[0], "nothing", "whole", price
    return 2, rng.choice(OBJECTIVES), rng.choice(["nothing", "some", "some", "all"]), rng.choice(["whole", "trimmed", "tree"]), price


def held_in(case, which, rng):
    """Held stocks by pair, or None."""
    limits = {pair: limit(case, pair) for pair in pairs_of(case)}
    if which == "some":
        return {pair: rng.choice([0, 0, rng.randint(0, most)]) for pair, most in limits.items()}
    return limits if which == "all" else None


def price_of(families, objective, held, which, rng):
    """A price: a step's slope, at which two vertices have the same Lagrangian, any price, no price, or the largest one."""
    if which == "step":
        return rng.choice(step_prices(families, objective, held) or [(1, 1)])
    return {
        "drawn": (rng.randint(1, 1 << rng.randint(1, 50)), rng.randint(1, 1 << rng.randint(1, 12))),
        "nothing": (0, rng.choice([1, 1, rng.randint(2, 10**6)])),
        "largest": (1 << 74, 10**12),
    }[which]


def tree_of(rng, family, held, price):
    """A random cover. The leaf of the held stocks is `whole`, and so are most others: where nothing costs, `cost` shows no floor."""
    nodes = random_cover(rng, family.vector_of(held), family.limits, rng.choice([1, 2, 3, 4]), odd=0)
    first = next(at for at, node in enumerate(nodes) if not node.startswith("split"))
    for at, node in enumerate(nodes):
        if node == "cost" and (at == first or price[0] == 0 or rng.random() < 0.5):
            nodes[at] = "whole"
    return nodes


def claims_of(case, families, form, objective, which_held, cover, which_price, rng):
    """The claims of a case but for the floors; the stocks have the least Lagrangians, and the budget is what they cost."""
    given = held_in(case, which_held, rng)
    held = given or nothing(case)
    price = price_of(families, objective, held, which_price, rng)
    stocks, cost = best_stocks(families, objective, held, price)
    claims = Claims(form, objective, case, cost, price, [], [["whole"] for _ in families], stocks, 0, 0, given)
    if cover == "tree":
        return claims._replace(covers=[tree_of(rng, family, held, price) for family in families])
    if cover == "trimmed":
        floors = zip(families, Leasts(claims, families).floors)
        covers = [trimmed_cover(family.vector_of(held), family.limits, family.costs, price[0], floor) for family, floor in floors]
        return claims._replace(covers=covers)
    return claims


# Rows: a name, the claims, and the fields of their refusal or None


def moved(floors, by, at=None):
    """Floors of which one is moved by a unit, or all of them, where they aren't 0."""
    return [max(0, floor + by) if at in (None, number) else floor for number, floor in enumerate(floors)]


def row_of(name, leasts, floors):
    return name, leasts.with_floors(floors), leasts.first_low(floors)


def rows_of(name, leasts, rng):
    """The rows of a certificate: the least, one more, one less, one more in each floor alone, and floors beside the values of leaves."""
    least = leasts.floors
    yield row_of(name + "the least", leasts, least)
    yield row_of(name + "one more", leasts, moved(least, 1))
    less = row_of(name + "one less", leasts, moved(least, -1))
    yield less
    bound = leasts.with_floors(least).bound
    if less[1].bound < bound:
        fields = "bound-too-high", bound, less[1].bound
        yield name + "one less, and the bound of the least", less[1]._replace(bound=bound), fields
    for at in range(len(least)) if len(least) > 1 else ():
        yield row_of("%sone more in floor %d" % (name, at), leasts, moved(least, 1, at))
    yield from leaf_rows(name, leasts, rng)


def leaf_rows(name, leasts, rng):
    """Floors at the value of a leaf above the least, and one more."""
    for number, values in enumerate(leasts.values):
        for value in rng.sample(sorted(set(values) - {min(values)}), min(2, len(set(values)) - 1)):
            yield leaf_row(name + "at", leasts, number, value, 0)
            yield leaf_row(name + "one more than", leasts, number, value, 1)


def leaf_row(name, leasts, number, value, by):
    """One floor is the value of one of its leaves, and `by` more; the others are the least."""
    floors = [value + by if at == number else floor for at, floor in enumerate(leasts.floors)]
    return row_of("%s leaf %d of floor %d" % (name, leasts.values[number].index(value), number), leasts, floors)
