"""The pipelines and items of a family in intervals (MODEL, Pipelines in intervals, The items of a family)."""

from collections import namedtuple

from cases import family_of, limit, lines_of
from intervals import add, capped, ceil_div, exact, less, mul, of_ratio, sum_of
from pipelines import table

# the intervals of mean and variance, and the table of the two
Pipeline = namedtuple("Pipeline", "mean variance table")
Item = namedtuple("Item", "stock mean variance backorders spread")


class Family:
    """A line unit, which is part 0 of the family, with its shop units in part order.

    If `is_poisson`, each variance is the mean (MODEL, Beside Poisson pipelines). Pipelines that were computed are kept.
    """

    def __init__(self, case, demands, line, bits, is_poisson=False):
        self.members = family_of(case, line)
        self.bits, self.is_poisson = bits, is_poisson
        self.shops, self.bases = range(1, len(self.members)), range(1, len(case.sites))
        self.part = case.parts[line]
        self.systems = [site.systems for site in case.sites]
        self.places = [(i, j) for j in range(len(case.sites)) for i in range(len(self.members))]
        pairs = [(self.members[i], j) for i, j in self.places]
        self.limits = [limit(case, pair) for pair in pairs]
        self.costs = [case.parts[part].cost for part, _ in pairs]
        self.direct = {place: of_ratio(bits, demands.direct[pair]) for place, pair in zip(self.places, pairs)}
        self.share = {place: of_ratio(bits, demands.share.get(pair, 0)) for place, pair in zip(self.places, pairs)}
        means = {place: demands.mean[pair] for place, pair in zip(self.places, pairs)}
        self.cap = {place: ceil_div(mean.numerator << bits, mean.denominator) for place, mean in means.items()}
        self.most = dict(zip(self.places, self.limits))
        self.kept = {}

    def stocks_in(self, vector):
        """The stocks of a vector by place."""
        return dict(zip(self.places, vector))

    def vector_of(self, stocks):
        """The vector of this family of stocks by pair."""
        return tuple(stocks[self.members[i], j] for i, j in self.places)

    def shop_stocks(self, stocks, j):
        return tuple(stocks[i, j] for i in self.shops)

    def mean_part(self, share, backorders):
        return mul(self.bits, share, backorders)

    def variance_part(self, share, backorders, spread):
        bits = self.bits
        mixed = mul(bits, share, less(exact(bits, 1), share))
        return add(mul(bits, mixed, backorders), mul(bits, mul(bits, share, share), spread))

    def pipeline(self, place, feeds, whole):
        """The pipeline of a place: its direct part, then the parts of the feeds, then all of the `whole` backorders.

        A feed is a share with backorders and their variance; `whole` has backorders with their variance.
        """
        mean = variance = self.direct[place]
        for share, backorders, spread in feeds:
            mean = add(mean, self.mean_part(share, backorders))
            variance = add(variance, self.variance_part(share, backorders, spread))
        for backorders, spread in whole:
            mean, variance = add(mean, backorders), add(variance, spread)
        mean, variance = capped(mean, self.cap[place]), capped(variance, self.cap[place])
        if self.is_poisson:
            variance = mean
        return Pipeline(mean, variance, table(self.bits, mean, variance, self.most[place]))

    def once(self, key, make):
        if key not in self.kept:
            self.kept[key] = make()
        return self.kept[key]

    def depot_shop(self, i):
        return self.once(("depot shop", i), lambda: self.pipeline((i, 0), [], []))

    def depot_line(self, depot_shops):
        """The line unit at the depot, for the stocks of the shop units there."""

        def make():
            feeds = [(self.share[i, 0], *at(self.depot_shop(i), stock)) for i, stock in zip(self.shops, depot_shops)]
            return self.pipeline((0, 0), feeds, [])

        return self.once(("depot line", depot_shops), make)

    def base_shop(self, i, j, depot_stock):
        """A shop unit at a base, for its stock at the depot."""

        def make():
            return self.pipeline((i, j), [(self.share[i, j], *at(self.depot_shop(i), depot_stock))], [])

        return self.once(("base shop", i, j, depot_stock), make)

    def base_line(self, j, depot_line_stock, depot_shops, base_shops):
        """The line unit at a base, for its stock at the depot and the stocks of the shop units there and at the base."""

        def make():
            feeds = [(self.share[0, j], *at(self.depot_line(depot_shops), depot_line_stock))]
            shops = zip(self.shops, depot_shops, base_shops)
            return self.pipeline((0, j), feeds, [at(self.base_shop(i, j, depot), stock) for i, depot, stock in shops])

        return self.once(("base line", j, depot_line_stock, depot_shops, base_shops), make)

    def items(self, vector):
        """The items of a vector by place."""
        stocks = self.stocks_in(vector)
        depot_shops = self.shop_stocks(stocks, 0)
        found = {(0, 0): self.depot_line(depot_shops)}
        for i in self.shops:
            found[i, 0] = self.depot_shop(i)
            for j in self.bases:
                found[i, j] = self.base_shop(i, j, stocks[i, 0])
        for j in self.bases:
            found[0, j] = self.base_line(j, stocks[0, 0], depot_shops, self.shop_stocks(stocks, j))
        return {place: item_of(pipeline, stocks[place]) for place, pipeline in found.items()}

    def total(self, vector, score):
        """The scored total: the sum of the scores of the line unit's backorders at the bases."""
        items = self.items(vector)
        return sum_of(score(self.systems[j], self.part, items[0, j].backorders) for j in self.bases)


def at(pipeline, stock):
    """The backorders of a pipeline at a stock, and their variance."""
    return pipeline.table.backorders[stock], pipeline.table.variances[stock]


def item_of(pipeline, stock):
    return Item(stock, pipeline.mean, pipeline.variance, *at(pipeline, stock))


def families_of(case, demands, bits, is_poisson=False):
    """The families of a case, by their line units in part order."""
    return [Family(case, demands, line, bits, is_poisson) for line in lines_of(case)]
