"""The report of `plan` and the claims of its certificate (FORMATS, The report of `plan`)."""

from cases import cost_of, lines_of
from certificate import Claims, trimmed_cover
from choice import plan_of
from curves import MOST_TABLES, whole_curve, work_of
from families import families_of
from figures import figures_lines, figures_of
from intervals import decimal_text, text_down, text_of, text_up
from refusals import Refusal
from scores import SCORES

BITS = 48


def check_work(case, held=None):
    """A plan needs at most 1,000,000 tables."""
    count = work_of(case, lines_of(case), held)
    if count > MOST_TABLES:
        raise Refusal(3, "work", count)


def curves_of(case, demands, objective="backorders", held=None):
    """The curve of each family above the held stocks."""
    families = families_of(case, demands, BITS)
    return [whole_curve(family, SCORES[objective], held and family.vector_of(held)) for family in families]


def stocks_of_plan(families, plan):
    """The stocks by pair of a plan's vertices."""
    stocks = {}
    for family, vertex in zip(families, plan.vertices):
        for (i, j), stock in family.stocks_in(vertex.stocks).items():
            stocks[family.members[i], j] = stock
    return stocks


def planned(case, demands, budget, objective="backorders", held=None):
    """A plan and its stocks."""
    plan = plan_of(curves_of(case, demands, objective, held), budget)
    return plan, stocks_of_plan(families_of(case, demands, BITS), plan)


def price_text(price):
    """P / (Q * 2^48) with 12 decimals, rounded down."""
    return decimal_text(price[0] * 10**12 // (price[1] << BITS), 12)


def plan_lines(case, demands, plan, stocks, objective="backorders", held=None):
    """The lines of the report."""
    lines = ["plan,%d" % plan.budget, "cost,%d" % plan.cost]
    if held is not None:
        lines.append("on-hand,%d" % cost_of(case, held))
    lines += figures_lines(case, figures_of(case, demands, stocks, BITS))
    if objective == "log-availability":
        lines.append("loss," + text_of(BITS, (plan.lo, plan.hi)))
    lines.append("bound," + text_down(BITS, plan.bound))
    lines.append("gap," + text_up(BITS, plan.hi - plan.bound))
    lines.append("rounding," + text_up(BITS, plan.rounding))
    lines.append("price," + price_text(plan.price))
    lines.append("hull,%d" % plan.hull)
    return lines + [critical_line(case, plan.critical)]


def critical_line(case, step):
    if step is None:
        return "critical,none"
    return "critical,%s,%d" % (case.parts[lines_of(case)[step.family]].name, step.rise)


def claims_of(case, demands, plan, stocks, form, objective="backorders", held=None):
    """What the certificate of a plan claims."""
    covers = []
    if form == 2:
        for family, floor in zip(families_of(case, demands, BITS), plan.floors):
            least = family.vector_of(held) if held else (0,) * len(family.limits)
            covers.append(trimmed_cover(least, family.limits, family.costs, plan.price[0], floor))
    return Claims(form, objective, case, plan.budget, plan.price, plan.floors, covers, stocks, plan.hi, plan.bound, held)
