"""The generated cases (FORMATS, The report of `demo`)."""

from cases import Case, Part, Rate, Site
from certificate import certificate_text, read_certificate
from checking import check_claims
from demands import accepted_demands
from figures import total_of
from families import families_of
from intervals import text_down, text_of, text_up
from planning import BITS, claims_of, planned


class Draws:
    """The draws from a number."""

    def __init__(self, number):
        self.state = number

    def draw(self, k):
        self.state = (69069 * self.state + 1) % 2**32
        return self.state // 256 % k


def demonstration_case(number, count):
    """The case of a number with this count of line units."""
    draws = Draws(number)
    draw = draws.draw
    sites = [Site("D", True, 0, 0)]
    for name in ("B1", "B2"):
        sites.append(Site(name, False, 12 + draw(13), 100 * (2 + draw(5))))
    parts, rates = [], {}
    for line in range(1, count + 1):
        add_family(draw, "L%d" % line, parts, rates)
    return Case(sites, parts, rates)


def add_family(draw, name, parts, rates):
    """A line unit and its shop units, and then their rates."""
    line = len(parts)
    parts.append(Part(name, "", 100 * (1 + draw(50)), 1 + draw(2), 3, 2, 1))
    for number in range(1, draw(3) + 1):
        parts.append(Part("%sS%d" % (name, number), name, 10 * (1 + draw(40)), 0, 1, 1, 0))
    rates[line, 0] = Rate(0, 0, 0, 2000 + draw(4000))
    for base in (1, 2):
        rates[line, base] = Rate(10000 + draw(200000), 1000 + draw(8000), 0, 200 + draw(800))
    for shop in range(line + 1, len(parts)):
        rates[shop, 0] = Rate(0, 0, 1000 + draw(3000), 2000 + draw(4000))
        for base in (1, 2):
            rates[shop, base] = Rate(0, 1000 + draw(6000), 1000 + draw(3000), 200 + draw(800))


def demonstration_lines(number, count):
    """The report of `demo`. The certificate of the plan is read and checked before."""
    case = demonstration_case(number, count)
    demands = accepted_demands(case)
    plan, stocks = planned(case, demands, 2000 * count)
    check_claims(read_certificate(certificate_text(claims_of(case, demands, plan, stocks, 1))))
    lines = ["demo,%d,%d" % (number, count), "parts,%d" % len(case.parts), "budget,%d" % plan.budget, "cost,%d" % plan.cost]
    lines.append("total," + text_of(BITS, total_of(families_of(case, demands, BITS), stocks)))
    lines += ["bound," + text_down(BITS, plan.bound), "gap," + text_up(BITS, plan.hi - plan.bound)]
    return lines + ["accepted"]
