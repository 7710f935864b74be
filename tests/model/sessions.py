"""Edits of a case and the plans between them (FORMATS, The report of `session`)."""

from decimals import decimal_of
from demands import demands_of, fault_of
from planning import plan_lines, planned
from refusals import Refusal
from tables import BLANKS, RATES, Row, numbers_of, rate_of

MOST_LINES = 4000
MOST_PLANS = 64
LARGEST_BUDGET = 10**15


def edit_lines(text):
    """The lines of a file of edits, without their ends."""
    lines = text.split("\n")
    last = lines.pop()
    lines = [line[:-1] if line.endswith("\r") else line for line in lines]
    return lines + [last] if last else lines


def edited_rate(fields, case):
    """The pair and the rate of a row of rates, or None if it is none of this case."""
    if len(fields) != len(RATES):
        return None
    row = Row("edits", 0, [field.strip(BLANKS) for field in fields])
    try:
        return rate_of(row, case, numbers_of(case))
    except Refusal:
        return None


def session_lines(case, text):
    """The reports of the plans that the edits ask for."""
    budget, plans, reports = 0, 0, []
    for number, line in enumerate(edit_lines(text), 1):
        if number > MOST_LINES:
            raise Refusal(3, "edit-lines")
        word, _, rest = line.partition(",")
        if line == "":
            continue
        if line == "plan":
            plans += 1
            if plans > MOST_PLANS:
                raise Refusal(3, "edit-plans", number)
            reports += planned_lines(case, budget, number)
        elif word == "budget" and is_budget(rest):
            budget = decimal_of(rest, 0)
        elif word == "rate" and edited_rate(rest.split(","), case):
            pair, rate = edited_rate(rest.split(","), case)
            case = case._replace(rates={**case.rates, pair: rate})
        else:
            raise Refusal(3, "edit", number)
    return reports


def is_budget(text):
    units = decimal_of(text, 0)
    return units is not None and units <= LARGEST_BUDGET


def planned_lines(case, budget, number):
    """The report of a plan at a line of the edits."""
    demands = demands_of(case)
    if fault_of(case, demands):
        raise Refusal(3, "edit-rate", number)
    return plan_lines(case, demands, *planned(case, demands, budget))
