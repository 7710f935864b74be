"""Decimals in words and tables (FORMATS, The command line)."""

from refusals import Refusal

LARGEST = 2**64 - 1


def decimal_of(text, places):
    """The value of a decimal in units of its last place, or None if the text is no decimal with these places.

    A decimal is digits with at most one point and at least one digit. Zeros past its places are taken.
    """
    whole, _, rest = text.partition(".")
    if not whole + rest or any(sign not in "0123456789" for sign in whole + rest):
        return None
    if rest[places:].strip("0"):
        return None
    digits = (whole + rest[:places].ljust(places, "0")).lstrip("0")
    if len(digits) > 20 or int(digits or "0") > LARGEST:
        return None
    return int(digits or "0")


def word_number(text, places, which, low=0, high=LARGEST):
    """The value of a word of the command line, or the refusal that names it."""
    units = decimal_of(text, places)
    if units is None:
        raise Refusal(2, "number", which)
    if not low <= units <= high:
        raise Refusal(2, "range", which)
    return units
