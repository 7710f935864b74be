"""The words of the command line (FORMATS, The command line)."""

from collections import namedtuple

from decimals import word_number
from refusals import Refusal
from scores import SCORES

Form = namedtuple("Form", "plain needed allowed")

# how many plain words a command has, which options it needs, and which it may have beside them
TABLES = ("sites", "parts", "rates")
FORMS = {
    "single": Form(2, (), ("variance",)),
    "eval": Form(0, TABLES + ("stocks",), ("bits",)),
    "plan": Form(0, TABLES + ("budget", "certificate"), ("on-hand", "format", "objective")),
    "sweep": Form(0, TABLES, ()),
    "target": Form(0, TABLES + ("backorders",), ()),
    "session": Form(0, TABLES + ("edits",), ()),
    "compare": Form(0, TABLES + ("stocks",), ()),
    "check": Form(0, ("certificate",), ()),
    "demo": Form(2, (), ()),
}
BUDGETS = (0, 10**15)
TARGETS = (0, 10**13)


def no_words():
    return Refusal(2, "words")


def is_option(word):
    """A word that begins with a hyphen is an option, but for `-` alone."""
    return word.startswith("-") and word != "-"


def split_words(words):
    """The command, its plain words and its options with their values."""
    if not words or words[0] not in FORMS or any(is_no_text(word) for word in words):
        raise no_words()
    form = FORMS[words[0]]
    plain, options, rest = [], {}, list(words[1:])
    while rest:
        word = rest.pop(0)
        if word == "--":
            plain, rest = plain + rest, []
        elif is_option(word):
            name, value = option_of(word, rest)
            if name not in form.needed + form.allowed or name in options:
                raise no_words()
            options[name] = value
        else:
            plain.append(word)
    if len(plain) != form.plain or any(name not in options for name in form.needed):
        raise no_words()
    return words[0], plain, options


def is_no_text(word):
    """Whether the bytes of a word are no text in UTF-8."""
    return any("\udc80" <= sign <= "\udcff" for sign in word)


def option_of(word, rest):
    """The name and the value of an option: after the sign `=`, or the next word."""
    name, sign, value = word.partition("=")
    if not sign:
        if not rest or is_option(rest[0]):
            raise no_words()
        value = rest.pop(0)
    return name[2:] if name.startswith("--") else "", value


# The numbers of each command, in the order in which they are read


def single_numbers(plain, options):
    mean = word_number(plain[0], 4, "mean")
    variance = word_number(options["variance"], 4, "variance") if "variance" in options else mean
    return mean, variance, word_number(plain[1], 0, "stock", 0, 63)


def bits_of(options):
    bits = word_number(options.get("bits", "48"), 0, "bits")
    if bits not in (32, 48, 52):
        raise Refusal(2, "range", "bits")
    return bits


def plan_numbers(options):
    """The budget, the format and the objective."""
    budget = word_number(options["budget"], 0, "budget", *BUDGETS)
    objective = options.get("objective", "backorders")
    needs_2 = objective == "log-availability" or "on-hand" in options
    form = 2 if needs_2 else 1
    if "format" in options:
        form = word_number(options["format"], 0, "format", 2 if needs_2 else 1, 2)
    if objective not in SCORES:
        raise Refusal(2, "range", "objective")
    return budget, form, objective


def target_of(options):
    """The target in ten-thousandths."""
    return word_number(options["backorders"], 4, "target", *TARGETS)


def demo_numbers(plain):
    return word_number(plain[0], 0, "number", 0, 2**32 - 1), word_number(plain[1], 0, "lines", 1, 80)
