"""Shares with a fraction of a percent: the whole numbers that they are, or the smallest whole range that holds them."""
import re
from decimal import ROUND_CEILING, ROUND_FLOOR, Context, Decimal

from bods_rules import BOUNDS

NUMERAL = re.compile(r"-?(?:0|[1-9][0-9]*)(?:\.[0-9]+)?(?:[eE][+-]?[0-9]+)?")
LOWER, UPPER = ("minimum", "exclusiveMinimum"), ("maximum", "exclusiveMaximum")
# More digits than these are no percent that anybody means.
LONGEST = 100
EXACT = Context(prec=2 * LONGEST)


def numeral(text):
    """The number that a numeral of JSON names, where it is from 0 to 100; else None."""
    if len(text) > LONGEST or not NUMERAL.fullmatch(text):
        return None
    value = Decimal(text)
    # (a numeral as 1e-999999999 is compared, and never written out)
    return value if 0 <= value <= 100 else None


def percent(text):
    """The number that a text means, also with blanks around it or with a percent sign behind it."""
    return numeral(text.strip().removesuffix("%").rstrip())


def truth_meant(name, value):
    """The truth value that is written as a text in a member that may be one, or None."""
    is_read = name in ("exclusiveMinimum", "exclusiveMaximum") and isinstance(value, str)
    return {"true": True, "false": False}.get(value.strip().lower()) if is_read else None


def is_whole(value):
    return value == value.to_integral_value(ROUND_FLOOR, EXACT)


def whole_text(value):
    """The whole number as JSON writes it."""
    return str(int(value))


def floor(value):
    return int(value.to_integral_value(ROUND_FLOOR, EXACT))


def ceiling(value):
    return int(value.to_integral_value(ROUND_CEILING, EXACT))


def below(bounds):
    """The lower end that the bounds give and whether it is open, or None."""
    ends = []
    if isinstance(bounds.get("minimum"), Decimal):
        ends.append((bounds["minimum"], bounds.get("exclusiveMinimum") is True))
    if isinstance(bounds.get("exclusiveMinimum"), Decimal):
        ends.append((bounds["exclusiveMinimum"], True))
    return max(ends) if ends else None


def above(bounds):
    """The upper end likewise; the one that lets less in."""
    ends = []
    if isinstance(bounds.get("maximum"), Decimal):
        ends.append((bounds["maximum"], bounds.get("exclusiveMaximum") is not True))
    if isinstance(bounds.get("exclusiveMaximum"), Decimal):
        ends.append((bounds["exclusiveMaximum"], False))
    if not ends:
        return None
    value, is_closed = min(ends)
    return value, not is_closed


def end_members(end, names, rounded):
    """The members that say a whole end: a fraction is left on the outer side of an open one."""
    closed, opened = names
    value, is_open = end
    return {opened if is_open or not is_whole(value) else closed: rounded(value)}


def widened(bounds):
    """The smallest whole range that holds a share: its members, where `bounds` has numbers and truth values by name.

    None where nothing is to be widened. An end that is whole stays as it is.
    """
    numbers = {name: value for name, value in bounds.items() if isinstance(value, Decimal)}
    if all(map(is_whole, numbers.values())):
        return None
    exact = numbers.get("exact")
    if exact is not None:
        if is_whole(exact):
            return {"exact": int(exact)}
        return {"exclusiveMinimum": floor(exact), "exclusiveMaximum": ceiling(exact)}
    found = {}
    for names, end, rounded in ((LOWER, below(bounds), floor), (UPPER, above(bounds), ceiling)):
        if end:
            found.update(end_members(end, names, rounded))
    return {name: found[name] for name in BOUNDS if name in found}
