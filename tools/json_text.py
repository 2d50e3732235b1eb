"""JSON as the program reads it: in UTF-8, at most 127 deep, no number past a double's range, no half of a pair of surrogates."""
import itertools
import json
import math
import re

DEEPEST = 127
# The most digits of a number that is no double yet.
MOST_DIGITS = 20
STRING = re.compile(r'"(?:[^"\\]|\\.)*"', re.DOTALL)


def read(content):
    """The value of some bytes, of two members of one name the last. It raises ValueError where they have none."""
    text = content.decode()
    if depth(text) > DEEPEST:
        raise ValueError('nested too deep')
    value = json.loads(text, parse_int=whole, parse_float=double, parse_constant=refuse)
    for string in STRING.findall(text):
        # A half of a pair has no UTF-8.
        json.loads(string).encode()
    return value


def read_object(content, most):
    """The members of some bytes, or None where they are no object or more than so many."""
    try:
        value = read(content) if len(content) <= most else None
    except ValueError:
        return None
    return value if isinstance(value, dict) else None


def is_whole(value):
    """A whole number below 2^64, spelled without sign, fraction and exponent."""
    return type(value) is int and 0 <= value < 1 << 64


def depth(text):
    """How deep objects and lists are nested in a text."""
    brackets = re.findall(r'[][{}]', STRING.sub('', text))
    return max(itertools.accumulate(1 if bracket in '[{' else -1 for bracket in brackets), default=0)


def whole(digits):
    """A number without fraction and exponent. Zero with a sign is a double, and so is what is very long."""
    return double(digits) if digits == '-0' or len(digits) > MOST_DIGITS else int(digits)


def double(digits):
    """A double, which has to be finite."""
    number = float(digits)
    if math.isinf(number):
        raise ValueError('past the range of a double')
    return number


def refuse(word):
    """What is no number of JSON, but Python's."""
    raise ValueError(word)
