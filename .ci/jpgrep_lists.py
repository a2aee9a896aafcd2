"""A plain model of lists of JSON values, and random ones whose equal values are spelled in many ways, for `jpgrep_examples.py`."""
import json
from fractions import Fraction

# Numbers as a whole number times a power of ten: some are equal to a float, and not to each other.
NUMBERS = [(0, 0), (1, 0), (-1, 0), (10, 0), (249, -1), (2490000000000000000001, -20), (9007199254740993, 0), (9007199254740992, 0),
           (1234567890123456789, 0), (1234567890123456788, 0), (-1234567890123456789, 0), (1, 400), (11, 399), (1, -400), (5, -1)]
TEXTS = ["", "a", "b", "ab", "A", "é", "e\u0301", "\U0001d11e", "\"", "\\", "/", "\n", "\t", "\x01", "\x7f", "u0001", "1", "null", "\\u0061"]
SHORT = {"\"": "\\\"", "\\": "\\\\", "/": "\\/", "\b": "\\b", "\f": "\\f", "\n": "\\n", "\r": "\\r", "\t": "\\t"}


def random_value(dice, depth):
    """A value: a number as a pair, an array as a list, an object as a dict."""
    kind = dice.random()
    if depth == 0 or kind < 0.4:
        return dice.choice(NUMBERS)
    if kind < 0.7:
        return dice.choice(TEXTS)
    if kind < 0.8:
        return dice.choice((None, True, False))
    if kind < 0.9:
        return [random_value(dice, depth - 1) for _ in range(dice.randrange(3))]
    return {name: random_value(dice, depth - 1) for name in dice.sample(TEXTS, dice.randrange(4))}


def other(dice, value):
    """A value that is nearly another."""
    if isinstance(value, tuple):
        return value[0] + dice.choice((0, 1)), value[1] + dice.choice((0, 1))
    if isinstance(value, str):
        return value + dice.choice(("", "a"))
    if isinstance(value, list):
        return dice.choice((value + [None], value[1:], value[::-1]))
    if isinstance(value, dict):
        return {name: other(dice, part) for name, part in value.items()}
    return dice.choice(((0, 0), "", None, False, [], {}))


def spelled_number(dice, mantissa, power):
    zeros = dice.randrange(4)
    digits, power = str(abs(mantissa)) + "0" * zeros, power - zeros
    if not mantissa:
        digits, power = "0", dice.choice((0, 1, -7, power))
    point = dice.randrange(len(digits))
    if mantissa and point:
        digits, power = f"{digits[:point]}.{digits[point:]}", power + len(digits) - point
    sign = "-" if mantissa < 0 or (not mantissa and dice.random() < 0.5) else ""
    exponent = "" if power == 0 and dice.random() < 0.8 else dice.choice("eE") + (dice.choice(("", "+")) if power >= 0 else "") + str(power)
    return sign + digits + exponent


def spelled_character(dice, character):
    if character in SHORT and (character != "/" or dice.random() < 0.5) and dice.random() < 0.7:
        return SHORT[character]
    if character not in "\"\\" and ord(character) >= 0x20 and dice.random() < 0.6:
        return character
    return "".join(dice.choice((f"\\u{half:04x}", f"\\u{half:04X}"))
                   for half in memoryview(character.encode("utf-16-le")).cast("H"))


def spelled(dice, value):
    """A JSON text of a value, one of many."""
    blank = lambda: dice.choice(("", "", "", " ", "\t"))
    if isinstance(value, tuple):
        return spelled_number(dice, *value)
    if isinstance(value, str):
        return '"' + "".join(spelled_character(dice, character) for character in value) + '"'
    if isinstance(value, list):
        return "[" + ",".join(blank() + spelled(dice, part) + blank() for part in value) + "]"
    if isinstance(value, dict):
        members = dice.sample(list(value.items()), len(value))
        return "{" + ",".join(f"{blank()}{spelled(dice, name)}{blank()}:{blank()}{spelled(dice, part)}" for name, part in members) + "}"
    return json.dumps(value)


def model(value):
    """What is equal for equal JSON values alone (RFC 9535, section 2.3.5.2.2)."""
    if isinstance(value, list):
        return ("array", *map(model, value))
    if isinstance(value, dict):
        return "object", frozenset((name, model(part)) for name, part in value.items())
    return type(value).__name__, value


def model_of_text(text):
    return model(json.loads(text, parse_int=Fraction, parse_float=Fraction))


def random_list(dice):
    """The lines of a list, and lines to be asked, each with its value or None where it has none."""
    base = [random_value(dice, 3) for _ in range(dice.randrange(1, 12))]
    listed = [spelled(dice, dice.choice(base)) for _ in range(dice.randrange(20))] + [""] * dice.randrange(2)
    asked = []
    for _ in range(dice.randrange(1, 30)):
        value = dice.choice(base)
        text = spelled(dice, other(dice, value) if dice.random() < 0.5 else value)
        asked.append((f'{{"k" : {text} }}', text) if dice.random() < 0.9 else ('{"K":1}', None))
    return dice.sample(listed, len(listed)), asked
