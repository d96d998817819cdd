"""Floats written as decimals: near a float or any, in many spellings, and words that are almost decimals.

A decimal is (below, digits, power): whether it has a `-`, its digits, and the power of ten that they are multiplied by.
"""
import re
import struct
from decimal import Context, Decimal

MOST, POWER = 15, 22  # digits, and the greatest power of ten
BITS = re.compile("[0-9a-f]{16}")

# Words at every bound of the form. First those that it takes.
TAKEN = [
    "0", "-0", "00", "0.0", "-0.0", "0e0", "-0e0", "0e22", "-0e-22", "0.0e-21", "-0.000e5", "1", "-1", "4", "10", "0.5",
    "-0.25", "0.1", "-0.3", "1.5", "3.25e2", "6.1e-3", "1e0", "1e-0", "1e3", "2.50e-1", "100", "1.0e1", "9e9", "1e22",
    "-1e-22", "9e22", "9e-22", "0.1e23", "1.0e-21", "1.5e23", "10e22", "5e22", "7e22", "15e21", "45e21",
    "999999999999999", "-999999999999999", "123456789012345e22", "999999999999999e-22", "9.99999999999999e36",
    "1.00000000000001e-8", "45035996273704.9e1", "360287970189641e2", "720575940379279e2", "100000000000000e22",
    "0.0000000000000000000001", "0.0000000000000000000000", "0.00000000000000000000000e1", "0.0000000123456789012345",
    "0.000000000000000123456789012345e8", "0.000000000000000000000000000000000000123456789012345e51", "007", "-007.50",
    "00.5", "000000000000000000000000000000001", "-00000000000000000000000", "1e0022", "1e-0022",
    "1e00000000000000000000000000000000", "0000000000000000000.0000000000000000000010", "00000000000000000",
    "0123456789012345e0", "1.5e000000000000000000003", "1234567890123.45", "0000000000000004.0", "1.00000000000000",
    "-123456789012345", "12345678901234.5", "-12345678901e-21", "0.00000000000001", "1234567890123e-5",
]  # fmt: skip
# 16 hexadecimal digits that look like a decimal.
LIKE_DECIMALS = [
    "1e00000000000005", "12345678901234e5", "1234567890123456", "0000000000000001", "0e00000000000000",
    "9e99999999999999", "1000000000000000", "4e00000000000000", "00000000000000e1", "1e1e1e1e1e1e1e1e",
    "e000000000000001", "1e70000000000000",
]  # fmt: skip
# Those that are neither.
NOT_TAKEN = [
    "", "-", "--1", "+1", "+0", "1-", "-+1", ".", "-.", ".5", "-.5", "5.", "-5.", "5.e1", ".e1", "e", "e1", "-e1", "1e",
    "1e-", "1e+", "1e+1", "1e--1", "1e-+1", "1E3", "1.5E-3", "1.2.3", "1..2", "1.2e1.0", "1e1e1", "1ee1", "1e1e",
    "1e.5", "nan", "-nan", "NaN", "inf", "-inf", "Inf", "infinity", "1f", "1d", "0x1", "0x10", "1_000", "1,5", "1a",
    "x1", "1x", "1e23", "1e-23", "0e23", "0e-23", "-0e23", "0.1e24", "0.1e-22", "1.0e-22", "1.5e24", "10e23", "1.5e-22",
    "0.00000000000000000000001", "0.00000000000000000000000", "1e18446744073709551615", "1e-18446744073709551615",
    "1e18446744073709551616", "1e-18446744073709551616", "1e340282366920938463463374607431768211456",
    "0e18446744073709551616", "1e4294967296", "1e-4294967296", "1e65536", "1e256", "1e-256", "1e18446744073709551638",
    "1e-18446744073709551594", "100000000000000.0", "1.000000000000000", "1234567890.123456", "0.1234567890123456",
    "-1234567890123456", "12345678901234567", "1234567890123456e0", "01234567890123456", "1234567890123456.0",
    "9999999999999999e-22", "1000000000000000e-1", "3FF0000000000000", "3ff000000000000g", "0x3ff00000000000",
    "3ff000000000000", "1e0000000000000g", "1.0000000000000e", "-00000000000000e", "1.000000000000.0",
    "+123456789012345", "-.00000000000001",
]  # fmt: skip


def held(number):
    """The decimal of a number with the fewest digits, None where the form cannot hold it."""
    sign, digits, power = number.as_tuple()
    if not number:
        return bool(sign), "0", 0
    text = "".join(map(str, digits)).lstrip("0")
    digits = text.rstrip("0")
    power += len(text) - len(digits)
    digits += "0" * (power - POWER)
    power = min(power, POWER)
    return (bool(sign), digits, power) if len(digits) <= MOST and power >= -POWER else None


def value(word):
    return struct.unpack(">d", bytes.fromhex(word))[0]


def finite(word):
    return int(word, 16) & 0x7FF << 52 != 0x7FF << 52


def spelled(rng, decimal):
    """A decimal in one of its common spellings; one that would be a float's bits gets a zero in front."""
    below, digits, power = decimal
    kind = rng.randrange(4)
    if kind < 2 and 0 <= power <= MOST - len(digits):
        digits, power = digits + "0" * power, 0
    if kind < 2 and power < 0:
        point = -power
    elif kind < 3:
        point = len(digits) - 1
    else:
        point = rng.randrange(len(digits) + 2)
    text = with_point(digits, point) + exponent(rng, power + point)
    text = "-" * below + text
    return "0" + text if BITS.fullmatch(text) else text


def with_point(digits, point):
    """Digits, so many of them behind a point."""
    digits = digits.rjust(point + 1, "0")
    return digits[:-point] + "." + digits[-point:] if point else digits


def exponent(rng, number):
    return f"e{number}" if number or rng.random() < 0.05 else ""


def near(rng, word, most=MOST):
    """A float's bits as a decimal of so many digits that is near it; the word itself where there is none."""
    if not finite(word):
        return word
    number = Context(prec=most).create_decimal_from_float(value(word))
    if number.as_tuple().exponent < -POWER:
        number = number.quantize(Decimal(1).scaleb(-POWER))
    decimal = held(number)
    return spelled(rng, decimal) if decimal else word


def equal(rng, word):
    """A float's bits as a decimal that is equal to it; the word itself where there is none."""
    decimal = held(Decimal(value(word))) if finite(word) else None
    return spelled(rng, decimal) if decimal else word


def any_decimal(rng):
    """Few digits, 15, any, zeros, or a number half way between two floats; with zeros in front and behind, too."""
    kind = rng.randrange(6)
    power = rng.randint(-POWER, POWER)
    if kind == 0:
        digits, power = rng.randrange(1, 100), rng.randint(-4, 3)
    elif kind < 3:
        digits = rng.randrange(10 ** (MOST - 1), 10**MOST)
    elif kind == 3:
        digits = rng.randrange(10 ** rng.randint(1, MOST))
    elif kind == 4:
        digits = 0
    else:
        power = rng.randint(2, POWER)
        digits = rng.randrange(2**53 // 5**power, min(2**54 // 5**power, 10**MOST)) | 1
    text = str(digits)
    if rng.random() < 0.2:
        zeros = rng.randint(0, min(MOST - len(text), power + POWER))
        text, power = text + "0" * zeros, power - zeros
    text = spelled(rng, (rng.random() < 0.5, text, power))
    for start in ("^-?", "e-?"):  # of the digits and of the exponent
        if rng.random() < 0.1:
            text = re.sub(start, lambda found: found[0] + "0" * rng.randint(1, 20), text)
    return text


def almost(rng):
    """A word that is most often no float."""
    kind = rng.randrange(7)
    if kind == 0:
        return rng.choice(NOT_TAKEN + LIKE_DECIMALS)
    sign = rng.choice(["", "-"])
    if kind == 1:  # too many digits
        digits = str(rng.randrange(10**MOST, 10 ** (MOST + rng.choice([1, 1, 1, 5]))))
        return sign + with_point(digits, rng.randrange(len(digits))) + exponent(rng, rng.randint(-9, 9))
    if kind == 2:  # a power too great or too small, by one or more
        digits, point = str(rng.randrange(10 ** rng.randint(1, MOST))), rng.randrange(MOST)
        power = rng.choice([1, -1]) * (POWER + rng.choice([1, 1, 2, rng.randint(1, 300)]))
        return sign + with_point(digits, point) + f"e{power + point}"
    text = any_decimal(rng)
    place = rng.randrange(len(text) + 1)
    if kind == 3:
        return text + f"e{rng.choice(['', '-', '+1', '1.0', 2**64, -(2**64), 10**30, 2**32 + 1, 'e1'])}"
    if kind == 4:
        return text[: max(place - 1, 0)] + text[place:]
    if kind == 5:
        return text[:place] + rng.choice(".e-+E,_xf0 ").strip() + text[place:]
    return "".join(rng.choices("0123456789.e-", k=rng.choice([3, 6, 16, 16])))
