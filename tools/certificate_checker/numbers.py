"""Numbers as whole counts of millionths, and the texts that stand for them (docs/FORMULAS.md, "Numbers and texts")."""
import re

MILLION, MOST = 10**6, 10**15
DECIMAL = re.compile(rb'(-?)([0-9]+)(?:\.([0-9]+))?')


class Fault(Exception):
    """A fault of arithmetic; its text is the kind as a refusal tells it."""


def cut(dividend, divisor):
    """The quotient of two whole numbers, rounded toward zero."""
    quotient = abs(dividend) // abs(divisor)
    return quotient if (dividend < 0) == (divisor < 0) else -quotient


def in_range(count):
    if abs(count) > MOST:
        raise Fault('number too large')
    return count


def divide(a, b):
    if b == 0:
        raise Fault('division by zero')
    return in_range(cut(a * MILLION, b))


def decimal(text, most_digits, decimals):
    """The sign of a decimal text, and its digits up to so many decimals as one number; None where it is no such text, or its whole
    part has more digits than this."""
    match = DECIMAL.fullmatch(text)
    if not match or len(match[2].lstrip(b'0')) > most_digits:
        return None
    behind = ((match[3] or b'') + b'0' * decimals)[:decimals]
    return -1 if match[1] else 1, int(match[2].lstrip(b'0') + behind)


def literal(text):
    """The millionths of a literal of the profile language, cut after the sixth decimal; None where it is none or out of range."""
    found = decimal(text, 10, 6)
    return found[0] * found[1] if found and found[1] <= MOST else None


def coordinate(text, most):
    """The microdegrees of a coordinate, rounded half up at the sixth decimal; None where it is none or beyond `most`.
    The seventh decimal decides, whatever stands behind it."""
    found = decimal(text, 3, 7)
    return found[0] * ((found[1] + 5) // 10) if found and (found[1] + 5) // 10 <= most else None


def mil6(count):
    """Millionths as a text with six decimals."""
    return f"{'-' if count < 0 else ''}{abs(count) // MILLION}.{abs(count) % MILLION:06}"
