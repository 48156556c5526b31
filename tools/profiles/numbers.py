"""Numbers as Java reads them, written as literals of the profile language."""
import re
from decimal import Decimal

from profiles.words import millionths

_FLOAT = re.compile(rb'([+-]?(?:[0-9]+\.?[0-9]*|\.[0-9]+)(?:[eE][+-]?[0-9]{1,6})?)[fFdD]?')


def literal_of(text):
    """The literal for a number in Java's spelling, and whether it is another number; None where the text is no number."""
    found = _FLOAT.fullmatch(text)
    if not found:
        return None
    number = Decimal(found[1].decode())
    if not number or number.adjusted() < -6:
        return b'0', bool(number)
    written = f'{number:f}'.encode() if number.adjusted() < 10 else b''
    if millionths(written) is None:
        return b'-1000000000' if number < 0 else b'1000000000', True
    return written, Decimal(millionths(written)).scaleb(-6) != number
