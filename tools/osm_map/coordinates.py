"""Coordinates as whole microdegrees, rounded half up at the sixth decimal as the program rounds them, and boxes of them."""
from collections import namedtuple
from decimal import Decimal, InvalidOperation, ROUND_HALF_UP

from .faults import UsageFault

MICRO = Decimal('0.000001')
MOST_LATITUDE, MOST_LONGITUDE = 90_000_000, 180_000_000

Box = namedtuple('Box', 'west south east north')


def of_decimal(number, most):
    """The microdegrees of a whole or a decimal number; None beyond `most`."""
    if not abs(number) <= most // 1_000_000:
        return None
    return int(Decimal(number).quantize(MICRO, ROUND_HALF_UP).scaleb(6))


def of_seven_decimals(text):
    """The microdegrees of a text with at most seven decimals, which is what OpenStreetMap keeps."""
    number = round(float(text) * 10_000_000)
    return (number + 5) // 10 if number >= 0 else -((5 - number) // 10)


def box_of(text):
    """The box of a text `W,S,E,N` in degrees."""
    try:
        degrees = [Decimal(part) for part in text.split(',')]
        west, south, east, north = (of_decimal(number, most) for number, most in
                                    zip(degrees, (MOST_LONGITUDE, MOST_LATITUDE) * 2, strict=True))
    except (InvalidOperation, ValueError):
        raise UsageFault(f'box={text}: west,south,east,north in degrees are wanted') from None
    if None in (west, south, east, north) or west >= east or south >= north:
        raise UsageFault(f'box={text}: longitudes within 180 and latitudes within 90 degrees are wanted, west below east, south below north')
    return Box(west, south, east, north)
