"""The words of the command line and the query among them (docs/REFUSALS.md, "Words"; docs/FORMATS.md, "The query")."""
import re
from urllib.parse import unquote_to_bytes

from .numbers import coordinate, decimal, literal
from .profile import is_name
from .refusals import Refusal

KEYS = ('lookups', 'profile', 'map', 'query', 'certificate')
MOST_TILES, MOST_PLACES, MOST_CIRCLES, MOST_OVERRIDES = 64, 100, 64, 64
FARTHEST_RADIUS, MOST_LABELS = 100_000_000, 4_000_000_000
PROFILE_NAME = re.compile(r'(?!custom_)[A-Za-z0-9_-]{1,64}')


def profile_name(path):
    """The name of a profile by its path: the last part, without a last `.brf`."""
    return path.rsplit('/', 1)[-1].removesuffix('.brf')


def read_words(words):
    """The value and the place of the word of each key, those of tiles as a list; the first word is the program's own."""
    found = {'tile': []}
    for place, word in enumerate(words[1:], 1):
        key, _, value = word.partition('=')
        is_again = len(found['tile']) == MOST_TILES if key == 'tile' else key in found or key not in KEYS
        if is_again or not value or key == 'profile' and not PROFILE_NAME.fullmatch(profile_name(value)):
            raise Refusal(1, f'usage: word {place}')
        if key == 'tile':
            found['tile'].append((value, place))
        else:
            found[key] = value, place
    if len(found) <= len(KEYS):
        raise Refusal(1, f'usage: word {len(words)}')
    return found


def place_of(text):
    longitude, _, latitude = text.partition(b',')
    place = coordinate(longitude, 180_000_000), coordinate(latitude, 90_000_000)
    return None if None in place else place


def circle_of(text):
    """The centre and the radius in millimetres of a circle."""
    centre, _, radius = text.rpartition(b',')
    place, length = place_of(centre), decimal(radius, 6, 3)
    return (place, length[1]) if place and length and length[1] <= FARTHEST_RADIUS and radius[:1] != b'-' else None


def of_form(pattern):
    return lambda text: text if re.fullmatch(pattern, text) else None


def items(name, text, most, read):
    """The items between bars; one more than the most is refused where it is of its form."""
    found = []
    for text in text.split(b'|'):
        found.append(read(text))
        if found[-1] is None:
            return None
        if len(found) > most:
            raise Refusal(1, f'query: too many in {name}')
    return found


VALUES = {
    'lonlats': lambda text: items('lonlats', text, MOST_PLACES, place_of) if b'|' in text else None,
    'profile': lambda text: text or None,
    'nogos': lambda text: items('nogos', text, MOST_CIRCLES, circle_of) if text else [],
    'alternativeidx': of_form(rb'[0-3]'), 'format': of_form(rb'geojson|csv'), 'runs': of_form(rb'[01]'),
    'labels': lambda text: text if re.fullmatch(rb'[0-9]{1,10}', text) and 1 <= int(text) <= MOST_LABELS else None,
    'profile:': literal}


def read_query(query):
    """The value of each key of a query, and under `profile:` that of each override; or the refusal of its first pair at fault."""
    found = {'profile:': {}}
    for number, piece in enumerate(filter(None, query.split('&'))):
        key, _, text = (unquote_to_bytes(it.replace('+', ' ')) for it in piece.partition('='))
        key, colon, name = key.decode('utf-8', 'replace').partition(':')
        key, kept = key + colon, found['profile:'] if colon else found
        if key not in VALUES:
            raise Refusal(1, f'query: unknown key at pair {number}')
        if (name.encode() if colon else key) in kept:
            raise Refusal(1, f'query: repeated {key}')
        if key == 'format' and text in (b'gpx', b'kml'):
            raise Refusal(1, 'query: format not offered')
        value = None if colon and not is_name(name.encode()) else VALUES[key](text)
        if value is None:
            raise Refusal(1, f'query: bad value of {key}')
        if colon and len(kept) == MOST_OVERRIDES:
            raise Refusal(1, f'query: too many in {key}')
        kept[name.encode() if colon else key] = value
    if missing := [key for key in ('lonlats', 'profile') if key not in found]:
        raise Refusal(1, f'query: missing {missing[0]}')
    return found
