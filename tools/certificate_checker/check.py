"""The check of a certificate, from the words of the command line to the verdict, with the refusals of docs/REFUSALS.md in their order."""
import sys
from collections import namedtuple

from . import heights, profile, tags
from .certificate import read_certificate
from .numbers import Fault, mil6
from .refusals import Refusal
from .request import profile_name, read_query, read_words
from .ride import Ride
from .road_map import read_map

LIMITS = {'lookups': 1_048_576, 'profile': 262_144, 'map': 8_589_934_592, 'tile': heights.LARGEST, 'certificate': 1_073_741_824}
World = namedtuple('World', 'table sections road_map tiles')


def take(key, word, read):
    """What the text of a word's file is read as; a refusal names the word."""
    path, place = word
    try:
        with open(path, 'rb') as file:
            text = file.read(LIMITS[key] + 1)
        if len(text) > LIMITS[key]:
            raise Refusal(2, 'file too long')
        return read(text)
    except FileNotFoundError:
        raise Refusal(7, f'word {place}: not found') from None
    except OSError:
        raise Refusal(8, f'word {place}: read fault') from None
    except Refusal as refusal:
        raise Refusal(refusal.status, f'word {place}: {refusal.line}') from None


def read_world(words):
    """What the files say, taken in one after the other."""
    table = take('lookups', words['lookups'], tags.read_table)
    sections = take('profile', words['profile'], lambda text: profile.read_profile(text, table))
    road_map, tiles = take('map', words['map'], read_map), heights.Tiles()
    for word in words['tile']:
        take('tile', word, lambda samples, path=word[0]: tiles.add(path, samples))
    return World(table, sections, road_map, tiles)


def global_values_of(sections, overrides):
    for place, name in enumerate(overrides):
        if all(it.name != name for it in sections['global']):
            raise Refusal(2, f'override {place}: unknown name')
    try:
        return profile.values_of(sections['global'], {}, {}, {}, overrides)
    except Fault as fault:
        raise Refusal(6, f'global {fault}') from None


def judge(ride, nodes, form, legs):
    """What a certificate's legs cost together, or the refusal of the first leg of which a condition fails."""
    if len(legs) != len(nodes) - 1:
        raise Refusal(13, f'certificate refused: leg {len(legs)}, legs')
    for number, leg in enumerate(legs):
        if why := ride.fault(form, leg, *nodes[number:number + 2]):
            raise Refusal(13, f'certificate refused: leg {number}, {why}')
    return sum(leg.cost for leg in legs)


def answer(words):
    """What a check prints, or the refusal with which it ends."""
    if any('\udc80' <= it <= '\udcff' for word in words for it in word):
        raise Refusal(1, 'usage: word 0')
    words = read_words(words)
    query = read_query(words['query'][0])
    if query.get('alternativeidx', b'0') != b'0':
        raise Refusal(1, f"usage: word {words['query'][1]}")
    world = read_world(words)
    form, legs = take('certificate', words['certificate'], lambda text: read_certificate(text, world.road_map.links))
    if query['profile'] != profile_name(words['profile'][0]).encode():
        raise Refusal(2, 'profile unknown')
    ride = Ride(world, global_values_of(world.sections, query['profile:']), query.get('nogos', []))
    return f"yes\ncost {mil6(judge(ride, ride.nearest(query['lonlats']), form, legs))}\n"


def main(words):
    """Prints the answer, or a refusal's line on standard error; gives the exit status."""
    try:
        sys.stdout.write(answer(words))
        sys.stdout.flush()
        return 0
    except (Refusal, MemoryError, OSError) as fault:
        refusal = fault if isinstance(fault, Refusal) else Refusal(10, 'out of memory')
        if isinstance(fault, OSError):
            # what the output didn't take isn't offered again at the end
            sys.stdout, refusal = None, Refusal(9, 'write fault')
        print(refusal.line, file=sys.stderr)
        return refusal.status
