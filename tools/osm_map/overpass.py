"""Reads an answer of Overpass as JSON, of the form that docs/FORMATS.md gives."""
from decimal import Decimal

from .coordinates import MOST_LATITUDE, MOST_LONGITUDE, of_decimal
from .draft import fits
from .encoding import json_bytes
from .extract import incomplete
from .faults import Refused
from .json_text import JsonText


def read_overpass(path, draft):
    """Reads all elements of a text into a draft. One that says that elements are missing is refused."""
    with open(path, encoding='utf-8-sig', newline='') as file:
        text = JsonText(file)
        found = False
        for name, _ in text.members():
            if name == 'elements' and not found:
                found = True
                if text.next() != '[':
                    raise Refused(f'{path}: its member `elements` is no array')
                for place, element in enumerate(text.items(), 1):
                    read_element(path, place, element, draft)
            else:
                read_member(path, name, text.value(), draft)
        if text.next():
            raise text.broken('something stands behind the text')
    if not found:
        raise Refused(f'{path}: it has no member `elements`, so it is no answer of Overpass to [out:json]')


def read_member(path, name, value, draft):
    """The date of the data, and the remark by which Overpass says that it ran out of time or memory."""
    if name == 'remark' and value:
        raise incomplete(path, str(value))
    if name == 'osm3s' and isinstance(value, dict) and isinstance(value.get('timestamp_osm_base'), str):
        draft.date = draft.date or value['timestamp_osm_base']


def read_element(path, place, element, draft):
    """Hands an element to the draft. Those of other types are read past."""
    kind = element.get('type') if isinstance(element, dict) else None
    if not isinstance(kind, str):
        raise Refused(f'{path}: element {place} has the wrong shape: an object with a text `type` is wanted')
    if kind not in READERS:
        return
    number, tags = element.get('id'), element.get('tags', {})
    if not fits(number):
        raise Refused(f'{path}: element {place}, a {kind}, has no whole `id` of 64 bits')
    if not isinstance(tags, dict) or not all(isinstance(value, str) for value in tags.values()):
        raise Refused(f'{path}: the tags of {kind} {number} are no texts by name')
    why = READERS[kind](number, element, tags, draft)
    if why:
        raise Refused(f'{path}: {kind} {number} {why}')


def read_node(number, element, tags, draft):
    spot = []
    for name, most in (('lat', MOST_LATITUDE), ('lon', MOST_LONGITUDE)):
        value = element.get(name)
        if type(value) not in (int, Decimal):
            return f'has no number `{name}`: ask Overpass for `out body`'
        spot.append(of_decimal(value, most))
        if spot[-1] is None:
            return f'has a bad coordinate: `{name}` is {value}'
    draft.add_node(number, *spot, json_bytes(tags) if tags else None)
    return None


def read_way(number, element, tags, draft):
    nodes = element.get('nodes')
    if not isinstance(nodes, list) or not all(map(fits, nodes)):
        return 'has no array `nodes` of whole ids: ask Overpass for `out body`'
    draft.add_way(number, nodes, tags)
    return None


def read_relation(number, element, tags, draft):
    members = element.get('members')
    if not isinstance(members, list) or not all(map(is_member, members)):
        return 'has no array `members` of objects with `type`, `ref` and `role`: ask Overpass for `out body`'
    draft.add_relation(number, [(member['type'], member['ref'], member['role']) for member in members], tags)
    return None


def is_member(member):
    return (isinstance(member, dict) and isinstance(member.get('type'), str) and fits(member.get('ref'))
            and isinstance(member.get('role'), str))


READERS = {'node': read_node, 'way': read_way, 'relation': read_relation}
