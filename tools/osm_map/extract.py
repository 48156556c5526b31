"""Reads an extract of OpenStreetMap, which the program `osmium` prints line by line in its format OPL: first roads and relations, then
nodes, of which those of roads are kept. So osmium itself need not keep a bit for each id there is, which takes 1.6 GB."""
import json
import mmap
import re
import shutil
import subprocess
import tempfile
from array import array
from bisect import bisect_left
from itertools import groupby

from .coordinates import of_seven_decimals
from .draft import ROUTES
from .encoding import json_bytes
from .faults import Refused

WANTED = ('w/highway', 'w/route=ferry', 'r/route=' + ','.join(ROUTES), 'r/type=restriction')
PRINTED = ('-f', 'opl,add_metadata=none', '-o', '-', '--no-progress')
KINDS = {'n': 'node', 'w': 'way', 'r': 'relation'}
# The first bytes of a file tell its format, whatever its name is.
FORMATS = ((b'BZh', 'osm.bz2'), (b'\x1f\x8b', 'osm.gz'), (b'\xff\xe0\x04o5m2', 'o5m'), (b'<', 'osm'))
ESCAPE = re.compile('%([0-9a-fA-F]+)%')
REMARK = re.compile(rb'<remark>(.*?)</remark>', re.DOTALL)
DATE = re.compile(rb'<(?:meta[^>]*\sosm_base|osm[^>]*\stimestamp)="([^"]*)"')
HEAD = 4096


def format_of(head):
    """The format that the first bytes of a file tell, or None."""
    if head[4:].startswith(b'\x0a\x09OSMHeader'):
        return 'pbf'
    text = head.removeprefix(b'\xef\xbb\xbf').lstrip()
    return next((name for start, name in FORMATS if text.startswith(start)), None)


def read_extract(path, head, draft):
    """Reads the roads, ferries, cycle routes and turn restrictions of a file, with all that belongs to them, into a draft."""
    if re.search(rb'<(!doctype\s+)?html', head[:HEAD], re.IGNORECASE):
        raise Refused(f'{path}: this is a page of the web and no map: the service was busy, or the address is wrong; ask again')
    if shutil.which('osmium') is None:
        raise Refused('osmium is missing, which reads extracts. On Debian and Ubuntu `apt install osmium-tool` installs it; see'
                      ' https://osmcode.org/osmium-tool. A JSON text of Overpass is read without it')
    kind = format_of(head)
    options = ['-F', kind] if kind else []
    draft.date = date_of(path, options)
    if kind == 'osm':
        look_at_xml(path, draft)
    nodes = array('q')
    for line in lines_of(['osmium', 'tags-filter', '--omit-referenced', *options, path, *WANTED, *PRINTED], path):
        read_road(line, draft, nodes)
    nodes = array('q', (number for number, _ in groupby(sorted(nodes))))
    for line in wanted_lines(lines_of(['osmium', 'cat', '-t', 'node', *options, path, *PRINTED], path), nodes):
        read_node(line, draft)


def date_of(path, options):
    """The date that a file tells in its head, or else that of its newest element; None where it has neither."""
    head = told_of(path, options).get('header', {}).get('option', {})
    date = head.get('osmosis_replication_timestamp') or head.get('timestamp')
    date = date or told_of(path, ['-e', *options]).get('data', {}).get('timestamp', {}).get('last', '')
    return None if date.startswith('1970') else date or None


def told_of(path, options):
    """What osmium tells of a file; nothing where it can't read it."""
    done = subprocess.run(['osmium', 'fileinfo', '-j', '--no-progress', *options, path], capture_output=True, check=False)
    return json.loads(done.stdout) if done.returncode == 0 else {}


def look_at_xml(path, draft):
    """Takes the date that an XML tells in its head, and refuses an answer in which Overpass says that elements are missing."""
    with open(path, 'rb') as file, mmap.mmap(file.fileno(), 0, access=mmap.ACCESS_READ) as text:
        date = DATE.search(text[:HEAD])
        if date:
            draft.date = date.group(1).decode(errors='replace')
        place = text.rfind(b'<remark>')
        remark = REMARK.match(text, place) if place >= 0 else None
        if remark:
            raise incomplete(path, remark.group(1).decode(errors='replace'))


def incomplete(path, remark):
    return Refused(f'{path}: the answer is incomplete, and a ride on it would rest on a part of the map. Overpass says:'
                   f' {json.dumps(remark.strip(), ensure_ascii=False)}. Ask for a smaller box, or give it more time ([timeout:900])')


def lines_of(command, path):
    """The lines that osmium prints. Where it ends with a fault, so does the work."""
    with tempfile.TemporaryFile() as told:
        with subprocess.Popen(command, stdout=subprocess.PIPE, stderr=told) as osmium:
            try:
                yield from osmium.stdout
            except BaseException:
                osmium.kill()
                raise
        if osmium.returncode:
            told.seek(0)
            lines = told.read().decode(errors='replace').strip().splitlines()
            raise Refused(f'{path}: osmium can\'t read it: {lines[-1] if lines else "it ended"} (status {osmium.returncode})')


def wanted_lines(lines, wanted):
    """The lines of nodes whose ids are among the wanted ones, which ascend. Most lie between two of these, whatever their order."""
    below, above = 0, 0
    for line in lines:
        number = int(line[1:line.index(b' ')])
        if not below < number < above:
            place = bisect_left(wanted, number)
            is_wanted = place < len(wanted) and wanted[place] == number
            below = number if is_wanted else wanted[place - 1] if place else -2 ** 64
            above = wanted[place + is_wanted] if place + is_wanted < len(wanted) else 2 ** 64
            if is_wanted:
                yield line


def read_road(line, draft, nodes):
    """Reads a line of a way or a relation: fields parted by spaces, each with a letter before it. Adds the way's nodes to a list."""
    head, tags, content = line.rstrip(b'\n').split(b' ')
    number, tags = int(head[1:]), tags_of(tags)
    if line.startswith(b'w'):
        along = list(map(int, content[2:].split(b',n'))) if len(content) > 1 else []
        nodes.extend(along)
        draft.add_way(number, along, tags)
    else:
        draft.add_relation(number, members_of(content[1:].decode()), tags)


def read_node(line, draft):
    """Reads a line of a node. One that was deleted has no place."""
    head, tags, longitude, latitude = line.rstrip(b'\n').split(b' ')
    if len(latitude) > 1:
        draft.add_node(int(head[1:]), of_seven_decimals(latitude[1:]), of_seven_decimals(longitude[1:]),
                       json_bytes(tags_of(tags)) if len(tags) > 1 else None)


def plain(text):
    """A text of OPL, where a byte between percent signs is the number of a character."""
    return ESCAPE.sub(lambda found: chr(int(found.group(1), 16)), text) if '%' in text else text


def tags_of(field):
    tags = {}
    for pair in field[1:].decode().split(','):
        key, _, value = pair.partition('=')
        tags.setdefault(plain(key), plain(value))
    return tags


def members_of(text):
    members = []
    for member in text.split(',') if text else ():
        number, _, role = member[1:].partition('@')
        members.append((KINDS[member[0]], int(number), plain(role)))
    return members
