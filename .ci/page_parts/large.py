"""Tries of the page on a made map of a hundred thousand links (SIDE=580 makes a million), whose roads come from tiles: how soon a ride is shown, how long the page
holds still while it is zoomed and moved, and how much it keeps. Times are reckoned without those in which the page waited for a processor,
since other programs may keep all of them busy."""
import json
import os
import shutil
import subprocess
import sys
import time

from page_parts.front import FRONT, TOP, answer, program, reply
from page_parts.telling import told

LONG = 'lonlats=0.0501,0.0502|0.1503,0.1404&profile=trekking'
SHORT = 'lonlats=0.0901,0.0902|0.0943,0.0954&profile=trekking'
SIDE = os.environ.get('SIDE', '185')

# Counts the longest while in which the page didn't come to draw, and the longest task.
WATCH = """window.longest = 0; new PerformanceObserver((list) => { for (const each of list.getEntries()) {
  window.longest = Math.max(window.longest, each.duration); } }).observe({ entryTypes: ['longtask'] });"""
DRAWN = """const map = document.getElementById('map').rideMap; return [map.map.getZoom(), [...document.querySelectorAll('canvas.leaflet-tile')]
  .filter((each) => each.toDataURL() !== Object.assign(document.createElement('canvas'), { width: each.width, height: each.height }).toDataURL())
  .length];"""


def make(front):
    """The map, its heights and its tiles."""
    for what, name in (('map', 'large.json'), ('hgt', 'N00E000.hgt')):
        with open(f'{front.files}/{name}', 'wb') as file:
            subprocess.run([program(), 'make', 'seed=1', f'w={SIDE}', f'h={SIDE}', f'what={what}'], stdout=file, check=True)
    tool = os.path.join(TOP, 'tools', 'osm2map')
    if os.path.exists(tool):
        subprocess.run([tool, f'{front.files}/large.json', f'{front.files}/other.json', f'tiles={front.files}/roads'], check=True,
                       stdout=subprocess.DEVNULL)
    else:
        subprocess.run([sys.executable, os.path.join(os.path.dirname(__file__), 'road_tiles.py'), f'{front.files}/large.json',
                        f'{front.files}/roads'], check=True)


def watch(page):
    page.driver.execute_cdp_cmd('Page.addScriptToEvaluateOnNewDocument', {'source': WATCH})


def settle(page):
    """Waits until no tile is awaited and names are laid out."""
    page.until(lambda: page.run('return !document.querySelector("canvas.leaflet-tile:not(.leaflet-tile-loaded)")'))
    time.sleep(0.5)


def try_first(page):
    """The first ride is shown soon."""
    page.driver.get('about:blank')
    before = page.threads()
    page.driver.get(f'{FRONT}/#{SHORT}')
    page.until(lambda: page.costs())
    shown = page.share(before) * page.run(
        "return performance.getEntriesByType('resource').find((each) => each.name.includes('/brouter?')).responseEnd")
    told('the first ride is the server\'s', page.shows(reply(SHORT)['properties']['cost']), page.costs())
    told(f'and its answer is there {shown:.0f} ms after the opening', shown < 2000, shown)
    settle(page)
    told('roads are drawn from tiles', page.run(DRAWN)[1] > 4, page.run(DRAWN))
    fetched = page.run("return performance.getEntriesByType('resource').filter((each) => each.name.includes('/roads/')).length")
    told('of which only those in view are fetched', 2 <= fetched <= 24, fetched)
    told('OpenStreetMap\'s contributors are named', '\u00a9 OpenStreetMap contributors' in page.told('map'))
    page.picture('14-tiles')


def try_step(page, step):
    """The longest task that a step leads to."""
    before = page.threads()
    page.run(f'window.longest = 0; document.getElementById("map").rideMap.map.{step}')
    settle(page)
    return page.run('return window.longest') * page.share(before)


def try_moves(page):
    """Zooming and moving never hold the page still for long."""
    page.open(LONG)
    page.until(lambda: page.costs())
    settle(page)
    longest = max(try_step(page, step) for step in (
        'zoomIn()', 'panBy([300, 200])', 'zoomIn()', 'panBy([-300, 100])', 'zoomIn()', 'zoomOut()', 'zoomOut()', 'zoomOut()', 'zoomOut()',
        'zoomOut()', 'zoomOut()', 'zoomIn()', 'zoomIn()', 'zoomIn()'))
    told(f'zooming and moving: the longest task takes {longest:.0f} ms', longest < 100, longest)
    page.run('if (window.gc) window.gc()')
    heap = page.run('return performance.memory.usedJSHeapSize') / 1e6
    told(f'the heap holds {heap:.0f} MB', heap < 150, heap)


def try_long(page):
    """A long ride's rows stand in groups, and are made when a group is opened."""
    wanted = reply(LONG)
    rows = len(wanted['properties']['messages']) - 1
    told('a long ride is the server\'s', page.shows(wanted['properties']['cost']), page.costs())
    groups = len(page.all('#rows tr.group'))
    told('its rows stand in groups, folded', rows > 100 and 0 < groups < rows and not page.all('#rows tr.row'), (rows, groups))
    page.picture('15-long')
    left = groups
    while page.all('#rows tfoot button'):
        page.all('#rows tfoot button')[0].click()
        left = len(page.all('#rows tr.group'))
    lengths = page.run("return [...document.querySelectorAll('#rows tr.group td:first-child')].map((each) => Number(each.textContent))")
    told('and add up to its length', abs(sum(lengths) - float(wanted['properties']['track-length'])) <= left, (sum(lengths), left))


def try_within(page):
    """What lies within a cost of two places on this map is drawn without holding the page still."""
    page.run('window.longest = 0')
    before = page.threads()
    page.run("document.getElementById('within-cost').value = '60000'; document.getElementById('ask-within').click()")
    query = LONG.split('&', 1)[0]
    wanted = [len(each['properties']['nodes']) for each in json.loads(answer(f'/brouter/within?{query}&profile=trekking&cost=60000'))['features']]
    told(f'{max(wanted)} nodes within a cost are the server\'s', page.until(lambda: page.run(
        "return [...document.querySelectorAll('#within-key td:nth-child(2)')].map((each) => Number(each.textContent))") == wanted), wanted)
    settle(page)
    longest = page.run('return window.longest') * page.share(before)
    told(f'reading and drawing them: the longest task takes {longest:.0f} ms', longest < 100, longest)
    page.run("const { map, within } = document.getElementById('map').rideMap; map.fitBounds(within.nearby.corners, { animate: false })")
    settle(page)
    page.picture('21-within-large')
    longest = max(try_step(page, step) for step in ('zoomOut()', 'zoomOut()', 'panBy([200, 100])', 'zoomIn()', 'zoomIn()', 'zoomIn()', 'zoomIn()'))
    told(f'zooming and moving over them: the longest task takes {longest:.0f} ms', longest < 100, longest)
    page.by('hide-within').click()


def try_far(page):
    """From so far out that no tile is drawn, a box shows where the map is."""
    page.run('document.getElementById("map").rideMap.map.setZoom(6, { animate: false })')
    settle(page)
    told('from far out the box of the roads is drawn', len(page.all('path.box')) == 1 and page.run(DRAWN)[1] == 0, page.run(DRAWN))


def try_missing(page, front):
    """Tiles that are missing are told, and the ride is shown."""
    shutil.rmtree(f'{front.files}/roads/14')
    page.driver.execute_cdp_cmd('Network.clearBrowserCache', {})
    page.open(SHORT)
    told('missing tiles are told, and the ride is shown', page.tells('Some roads are missing: status 404', 'map-told')
         and page.until(lambda: page.costs()), page.told('map-told'))


def try_text(page, front):
    """Without tiles the map's text is drawn by a worker, and the page stays at hand."""
    front.settings(map='files/large.json')
    before = page.threads()
    page.open(SHORT)
    page.until(lambda: page.costs())
    told('without tiles the roads come from the map\'s text', page.until(lambda: page.run(DRAWN)[1] > 4), page.told('map-told'))
    settle(page)
    longest = page.run('return window.longest') * page.share(before)
    told(f'and reading it never holds the page still: the longest task takes {longest:.0f} ms', longest < 100, longest)


def tries(page, front):
    make(front)
    front.stop_processes()
    front.start_processes(['lookups=lookups.dat', 'map=large.json', 'tile=N00E000.hgt', 'profile=trekking.brf'])
    front.settings(roads='roads', map='', attribution='', profiles={'trekking': 'files/trekking.brf'})
    watch(page)
    try_first(page)
    try_moves(page)
    try_long(page)
    try_within(page)
    try_far(page)
    try_missing(page, front)
    try_text(page, front)
