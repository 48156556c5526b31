"""Tries of how the page looks: on a phone, by a finger, and in light and dark."""
import time

from page_parts.front import FRONT, reply
from page_parts.large import settle
from page_parts.nearby import colours_of, key, lists, spot
from page_parts.telling import told
from page_parts.town import HILL, RIDE, grip_spot

# For each text its ratio of contrast with what lies behind it (WCAG 2.1, 1.4.3), and how large it is.
CONTRAST = """const parts = (text) => { const made = document.createElement('canvas').getContext('2d', { willReadFrequently: true });
  made.clearRect(0, 0, 1, 1); made.fillStyle = text; made.fillRect(0, 0, 1, 1); return [...made.getImageData(0, 0, 1, 1).data]; };
const light = ([r, g, b]) => { const of = (each) => { const c = each / 255; return c <= 0.04045 ? c / 12.92 : ((c + 0.055) / 1.055) ** 2.4; };
  return 0.2126 * of(r) + 0.7152 * of(g) + 0.0722 * of(b); };
const ratio = (one, other) => { const [low, high] = [light(one), light(other)].sort((a, b) => a - b); return (high + 0.05) / (low + 0.05); };
const behind = (element) => { for (let at = element; at; at = at.parentElement) {
  const back = parts(getComputedStyle(at).backgroundColor); if (back[3] === 255) return back; } return [255, 255, 255, 255]; };
const texts = [...document.querySelectorAll('body *')].filter((each) => each.getClientRects().length
  && [...each.childNodes].some((child) => child.nodeType === 3 && child.data.trim()));
const style = getComputedStyle(document.documentElement);
const named = (name) => parts(style.getPropertyValue(name).trim());
return { texts: texts.map((each) => [each.className || each.id || each.tagName, each.textContent.trim().slice(0, 20),
    ratio(parts(getComputedStyle(each).color), behind(each))]),
  tracks: ['--track', '--beside', '--bad'].map((name) => [name, ratio(named(name), named('--ground'))]),
  names: ratio(named('--ink'), named('--ground')), controls: ratio(named('--control'), named('--back')) };"""

# What is pressed and is too small for a finger.
SMALL = """return [...document.querySelectorAll('button, select, summary, input[type=number], .leaflet-bar a')]
  .filter((each) => each.getClientRects().length).map((each) => [each.textContent.slice(0, 20) || each.id, each.getBoundingClientRect()])
  .filter(([, { width, height }]) => height < 44 || width < 44).map(([name, { width, height }]) => [name, width, height]);"""


def scheme(page, name):
    page.driver.execute_cdp_cmd('Emulation.setEmulatedMedia', {'features': [{'name': 'prefers-color-scheme', 'value': name}]})


def try_contrast(page, name):
    """Texts stand out by 4.5 to 1, tracks and controls by 3 to 1."""
    scheme(page, name)
    page.open(HILL + '&beside=trekking&nogos=8.52,49.11,30')
    page.until(lambda: len(page.costs()) == 2)
    page.run('document.querySelectorAll("details").forEach((each) => { each.open = true; }); document.querySelector("button.claim").click();')
    page.by('ask-table').click()
    page.until(lambda: page.all('#costs td'))
    page.by('ask-within').click()
    page.until(lambda: page.all('#within-key td'))
    found = page.run(CONTRAST)
    weak = [each for each in found['texts'] if each[2] < 4.5]
    told(f'{len(found["texts"])} texts have enough contrast in {name}', len(found['texts']) > 60 and not weak, weak)
    told(f'and tracks, names and controls in {name}', all(each[1] >= 3 for each in found['tracks']) and found['names'] >= 4.5
         and found['controls'] >= 3, found)


def try_phone(page):
    """A narrow screen: the panel is a sheet, and all that is pressed is large enough for a finger."""
    page.driver.execute_cdp_cmd('Emulation.setDeviceMetricsOverride', {'width': 390, 'height': 844, 'deviceScaleFactor': 2, 'mobile': True})
    page.driver.execute_cdp_cmd('Emulation.setTouchEmulationEnabled', {'enabled': True})
    page.open(RIDE)
    page.shows('799.132265')
    told('nothing stands beyond a narrow screen', page.run('return document.documentElement.scrollWidth <= window.innerWidth'))
    small = page.run(SMALL)
    told('buttons are 44 pixels high and wide', small == [], small)
    page.picture('12-phone')
    tall = page.run('return document.getElementById("panel").clientHeight')
    page.by('sheet').click()
    told('the sheet opens', page.until(lambda: page.run('return document.getElementById("panel").clientHeight') > tall + 200))
    page.by('sheet').click()
    told('and makes room for the map', page.until(lambda: page.run('return document.getElementById("panel").clientHeight') < tall - 100))
    page.by('sheet').click()


def try_finger(page):
    """A finger draws a waypoint out of the track, and moves the map beside it."""
    page.open(RIDE)
    page.shows('799.132265')
    time.sleep(1)
    x, y = grip_spot(page)
    page.touch((x, y), (x - 20, y + 10), (x - 50, y + 25), (x - 60, y + 30))
    told('a finger draws a waypoint out of the track', page.until(lambda: page.address().split('&')[0].count('|') == 2), page.address())
    told('and the server is asked for it', page.until(lambda: page.is_bad() or page.shows(reply(page.address())['properties']['cost'])), page.told())
    before = page.run('return document.getElementById("map").rideMap.map.getCenter().lat')
    page.touch((40, 330), (40, 300), (40, 250), (40, 240))
    told('a finger beside it moves the map', page.until(
        lambda: page.run('return document.getElementById("map").rideMap.map.getCenter().lat') != before))
    time.sleep(1)
    count = page.address().split('&')[0].count('|')
    page.touch((40, 200))
    told('a tap sets a waypoint', page.until(lambda: page.address().split('&')[0].count('|') == count + 1), page.address())


def try_tap(page):
    """On a phone a tap on a node tells its costs and sets no waypoint, and one elsewhere sets it."""
    page.open(RIDE + '&cost=1000')
    page.until(lambda: len(key(page)) == 2)
    time.sleep(1)
    found = lists(RIDE + '&cost=1000')
    node = max(found[0], key=lambda each: found[0][each][1][0])
    page.run("document.getElementById('map').rideMap.map.setView([arguments[1], arguments[0]], 17, { animate: false })", *found[0][node][1][:2])
    settle(page)
    x, y = spot(page, found[0][node][1])
    page.touch((x + 5, y + 5))
    time.sleep(0.6)
    told('a tap on a node tells its costs, and sets no waypoint', page.tells(f'Node {node}: from 1: {found[0][node][0]}', 'within-spot')
         and len(page.all('.cost-note')) == 1 and page.address().split('&')[0].count('|') == 1, (page.told('within-spot'), page.address()))
    small = page.run(SMALL)
    told('its buttons and its field are 44 pixels high, and nothing stands beyond the screen',
         small == [] and page.run('return document.documentElement.scrollWidth <= window.innerWidth'), small)
    page.run('document.getElementById("within-title").scrollIntoView()')
    page.picture('19-within-phone')
    page.touch((x + 70, y + 60))
    told('a tap elsewhere sets one', page.until(lambda: page.address().split('&')[0].count('|') == 2), page.address())


def try_scheme(page):
    """What lies within a cost changes its colours with the scheme, at once."""
    page.open(RIDE + '&cost=1000')
    page.until(lambda: len(key(page)) == 2)
    before = colours_of(page, 0)
    scheme(page, 'light')
    told('the colours of nodes go with light and dark', page.until(lambda: colours_of(page, 0) != before) and len(key(page)) == 2, before)
    scheme(page, 'dark')


def tries(page, _):
    try_contrast(page, 'light')
    try_contrast(page, 'dark')
    page.run('document.getElementById("panel").scrollTop = 0')
    page.picture('13-dark')
    page.run('document.getElementById("within-title").scrollIntoView()')
    page.picture('20-within-dark')
    try_scheme(page)
    try_phone(page)
    try_finger(page)
    try_tap(page)
    scheme(page, 'light')
    page.driver.execute_cdp_cmd('Emulation.clearDeviceMetricsOverride', {})
    page.driver.execute_cdp_cmd('Emulation.setTouchEmulationEnabled', {'enabled': False})
    page.driver.set_window_size(1400, 1000)
    page.driver.get(FRONT)
