"""Tries of what lies within a cost: what is shown is what the server answers, for one waypoint and for several side by side."""
import json
import urllib.parse

from selenium.webdriver.common.action_chains import ActionChains
from selenium.webdriver.common.keys import Keys
from selenium.webdriver.support.ui import Select

from page_parts.front import answer
from page_parts.large import settle
from page_parts.telling import told
from page_parts.town import RIDE

ONE = 'lonlats=8.5156,49.1114&profile=trekking'
ASKED = "return performance.getEntriesByType('resource').filter((each) => each.name.includes('/brouter/within')).length"
# The colour of the map's canvas of nodes at a place of the window; null where it has none.
COLOUR = """const [x, y] = arguments;
for (const canvas of document.querySelectorAll('.within canvas')) {
  const box = canvas.getBoundingClientRect();
  if (x < box.left || y < box.top || x >= box.right || y >= box.bottom) continue;
  const scale = canvas.width / box.width;
  const copy = Object.assign(document.createElement('canvas'), { width: 1, height: 1 }).getContext('2d', { willReadFrequently: true });
  copy.drawImage(canvas, -Math.floor((x - box.left) * scale), -Math.floor((y - box.top) * scale));
  const [red, green, blue, full] = copy.getImageData(0, 0, 1, 1).data;
  return full === 255 ? `rgb(${red}, ${green}, ${blue})` : null;
}
return null;"""


def lists(query):
    """What the server answers: for each waypoint its nodes with what they cost and where they lie."""
    features = json.loads(answer(f'/brouter/within?{urllib.parse.quote(query, safe="=&|,.:")}'))['features']
    return [{node: (cost, place) for node, cost, place in zip(each['properties']['nodes'], each['properties']['costs'],
                                                              each['geometry']['coordinates'])} for each in features]


def owners(found):
    """For each node the waypoint from which it costs least, the first of equals."""
    return {node: min((float(each[node][0]), number) for number, each in enumerate(found) if node in each)[1]
            for node in set().union(*found)}


def rows(found):
    """The rows of the key by waypoint."""
    of, result = owners(found), []
    for number, each in enumerate(found):
        others = set().union(*(other for place, other in enumerate(found) if place != number))
        result.append([str(number + 1), str(len(each)), str(len(set(each) - others)), str(len(set(each) & others)),
                       str(sum(1 for owner in of.values() if owner == number))])
    return result


def key(page):
    return page.run("return [...document.querySelectorAll('#within-key tbody tr')].map((row) => [...row.children].map((cell) => cell.textContent))")


def shows(page, query):
    """Whether the page comes to show what the server answers."""
    wanted = rows(lists(query))
    return page.until(lambda: key(page) == wanted)


def set_cost(page, cost):
    page.run("const field = document.getElementById('within-cost'); field.value = arguments[0]; field.dispatchEvent(new Event('change'));", cost)


def spot(page, place):
    return page.spot_of(*place[:2])


def colours_of(page, row):
    return page.run("return [...document.querySelectorAll('#within-key tbody tr')[arguments[0]].querySelectorAll('.shade')]"
                    '.map((each) => getComputedStyle(each).backgroundColor)', row)


def try_two(page):
    """Two waypoints side by side have the nodes that the server answers, each in the colour of the one from which it costs least."""
    page.open(RIDE)
    page.shows('799.132265')
    page.by('ask-within').click()
    query = RIDE + '&cost=1000'
    found = lists(query)
    told('two waypoints have the server\'s nodes, alone and in common', shows(page, query), (key(page), rows(found)))
    told('their number is told, and the address has the cost', page.told('within-told').startswith(f'{len(owners(found))} nodes within')
         and page.address().endswith('&cost=1000'), (page.told('within-told'), page.address()))
    page.run("const { map, within } = document.getElementById('map').rideMap; map.fitBounds(within.nearby.corners, { animate: false })")
    settle(page)
    shades = [colours_of(page, row) for row in (0, 1)]
    wrong, seen = [], 0
    for node, owner in owners(found).items():
        cost, place = found[owner][node]
        colour = page.run(COLOUR, *spot(page, place))
        seen += colour is not None
        if colour is not None and colour != shades[owner][0 if float(cost) <= 333 else 1 if float(cost) <= 667 else 2]:
            wrong.append((node, owner, cost, colour))
    told('each node has its colour', not wrong and seen > 50 and len({*shades[0], *shades[1]}) == 6, (wrong[:3], seen, shades))
    page.run('document.getElementById("within-title").scrollIntoView()')
    return found


def try_pointing(page, found):
    """Pointing at a node tells what it costs from each waypoint, by the mouse and by the keyboard."""
    node = next(each for each in found[1] if each in found[0] and page.run(COLOUR, *spot(page, found[1][each][1])))
    x, y = spot(page, found[0][node][1])
    box = page.by('map').rect
    ActionChains(page.driver).move_to_element_with_offset(page.by('map'), round(x - box['width'] / 2), round(y - box['height'] / 2)).perform()
    wanted = [f'from {number + 1}: {each[node][0]}' for number, each in enumerate(found)]
    told('pointing at a node tells its costs', page.until(lambda: [each.text for each in page.all('.cost-note div div')] == wanted)
         and page.told('within-spot') == f'Node {node}: {"; ".join(wanted)}.', page.told('within-spot'))
    page.picture('16-within')
    ActionChains(page.driver).move_to_element(page.by('within-told')).perform()
    told('and pointing elsewhere none', page.until(lambda: not page.all('.cost-note')) and 'Point at' in page.told('within-spot'))
    alone = next(each for each in found[0] if each not in found[1])
    page.run("document.getElementById('map').rideMap.map.setView([arguments[1], arguments[0]], 17, { animate: false })", *found[0][alone][1][:2])
    page.run("document.getElementById('profile').focus()")
    ActionChains(page.driver).key_down(Keys.SHIFT).send_keys(Keys.TAB).key_up(Keys.SHIFT).perform()
    page.run("document.activeElement.blur(); document.getElementById('map').focus({ focusVisible: true })")
    page.run("document.getElementById('map').rideMap.map.panBy([1, 0], { animate: false })")
    told('the keyboard\'s cross tells them too', page.tells(f'Node {alone}: from 1: {found[0][alone][0]}; from 2: not within 1000.', 'within-spot'),
         page.told('within-spot'))


def try_changes(page):
    """A change of the cost, of a waypoint, of circles and of the profile asks anew, one of the alternative doesn't."""
    page.open(RIDE + '&cost=1000')
    told('a shared address shows it', shows(page, RIDE + '&cost=1000'))
    bounds = page.run('const box = document.getElementById("map").rideMap.map.getBounds(); return [box.getWest(), box.getSouth(), box.getEast(),'
                      ' box.getNorth()]')
    places = [place for each in lists(RIDE + '&cost=1000') for _, place in each.values()]
    told('and all of it is in view', all(bounds[0] < lon < bounds[2] and bounds[1] < lat < bounds[3] for lon, lat, *_ in places), bounds)
    set_cost(page, '250.5')
    told('another cost is asked for', shows(page, RIDE + '&cost=250.5') and page.address().endswith('&cost=250.5'), key(page))
    page.driver.back()
    told('and the browser\'s button goes back', shows(page, RIDE + '&cost=1000'), key(page))
    count = page.run(ASKED)
    page.by('within-cost').clear()
    page.by('within-cost').send_keys('400', Keys.ENTER)
    told('Enter in its field asks, once', shows(page, RIDE + '&cost=400') and page.run(ASKED) <= count + 1, (page.run(ASKED), count))
    count = page.run(ASKED)
    Select(page.by('alternative')).select_by_visible_text('1')
    page.shows('819.891400')
    told('an alternative asks for nothing new', page.run(ASKED) == count and len(key(page)) == 2, page.run(ASKED))
    Select(page.by('alternative')).select_by_visible_text('0')
    page.run('document.getElementById("turn-round").click()')
    turned = 'lonlats=8.5198,49.115|8.5156,49.1114&profile=trekking&cost=400'
    told('other waypoints are asked for', shows(page, turned), key(page))
    Select(page.by('profile')).select_by_visible_text('road')
    told('another profile too', shows(page, turned.replace('trekking', 'road')), key(page))
    page.open(RIDE + '&nogos=8.5177,49.1132,60&cost=1000')
    told('and circles', shows(page, RIDE + '&nogos=8.5177,49.1132,60&cost=1000'), key(page))
    page.by('hide-within').click()
    told('what is hidden leaves map, panel and address', page.until(lambda: 'cost=' not in page.address() and not key(page)
         and not page.all('.within canvas')), page.address())


def try_one(page):
    """One waypoint is shaded by steps of the cost; of waypoints at one place the first has all."""
    page.open(ONE + '&cost=1000')
    found = lists(RIDE + '&cost=1000')[0]
    counts = [sum(1 for cost, _ in found.values() if 200 * step < float(cost) <= 200 * (step + 1) or (step, float(cost)) == (0, 0))
              for step in range(5)]
    wanted = [[f'up to {200 * (step + 1)}', str(count)] for step, count in enumerate(counts)]
    told('one waypoint has the server\'s nodes by steps', page.until(lambda: key(page) == wanted), (key(page), wanted))
    page.run('document.getElementById("within-title").scrollIntoView()')
    page.picture('17-within-one')
    page.open('lonlats=8.5156,49.1114|8.5156,49.1114|8.5198,49.115&profile=trekking&cost=0')
    told('of waypoints at one place the first has all, at no cost too', page.until(lambda: key(page) == [
        ['1', '1', '0', '1', '1'], ['2', '1', '0', '1', '0'], ['3', '1', '1', '0', '1']]), key(page))
    query = 'lonlats=' + '|'.join(f'{8.5056 + 0.001 * number:.4f},49.1114' for number in range(10)) + '&profile=trekking&cost=3000'
    page.open(query)
    told('ten waypoints stand side by side, and their colours come again', shows(page, query) and 'From waypoint 6 on' in page.told('within-shades')
         and colours_of(page, 0) == colours_of(page, 5) != colours_of(page, 1), page.told('within-shades'))
    lines = page.run("""const { map, within } = document.getElementById('map').rideMap; const [lon, lat] = within.nearby.places[0];
        within.point(map.latLngToContainerPoint([lat, lon]), 12); return [...document.querySelectorAll('.cost-note div div')].map((each) => each.textContent);""")
    told('of many waypoints the cheapest is told first', len(lines) <= 8 and lines[0].startswith('from ') and lines[-1].startswith('and from '), lines)


def try_refused(page):
    """A refusal is told in a sentence at its place, and the next click works."""
    page.open('lonlats=8.9,49.9&profile=trekking&cost=1000')
    told('a waypoint far from roads is told', page.tells('Waypoint 1: no node of a road', 'within-told') and page.is_bad('within-told'),
         page.told('within-told'))
    page.open(RIDE)
    page.shows('799.132265')
    for cost in ('-1', '', '1e12'):
        page.run("document.getElementById('within-cost').value = arguments[0]; document.getElementById('ask-within').click()", cost)
        told(f'a cost of {cost!r} is told', page.tells('A cost is a number from 0', 'within-told') and 'cost=' not in page.address(),
             page.told('within-told'))
    page.run("document.getElementById('within-cost').value = '300'; document.getElementById('ask-within').click()")
    told('and the next click works', shows(page, RIDE + '&cost=300'), page.told('within-told'))
    page.by('clear').click()
    told('without a waypoint one is asked for', page.tells('Set a waypoint', 'within-told') and not key(page), page.told('within-told'))


def try_town(page):
    found = try_two(page)
    try_pointing(page, found)
    try_changes(page)
    try_one(page)
    try_refused(page)
