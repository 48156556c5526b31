"""Tries of the page on the town: what is shown is what the server answers, and what a rider does changes it as he means."""
import math
import os
import subprocess

from selenium.webdriver.common.action_chains import ActionChains
from selenium.webdriver.common.keys import Keys
from selenium.webdriver.support.ui import Select

from page_parts.front import TOP, program, reply
from page_parts.telling import told

RIDE = 'lonlats=8.5156,49.1114|8.5198,49.115&profile=trekking'
HILL = 'lonlats=8.5293,49.1112|8.5297,49.1211&profile=careful'
BRIDGES = 'lonlats=8.5181,49.1069|8.506,49.1134|8.5005,49.1117&profile=trekking'

# How many names of roads are laid out, and over how many of them a track goes.
COVERED = """const { names, tracks, map } = document.getElementById('map').rideMap;
const points = tracks.lines().flatMap((line) => line.slice(1).flatMap((to, number) => {
  const [from, end] = [line[number], to].map((each) => map.latLngToContainerPoint(each));
  return Array.from({ length: 100 }, (_, step) => from.add(end.subtract(from).multiplyBy(step / 99)));
}));
return [names.placed.length, names.placed.filter((box) => points.some(({ x, y }) =>
  x > box.left && x < box.right && y > box.top && y < box.bottom)).length];"""


def try_shown(page):
    """A ride of an address is what the server answers."""
    page.open(RIDE)
    wanted = reply(RIDE)
    cost = wanted['properties']['cost']
    told('the cost is the reply\'s to the last digit', page.shows(cost) and cost == '799.132265', page.costs())
    drawn = page.lines('track')
    told('the track drawn is the reply\'s', drawn == [[point[:2] for point in wanted['geometry']['coordinates']]], drawn)
    told('a row for each piece', page.until(lambda: len(page.all('#rows tr.row')) == len(wanted['properties']['messages']) - 1))
    titles = [part.get_attribute('title') for part in page.all('#rows tr.row')[0].find_elements('css selector', '.part')]
    told('its parts are the reply\'s, and what is reckoned is marked', 'Nodes: 100.000000' in titles and titles[0].startswith('Distance: \u2248'),
         titles)
    told('the heights are drawn', len(page.all('#heights svg polyline')) == 1)
    told('a line leads from each waypoint to its node', len(page.lines('tie')) == 2 and page.lines('tie')[1][1] == drawn[0][-1], page.lines('tie'))
    bounds = page.run('const box = document.getElementById("map").rideMap.map.getBounds(); return [box.getWest(), box.getEast()]')
    told('a shared address shows the ride, not the whole map', 8.51 < bounds[0] < 8.5156 and 8.5198 < bounds[1] < 8.526, bounds)
    told('it is told that the town is made up', 'made-up' in page.all('.leaflet-control-attribution')[0].text)
    page.picture('01-track')


def try_hover(page):
    """Map, heights and rows point at one place."""
    row = page.all('#rows tr.row')[1]
    page.run('arguments[0].scrollIntoView({block: "center"})', row)
    ActionChains(page.driver).move_to_element(row).perform()
    told('a row shows its end on the map and in the heights', page.until(lambda: len(page.all('path.spot')) == 1)
         and page.all('#heights line.cursor')[0].get_attribute('visibility') == 'visible' and 'here' in row.get_attribute('class'))
    page.all('#heights svg')[0].send_keys(Keys.ARROW_RIGHT)
    told('keys go along the heights', page.until(lambda: len(page.all('#rows tr.here')) == 1))


def try_groups(page):
    """Rows are grouped by street, and fold."""
    query = BRIDGES
    page.open(query)
    rows = len(reply(query)['properties']['messages']) - 1
    page.until(lambda: 'Main Bridge' in page.told('rows'))
    titles = [each.text for each in page.all('#rows tr.group button')]
    told('rows stand by streets', 'Main Bridge' in titles and len(titles) < rows and len(set(titles)) > 3, titles)
    lengths = [float(each.text) for each in page.all('#rows tr.group td:first-child')]
    wanted = float(reply(query)['properties']['track-length'])
    told('their lengths add up to the track\'s', abs(sum(lengths) - wanted) <= len(lengths), (lengths, wanted))
    if page.all('#rows tr.group button')[0].get_attribute('aria-expanded') == 'true':
        page.all('#rows tr.group button')[0].click()
    folded = len(page.all('#rows tr.row'))
    page.all('#rows tr.group button')[0].click()
    told('a group folds and opens', len(page.all('#rows tr.row')) > folded)
    page.until(lambda: page.run(COVERED)[0] > 0)
    names, over = page.run(COVERED)
    told('names are laid out, and none over the track', names > 0 and over == 0, (names, over))


def grip_spot(page):
    """Where the middle point of the first track lies in the window."""
    points = page.lines('track')[0]
    return page.spot_of(*points[len(points) // 2])


def try_marks(page):
    """Waypoints and circles are set, dragged, put between and removed."""
    page.open()
    page.until(lambda: page.run('return document.getElementById("map").rideMap.names'))
    page.click_map(-150, 100)
    page.click_map(150, -100)
    told('two clicks are two waypoints', page.until(lambda: len(page.all('.waypoint')) == 2) and page.address().count('|') == 1, page.address())
    told('and the server is asked', page.until(lambda: page.all('path.track') or page.is_bad()))
    before = page.address()
    page.drag(page.all('.waypoint')[1], 60, 40)
    told('a waypoint is dragged', page.address() != before and len(page.all('.waypoint')) == 2, page.address())
    page.driver.back()
    told('the browser\'s button goes back', page.until(lambda: page.address() == before), page.address())
    zoom = page.run('return document.getElementById("map").rideMap.map.getZoom()')
    ActionChains(page.driver).move_to_element_with_offset(page.by('map'), 100, 200).double_click().perform()
    told('a double click zooms', page.until(lambda: page.run('return document.getElementById("map").rideMap.map.getZoom()') == zoom + 1))
    told('and sets no waypoint', page.address() == before, page.address())
    try_drawn_out(page)
    page.by('add-circle').click()
    told('a circle is set', page.until(lambda: 'nogos=' in page.address() and len(page.all('path.circle')) == 1), page.address())
    page.drag(page.all('.circle-edge')[0], 40, 0)
    told('its radius is dragged', page.until(lambda: ',50&' not in page.address() + '&'), page.address())
    told('and asked with', page.until(lambda: page.is_bad() or page.shows(reply(page.address())['properties']['cost'])), page.told())
    page.picture('02-circle')


def try_drawn_out(page):
    """A waypoint is drawn out of the track by the mouse, and removed."""
    page.open(RIDE)
    page.shows('799.132265')
    x, y = grip_spot(page)
    box = page.by('map').rect
    ActionChains(page.driver).move_to_element_with_offset(page.by('map'), round(x - box['width'] / 2), round(y - box['height'] / 2)) \
        .click_and_hold().move_by_offset(-40, 10).pause(0.1).move_by_offset(1, 1).release().perform()
    told('a waypoint is drawn out of the track', page.until(lambda: page.address().split('&')[0].count('|') == 2), page.address())
    page.all('#waypoints li:nth-child(2) button:last-child')[0].click()
    told('and removed', page.until(lambda: page.address().split('&')[0].count('|') == 1), page.address())


def try_keys(page):
    """The keyboard alone sets waypoints at the map's middle, where a cross shows it."""
    page.open()
    page.until(lambda: page.run('return document.getElementById("map").rideMap.names'))
    ActionChains(page.driver).send_keys(Keys.TAB).perform()
    shown = page.run('return [document.activeElement.id, getComputedStyle(document.getElementById("cross")).visibility]')
    told('the map has the focus first, and shows its middle by a cross', shown == ['map', 'visible'], shown)
    page.picture('03-cross')
    ActionChains(page.driver).send_keys(Keys.ENTER, Keys.ARROW_RIGHT).pause(0.6).send_keys(Keys.ENTER).perform()
    told('Enter sets waypoints there', page.until(lambda: len(page.all('.waypoint')) == 2), page.address())


def try_choices(page):
    """Alternatives, two profiles beside each other, and variables."""
    page.open(RIDE)
    Select(page.by('alternative')).select_by_visible_text('1')
    told('another alternative, with the earlier one in grey', page.shows('819.891400')
         and page.until(lambda: page.lines('track earlier') == [[point[:2] for point in reply(RIDE)['geometry']['coordinates']]]), page.costs())
    told('of which the rank is proved', 'proved least rank' in page.told('figures'))
    Select(page.by('alternative')).select_by_visible_text('2')
    told('an alternative that repeats another says so', page.tells('is the best ride again', 'repeats'), page.told('repeats'))
    page.picture('04-alternatives')
    page.open(HILL + '&beside=trekking')
    told('two profiles have their costs', page.shows('4029.960701', '2356.077840'), page.costs())
    key = [each.text for each in page.all('#key li')]
    told('and a colour key', key == ['careful', 'trekking'], key)
    first, second = page.lines('track')[0], page.lines('track beside')[0]
    spots = [page.spot_of(*each[-1]) for each in (first, second)]
    told('where they end on one road, they are drawn apart', 6 < math.dist(*spots) < 20, spots)
    page.picture('05-two-profiles')


def try_variables(page):
    """The variables of a profile are fields of their kinds."""
    page.open(HILL)
    page.shows('4029.960701')
    told('numbers of a profile are fields', page.until(lambda: page.all('#variables input[name=uphillcutoff][type=number]')))
    told('yes and no are boxes', len(page.all('#variables input[name=by_night][type=checkbox]')) == 1)
    told('with the author\'s text', 'how much climbing counts' in page.told('variables'))
    choices = Select(page.all('#variables select[name=fear_of_hills]')[0])
    told('and his choices', [each.text for each in choices.options][:3] == ['not', 'as usual', 'twice'], [each.text for each in choices.options])
    choices.select_by_visible_text('not')
    told('a value for one changes the track', page.shows('2612.630020') and 'profile:fear_of_hills=0' in page.address(), page.costs())
    shared = page.address()
    page.open(shared)
    told('a shared address opens the same ride', page.shows('2612.630020') and page.address() == shared, page.costs())


def try_refusals(page):
    """A refusal is told in words, at its waypoint, and the next click works."""
    page.open('lonlats=8.5156,49.1114|8.9,49.9&profile=trekking')
    told('a waypoint far from roads', page.tells('Waypoint 2: no node of a road')
         and len(page.all('.waypoint.at-fault')) == 1 and len(page.all('#waypoints li.at-fault')) == 1, page.told())
    page.picture('06-refusal')
    page.all('#waypoints li:nth-child(2) button:last-child')[0].click()
    told('and the next click works', page.tells('One place more'), page.told())
    page.open(RIDE.replace('trekking', 'custom_1'))
    told('a name that another server gave isn\'t taken from a link', page.tells('only its writer', 'link-told') and page.shows('799.132265'),
         page.told('link-told'))


def try_table(page):
    """The table is the server's, and the round is the cheapest of all orders."""
    page.open(BRIDGES)
    page.shows(reply(BRIDGES)['properties']['cost'])
    page.by('ask-table').click()
    told('the table is the server\'s', page.until(lambda: [each.text for each in page.all('#costs td')] == [
        '0.000000', '2302.436645', '2623.229315', '2302.436645', '0.000000', '748.322370', '2623.229315', '748.322370', '0.000000']),
         page.told('costs'))
    told('and the cheapest round is told', page.tells('cost 5673.988330', 'table-told'), page.told('table-told'))
    page.run('document.getElementById("table-title").scrollIntoView()')
    page.picture('07-table')
    page.by('ride-round').click()
    told('it is ridden by a click', page.until(lambda: page.address().split('&')[0].count('|') == 3) and page.shows('5673.988330'), page.costs())
    told('and a table of another ride is gone', page.told('costs') == '')
    many = '|'.join(f'{8.5056 + 0.001 * number:.4f},49.1114' for number in range(10))
    page.open(f'lonlats={many}&profile=trekking')
    page.until(lambda: len(page.costs()) == 1)
    page.by('ask-table').click()
    told('of more than nine waypoints no round is told', page.tells('at most 9 waypoints', 'table-told') and len(page.all('#costs td')) == 100
         and not page.by('ride-round').is_displayed(), page.told('table-told'))


def try_rounds(page):
    """The cheapest round of made tables, against all orders one by one."""
    found = page.driver.execute_async_script("""const done = arguments[0];
    import('/round.js').then(({ cheapestRound }) => {
      let seed = 7;
      const draw = () => (seed = (seed * 48271) % 2147483647) % 900 + 1;
      const orders = (rest) => (rest.length ? rest.flatMap((each) => (
        orders(rest.filter((other) => other !== each)).map((way) => [each, ...way]))) : [[]]);
      const wrong = [];
      for (let count = 2; count <= 7; count++) for (let turn = 0; turn < 12; turn++) {
        const table = Array.from({ length: count }, (_, from) => Array.from({ length: count }, (_, to) => (
          from === to ? '0.000000' : draw() % 7 ? `${draw()}.000001` : null)));
        const sums = orders([...Array(count - 1).keys()].map((each) => each + 1)).map((way) => {
          const steps = [0, ...way].map((each, at) => table[each][[...way, 0][at]]);
          return steps.includes(null) ? Infinity : steps.reduce((sum, each) => sum + Math.round(Number(each) * 1e6), 0);
        });
        const least = Math.min(...sums);
        const round = cheapestRound(table);
        if ((round ? Math.round(Number(round.cost) * 1e6) : Infinity) !== least) wrong.push([table, round, least]);
      }
      done(wrong);
    }).catch((error) => done([String(error)]));""")
    told('the cheapest round is that of all orders, on 72 made tables', found == [], found[:1])


def try_proof(page):
    """What is proved is told beside the cost, with the commands."""
    page.open(RIDE)
    page.shows('799.132265')
    page.all('#figures button.claim')[0].click()
    words = page.by('proof-words').text
    told('the proof is told in three sentences', words.count('. ') == 2 and words.endswith('.') and 'No permitted ride' in words, words)
    lines = page.by('certificate').get_attribute('value').splitlines()
    told('with the commands that certify and check', lines[0].startswith('route_serve certify ') and lines[2].startswith('route_serve check ')
         and lines[5].startswith('tools/check_certificate ') and lines[-1].strip() == 'certificate=ride.certificate', lines)
    page.picture('08-proved')


def try_taking(page, room):
    """The files that the page makes."""
    page.open(RIDE)
    page.shows('799.132265')
    page.all('#taking summary')[0].click()
    page.by('save-gpx').click()
    path = f'{room}/track.gpx'
    page.until(lambda: os.path.exists(path))
    with open(path, encoding='utf-8') as file:
        text = file.read()
    told('a GPX file with the points and their heights', text.count('<trkpt ') == text.count('<ele>') == 4, text[:200])
    page.all('#figures button.claim')[0].click()
    page.by('save-certificate').click()
    path = f'{room}/ride.certificate'
    page.until(lambda: os.path.exists(path))
    with open(path, encoding='utf-8') as file:
        lines = file.read().splitlines()
    told('a certificate of the best ride', lines[:3] == ['certificate 2', 'leg 274/0/f 274/1/f 274/2/f', 'cost 799132265'] and lines[-1] == 'end', lines[:3])
    checks = '\n'.join(page.by('certificate').get_attribute('value').splitlines()[2:])
    checks = checks.replace('route_serve', program(), 1).replace('tools/', f'{TOP}/tools/').replace('=ride.certificate', f'={path}')
    found = subprocess.run(['sh', '-c', checks], cwd=f'{room}/files', stdout=subprocess.PIPE, check=False).stdout.decode()
    told('to which both checks say yes', found == 2 * 'yes\ncost 799.132265\n', found)
    told('the same on the command line', "query=lonlats=8.5156,49.1114|8.5198,49.115&profile=trekking'" in page.by('command').get_attribute('value'))


def tries(page, front):
    for one in (try_shown, try_hover, try_groups, try_marks, try_keys, try_choices, try_variables, try_refusals, try_table, try_rounds, try_proof):
        one(page)
    try_taking(page, front.room)
