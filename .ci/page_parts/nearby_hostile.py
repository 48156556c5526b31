"""Tries of what lies within a cost against servers that fail: answers that are broken, a server that dies, a search that is called off, and
an answer of a hundred thousand nodes."""
import json

from page_parts import nearby
from page_parts.front import answer
from page_parts.hostile import Hostile, NASTY, Servers
from page_parts.large import settle, try_step, watch
from page_parts.nearby import key, rows, shows
from page_parts.telling import told
from page_parts.town import RIDE


def feature(nodes, costs, places):
    return {'type': 'Feature', 'properties': {'creator': 'x', 'name': 'x', 'cost': '1000.000000', 'nodes': nodes, 'costs': costs},
            'geometry': {'type': 'MultiPoint', 'coordinates': places}}


def bodies(good):
    """Answers that are none, by what is wrong with them, with the words that tell it."""
    fine = feature([1, 2], ['0.000000', '5.000000'], [[8.51, 49.11], [8.52, 49.11]])
    def with_one(**changed):
        parts = {'nodes': [1, 2], 'costs': ['0.000000', '5.000000'], 'places': [[8.51, 49.11], [8.52, 49.11]], **changed}
        return json.dumps({'features': [fine, feature(**parts)]}).encode()
    none = 'holds no list of nodes'
    return {
        'a page': (b'<!doctype html><p>Hello', 'A web page came'), 'nothing': (b'', 'isn\'t JSON'), 'null': (b'null', none),
        'half of one': (good[:len(good) // 2], 'isn\'t whole'), 'without features': (b'{"features":7}', none),
        'one feature of two': (json.dumps({'features': [fine]}).encode(), none), 'features of null': (b'{"features":[null,null]}', none),
        'with fewer costs than nodes': (with_one(costs=['0.000000']), none), 'with fewer places': (with_one(places=[[8.51, 49.11]]), none),
        'with costs that are words': (with_one(costs=['0.000000', 'much']), none), 'with costs as numbers': (with_one(costs=[0, 5]), none),
        'with ids too large': (with_one(nodes=[1, 2 ** 53]), 'can\'t tell apart'), 'with ids as texts': (with_one(nodes=['1', '2']), none), 'with ids that fall': (with_one(nodes=[2, 1]), none),
        'with a place off the earth': (with_one(places=[[8.51, 49.11], [8.52, 490]]), none),
    }


class HostileWithin(Hostile):
    """Answers rides well, and what lies within a cost by the body that is set."""
    body, length, kind, status, isSilent = b'', None, 'application/json', 200, False

    def do_GET(self):
        if not self.path.startswith('/brouter/within'):
            self.fine()
        elif HostileWithin.isSilent:
            self.silent()
        elif HostileWithin.body is None:
            self.closing()
        elif HostileWithin.status != 200:
            self.say(HostileWithin.status, 'text/plain', HostileWithin.body)
        else:
            self.say(200, HostileWithin.kind, HostileWithin.body, HostileWithin.length)


def restart_front(front):
    """The front begins anew to count what a client asks."""
    front.nginx.terminate()
    front.nginx.wait()
    front.start_nginx()


def press(page):
    page.run('document.getElementById("ask-within").click()')


def try_broken(page, front, good):
    """Each broken answer is told, and a whole one after it is shown."""
    wanted = rows([{node: (cost, None) for node, cost in zip(each['properties']['nodes'], each['properties']['costs'])}
                   for each in json.loads(good)['features']])
    cases = {**bodies(good), 'cut': (good[:300], 'broke off'), 'none': (None, 'no route server answers it')}
    for number, (name, (body, words)) in enumerate(cases.items()):
        if number % 12 == 0:
            restart_front(front)
        HostileWithin.body, HostileWithin.length = body, len(good) if name == 'cut' else None
        HostileWithin.kind = 'text/html' if name == 'a page' else 'application/json'
        press(page)
        is_told = page.tells(words, 'within-told') and page.is_bad('within-told') and not key(page)
        found = page.told('within-told')
        HostileWithin.body, HostileWithin.length, HostileWithin.kind = good, None, 'application/json'
        press(page)
        told(f'an answer that is {name} is told, and the next one shown', is_told and page.until(lambda: key(page) == wanted), found)


LINES = [(422, 'label budget spent: leg 1, alternative 0', 'The search from waypoint 2 stopped at its limit.'), (404, 'path unknown', 'doesn\'t offer this'),
         (404, 'profile unknown', 'knows no profile of that name'), (503, 'sessions full', 'The server is busy'), (422, f'odd {NASTY}', f'odd {NASTY}.')]


def try_lines(page, good):
    """Refusals are told in words, and markup in them stays text."""
    for status, line, words in LINES:
        HostileWithin.status, HostileWithin.body = status, f'{line}\n'.encode()
        press(page)
        told(f'{line!r} is told', page.tells(words, 'within-told') and not page.all('#panel img'), page.told('within-told'))
    HostileWithin.status, HostileWithin.body = 200, good
    press(page)
    told('and after them the next answer is shown', page.until(lambda: len(key(page)) == 2), page.told('within-told'))


def try_silent(page, good):
    """A search that goes on is told, called off, and ended by the next one."""
    HostileWithin.body, HostileWithin.isSilent = good, True
    press(page)
    told('what is waited for is told, with the seconds', page.tells('Searching within a cost of 1000 from 2 waypoints by trekking: 2 s', 'within-told'),
         page.told('within-told'))
    page.by('call-off-within').click()
    told('it is called off', page.tells('Called off', 'within-told') and not page.by('call-off-within').is_displayed(), page.told('within-told'))
    press(page)
    page.tells('Searching', 'within-told')
    HostileWithin.isSilent = False
    press(page)
    told('a new question ends the old one', page.until(lambda: len(key(page)) == 2), page.told('within-told'))


def try_ended(page):
    """A job that goes on after its question was ended gives nothing."""
    found = page.driver.execute_async_script("""const done = arguments[0]; import('/asking.js').then(async ({ Asking }) => {
        const asking = new Asking(() => {}); let give;
        const first = asking.ask(() => new Promise((given) => { give = given; })); const second = asking.ask(async () => 2);
        give(1); done([await first, await second]); }).catch((error) => done(String(error)));""")
    told('a question that was ended gives nothing', found == [{'ended': True}, {'value': 2}], found)


def many(count):
    """An answer of two waypoints with so many nodes each, of which half are in common."""
    wide = int(count ** 0.5)
    def of(first):
        numbers = range(first, first + count)
        return feature(list(numbers), [f'{number % 1000}.{number % 7:06}' for number in numbers],
                       [[8.4 + number % wide * 0.0007, 49.0 + number // wide * 0.0004] for number in numbers])
    return json.dumps({'features': [of(0), of(count // 2)]}).encode()


def try_many(page):
    """A hundred thousand nodes leave the page at hand."""
    HostileWithin.body = many(66667)
    watch(page)
    page.driver.get('about:blank')
    before = page.threads()
    page.open(RIDE + '&cost=1000')
    told('100,000 nodes are told', page.tells('100000 nodes', 'within-told') and [each[1:4] for each in key(page)] == 2 * [['66667', '33333', '33334']],
         (page.told('within-told'), key(page)))
    settle(page)
    first = page.run('return window.longest') * page.share(before)
    told(f'reading and drawing them: the longest task takes {first:.0f} ms', first < 100, first)
    longest = max(try_step(page, step) for step in ('zoomOut()', 'zoomOut()', 'zoomOut()', 'panBy([300, 200])', 'zoomIn()', 'zoomIn()',
                                                    'panBy([-300, 100])', 'zoomIn()', 'zoomIn()'))
    told(f'zooming and moving over them: the longest task takes {longest:.0f} ms', longest < 100, longest)
    pointing = page.run("""const map = document.getElementById('map').rideMap; const { nearby } = map.within;
        map.map.fitBounds(nearby.corners, { animate: false }); const begun = performance.now();
        for (let turn = 0; turn < 50; turn++) nearby.nearest(nearby.grid.xs[turn * 1000], nearby.grid.ys[turn * 1000], 1e-6);
        return (performance.now() - begun) / 50;""")
    told(f'pointing at one takes {pointing:.2f} ms', pointing < 5, pointing)
    settle(page)
    page.picture('18-within-many')


def try_hostile(page, front):
    """Against servers that fail, and one that dies."""
    good = answer(f'/brouter/within?{RIDE}&cost=1000').encode()
    Hostile.good = answer(f'/brouter?{RIDE}').encode()
    front.stop_processes()
    restart_front(front)
    with Servers(HostileWithin):
        HostileWithin.body = good
        page.open(RIDE + '&cost=1000')
        page.until(lambda: len(key(page)) == 2)
        try_broken(page, front, good)
        restart_front(front)
        try_lines(page, good)
        try_silent(page, good)
        try_ended(page)
        try_many(page)
    page.open(RIDE + '&cost=1000')
    told('no server behind the front is told', page.tells('no route server answers it', 'within-told') and page.is_bad('within-told'),
         page.told('within-told'))
    front.start_processes()
    press(page)
    told('and when one is there again, the next click is answered', shows(page, RIDE + '&cost=1000'), page.told('within-told'))


def tries(page, front):
    front.settings()
    restart_front(front)
    nearby.try_town(page)
    try_hostile(page, front)
