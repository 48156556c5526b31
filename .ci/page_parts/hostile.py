"""Tries of the page against servers that fail: each failure is told in a sentence, and the next question is answered."""
import http.server
import json
import os
import shutil
import threading
import time
import urllib.request

from page_parts.front import FRONT, PORTS
from page_parts.telling import told
from page_parts.town import RIDE

NASTY = '<img src=x onerror="window.hit=1"><script>window.hit=1</script>'


def nasty_reply(good):
    """A reply whose texts are markup."""
    reply = json.loads(good)
    properties = reply['features'][0]['properties']
    properties['name'] = NASTY
    properties['cost'] = NASTY
    for row in properties['messages'][1:]:
        row[9] = f'highway={NASTY} name={NASTY}'
        row[10] = NASTY
    return json.dumps(reply).encode()


class Hostile(http.server.BaseHTTPRequestHandler):
    """Answers each question by the way that is set."""
    way, good = 'good', b''

    def do_GET(self):
        getattr(self, Hostile.way)()

    do_POST = do_GET

    def say(self, status, kind, body, length=None):
        self.send_response(status)
        self.send_header('Content-Type', kind)
        self.send_header('Content-Length', str(len(body) if length is None else length))
        self.end_headers()
        self.wfile.write(body)

    def fine(self):
        self.say(200, 'application/json', Hostile.good)

    def page(self):
        self.say(200, 'text/html', b'<!doctype html><title>A page</title><p>Hello')

    def empty(self):
        self.say(200, 'application/json', b'{}')

    def null(self):
        self.say(200, 'application/json', b'null')

    def nothing(self):
        self.say(200, 'application/json', b'')

    def broken(self):
        self.say(200, 'application/json', Hostile.good[:len(Hostile.good) // 2])

    def cut(self):
        self.say(200, 'application/json', Hostile.good[:200], len(Hostile.good))

    def shapeless(self):
        self.say(200, 'application/json', b'{"features":[{"properties":{"cost":"1.0","messages":"none"},"geometry":{"coordinates":[[1]]}}]}')

    def nasty(self):
        self.say(200, 'application/json', nasty_reply(Hostile.good))

    def refusal(self):
        self.say(422, 'text/plain', f'odd {NASTY}'.encode())

    def fault(self):
        self.say(500, 'text/html', b'<h1>Internal Server Error</h1>')

    def silent(self):
        time.sleep(600)

    def closing(self):
        self.close_connection = True

    def log_message(self, *_):
        pass


class Servers:
    """Two hostile servers at the ports of the processes."""

    def __init__(self, handler=Hostile):
        self.handler, self.held = handler, []

    def __enter__(self):
        self.held = [http.server.ThreadingHTTPServer(('127.0.0.1', port), self.handler) for port in PORTS]
        for each in self.held:
            each.daemon_threads = True
            each.block_on_close = False
            threading.Thread(target=each.serve_forever, daemon=True).start()
        return self

    def __exit__(self, *_):
        for each in self.held:
            each.shutdown()
            each.server_close()


WAYS = [('page', 'A web page came'), ('empty', 'The answer holds no track'), ('null', 'The answer holds no track'),
        ('nothing', 'isn\'t JSON'), ('broken', 'isn\'t whole'), ('cut', 'broke off'), ('shapeless', 'The answer holds no track'),
        ('fault', 'status 500'), ('refusal', f'The server refused it: odd {NASTY}'), ('closing', 'no route server answers it')]


def ask_again(page):
    page.run('document.getElementById("turn-round").click()')


def try_ways(page):
    """Each broken answer is told, and a whole one after it is shown."""
    for way, words in WAYS:
        Hostile.way = way
        ask_again(page)
        is_told = page.tells(words) and page.is_bad() and not page.costs()
        found = page.told()
        Hostile.way = 'fine'
        ask_again(page)
        told(f'an answer that is {way} is told, and the next one shown', is_told and page.shows('799.132265'), found)


def try_nasty(page):
    """Markup in a reply stays text."""
    Hostile.way = 'nasty'
    ask_again(page)
    shown = page.until(lambda: page.costs() == [NASTY])
    time.sleep(0.5)
    told('markup in a reply is shown as text, and runs nothing', shown and page.run('return window.hit') is None
         and not page.all('#panel img, #panel script'), page.costs())


def try_silent(page):
    """A search that goes on is told, called off, and ended by the next question."""
    Hostile.way = 'silent'
    ask_again(page)
    told('what is waited for is told, with the seconds', page.tells('Searching for the ride over 2 waypoints by trekking: 2 s'), page.told())
    told('and the answer of before is faint', page.run('return document.body.classList.contains("waiting")'))
    page.picture('10-searching')
    page.by('call-off').click()
    told('it is called off', page.tells('Called off') and not page.by('call-off').is_displayed(), page.told())
    ask_again(page)
    page.tells('Searching')
    Hostile.way = 'fine'
    ask_again(page)
    told('a new question ends the old one', page.shows('799.132265'), page.told())
    page.by('ask-table').click()
    told('an answer that is no table is told', page.tells('The answer holds no table', 'table-told'), page.told('table-told'))
    page.run('document.getElementById("text").value = "---context:way assign costfactor 1"; document.getElementById("send").click()')
    told('and one that is no upload', page.tells('The answer holds no upload', 'text-told'), page.told('text-told'))


def try_dead(page, front):
    """A dead server, and a dead front."""
    ask_again(page)
    told('no server behind the front is told', page.tells('no route server answers it') and page.is_bad(), page.told())
    front.nginx.terminate()
    front.nginx.wait()
    ask_again(page)
    told('no front is told', page.tells('The server doesn\'t answer') and page.is_bad(), page.told())
    front.start_nginx()
    front.start_processes()
    ask_again(page)
    told('and when they are there again, the next click is answered', page.until(lambda: len(page.costs()) == 1), page.told())


def try_settings(page, front):
    """A page whose settings, map or profiles are missing says so, and rides."""
    cases = [('', 'settings.json is empty'), ('{', 'settings.json isn\'t JSON'), ('[]', 'isn\'t an object'),
             ('{"map": 7, "odd": 1}', '\u201cmap\u201d isn\'t a text'), ('{}', 'names no profile')]
    for text, words in cases:
        front.write('settings.json', text)
        page.open(RIDE)
        told(f'settings of {text!r} are told, and the ride is shown', page.tells(words, 'settings-told') and page.shows('799.132265'),
             (page.told('settings-told'), page.told()))
    told('a page without a map says that none is drawn', page.tells('names no map', 'map-told'), page.told('map-told'))
    os.remove(f'{front.web}/settings.json')
    page.open(RIDE)
    told('a missing settings.json is told, and the ride is shown', page.tells('isn\'t there', 'settings-told') and page.shows('799.132265'),
         page.told('settings-told'))


def try_maps(page, front):
    """A map that can't be drawn is told over the map, and rides are found."""
    shutil.copy(f'{front.files}/town.json', f'{front.files}/whole.json')
    for text, words in [('', 'can\'t be drawn'), ('<html>', 'can\'t be drawn'), ('{}', 'it has no elements'), ('{"elements":[]}', 'it has no ways')]:
        with open(f'{front.files}/odd.json', 'w', encoding='utf-8') as file:
            file.write(text)
        front.settings(map='files/odd.json')
        page.open(RIDE)
        told(f'a map of {text!r} is told, and the ride is shown', page.tells(words, 'map-told') and page.shows('799.132265'), page.told('map-told'))
    front.settings(map='files/missing.json', profiles={'trekking': 'files/missing.brf'})
    page.open(RIDE)
    told('a missing map is told', page.tells('status 404', 'map-told') and page.shows('799.132265'), page.told('map-told'))
    told('and a missing text of a profile', page.tells('can\'t be read here', 'rules-told'), page.told('rules-told'))
    front.settings(roads='roads/none')
    page.open(RIDE)
    told('and a missing folder of tiles', page.tells('roads/none', 'map-told') and page.shows('799.132265'), page.told('map-told'))
    page.picture('11-no-map')


def try_server(page, front):
    """Only a server that settings.json lists is asked, and it is told where rides go."""
    with urllib.request.urlopen(FRONT) as got:
        policy = got.headers['Content-Security-Policy'] or ''
    told('the front\'s policy allows no inline scripts or styles', "default-src 'none'" in policy and 'unsafe' not in policy, policy)
    page.open(RIDE)
    page.run('const made = document.createElement("script"); made.textContent = "window.hit = 2"; document.body.append(made);')
    told('and the browser keeps to it', page.run('return window.hit') is None)
    page.driver.get_log('browser')
    front.settings()
    page.open(RIDE, '?server=http://127.0.0.1:17778')
    told('a server that isn\'t listed isn\'t asked', page.tells('It isn\'t asked', 'server-told') and page.shows('799.132265'),
         page.told('server-told'))
    front.settings(servers=['http://127.0.0.1:17778'])
    page.open(RIDE, '?server=http://127.0.0.1:17778')
    told('a listed one is told', page.tells('rides and profiles go to http://127.0.0.1:17778', 'server-told'), page.told('server-told'))
    told('but not reached where the front\'s policy names it not', page.tells('The server doesn\'t answer'), page.told())
    refused = [line['message'] for line in page.driver.get_log('browser') if 'Content Security Policy' in line['message']]
    told('which the browser says', len(refused) > 0, refused)
    front.settings()


def tries(page, front):
    """The processes are stopped at first, and run at the end."""
    front.settings()
    page.open(RIDE)
    page.shows('799.132265')
    Hostile.good = page.driver.execute_async_script("""const done = arguments[0];
        fetch('/brouter?lonlats=8.5156,49.1114|8.5198,49.115&profile=trekking').then((answer) => answer.text()).then(done);""").encode()
    front.stop_processes()
    with Servers():
        Hostile.way = 'fine'
        try_ways(page)
        try_nasty(page)
        try_silent(page)
    try_dead(page, front)
    try_settings(page, front)
    try_maps(page, front)
    try_server(page, front)
