"""Tries of profiles that are written on the page: refused at their line, ridden by, kept in the address, and sent again."""
import json
import urllib.request

from selenium.webdriver.support.ui import Select

from page_parts.front import FRONT, reply
from page_parts.telling import told
from page_parts.town import RIDE

PUBLISHED = """---context:global
assign avoid_steps = true # %avoid_steps% | Set to false where steps are no hindrance | boolean
assign weight = 3 # %weight% | How much distance counts | number
assign mood = 1 # %mood% | The mood of the day | [0=calm, 1=usual, 2=wild]
assign gear = 2 # %gear% | A gear | [1, 2, 3]
assign reckoned = add weight mood
---context:way
assign costfactor multiply weight switch greater mood 1 2 1
"""


# What is told of a line at fault: the token, and what its author can do.
ADVICE = [
    ('an operand too many', 'add 1 2 3', 4, '3: The assignment before it is whole: take this out, or look which operator is missing there.'),
    ('an open bracket', '( add 1 2\nassign y 1', 5, 'assign: The bracket before it isn\'t closed: write ) before this.'),
    ('a choice without its end', 'if true then 1 2', 4, '2: else is missing before this: a choice is if A then B else C, or switch A B C.'),
    ('a number', '1.2.3', 4, '1.2.3: A number is written as digits with at most one point between them, from -1000000000 to 1000000000.'),
    ('a misspelled operator', 'multipli x 2', 4,
     'x: The assignment before it is whole: take this out, or look which operator is missing there. Did you mean multiply?'),
    ('an unknown name', 'add costfacto x', 4, 'costfacto: no assignment before it, in its section or the global one, gives this name.'),
    ('an unknown value', 'switch highway=residentail 1 2', 4,
     'highway=residentail: the server\'s tag table has no such value. Look at its spelling, or take it out.')]


def write(page, text):
    page.run('document.getElementById("writing").open = true; const text = document.getElementById("text"); text.value = arguments[0];'
             'text.dispatchEvent(new Event("input")); document.getElementById("send").click();', text)


def upload(text):
    with urllib.request.urlopen(urllib.request.Request(f'{FRONT}/brouter/profile', data=text.encode(), method='POST')) as got:
        return json.load(got)['profileid']


def try_fault(page):
    """A broken profile is refused at its line, which comes into sight."""
    page.open(RIDE)
    page.shows('799.132265')
    write(page, '---context:global\nassign x 1\n---context:way\nassign costfactor if\n')
    told('a broken profile marks its line', page.until(lambda: [each.text for each in page.all('#lines .at-fault')] == ['4']),
         page.told('text-told'))
    for name, text, line, words in ADVICE:
        write(page, f'---context:global\nassign x 1\n---context:way\nassign costfactor {text}\n')
        told(f'and says what is wrong with {name}', page.until(lambda: page.told('text-told') == f'Line {line}, {words}'), page.told('text-told'))
    write(page, 'assign x 1\n---context:way\nassign costfactor 1\n')
    told('and so does one without a section', page.until(lambda: [each.text for each in page.all('#lines .at-fault')] == ['1']),
         page.told('text-told'))
    long = '---context:way\n' + '# a line\n' * 200 + 'assign costfactor then\n' + '# a line\n' * 100
    write(page, long)
    page.until(lambda: [each.text for each in page.all('#lines .at-fault')] == ['202'])
    seen = page.run("""const text = document.getElementById('text'); const height = text.scrollHeight / text.value.split('\\n').length;
        const at = 201 * height - text.scrollTop; return [at, text.clientHeight];""")
    told('a line far below is scrolled to', 0 < seen[0] < seen[1], seen)
    page.picture('09-broken-profile')


def try_written(page, front):
    """A profile that is taken is used at once, and lives in the address."""
    page.open(RIDE)
    page.shows('799.132265')
    write(page, PUBLISHED)
    told('one that is taken is used at once, beside the old one', page.until(lambda: len(page.costs()) == 2)
         and page.costs()[1] == '799.132265' and page.until(lambda: 'profile=~' in page.address()), (page.costs(), page.address()))
    alone = reply(RIDE.replace('trekking', upload(PUBLISHED)))['properties']['cost']
    told('and its cost is that of the text alone', page.costs()[0] == alone, (page.costs(), alone))
    with open(f'{front.room}/rides.log', encoding='utf-8') as file:
        sent = [line.split('"')[1] for line in file if '"POST ' in line]
    told('it was sent with the first waypoint, by which a front of several regions goes',
         'POST /brouter/profile?lonlats=8.5156,49.1114 HTTP/1.1' in sent, sent)
    told('two tracks are drawn', len(page.lines('track')) == len(page.lines('track beside')) == 1)
    told('its author\'s fields have their kinds', len(page.all('#variables input[type=checkbox][name=avoid_steps]')) == 1
         and len(page.all('#variables input[type=number][name=weight]')) == 1 and not page.all('#variables [name=reckoned]'))
    choices = [each.text for each in Select(page.all('#variables select[name=mood]')[0]).options]
    told('and their lists', choices == ['calm', 'usual', 'wild'] and len(Select(page.all('#variables select[name=gear]')[0]).options) == 3, choices)
    told('and their texts', 'The mood of the day' in page.told('variables') and '%' not in page.told('variables'))
    Select(page.all('#variables select[name=mood]')[0]).select_by_visible_text('wild')
    told('a choice changes the ride', page.until(lambda: page.costs()[0] != alone) and 'profile:mood=2' in page.address(), page.costs())
    page.by('ask-table').click()
    told('a table is reckoned by it too', page.until(lambda: len(page.all('#costs td')) == 4) and page.told('costs').count(page.costs()[0]) >= 1,
         (page.told('costs'), page.told('table-told')))
    told('no name of an upload is in the address', 'custom_' not in page.address(), page.address())
    return page.address(), page.costs()


def try_again(page, front, address, costs):
    """A server that was started anew gets the text again, also where it has another text under the old name."""
    front.stop_processes()
    front.start_processes()
    name = upload('---context:way\nassign costfactor 7\n')
    told('a server that was started anew gives the old names to others', name == 'custom_1', name)
    Select(page.by('beside')).select_by_visible_text('road')
    told('the page finds that its text is lost, and sends it again', page.until(lambda: page.costs() and page.costs()[0] == costs[0]
                                                                              and page.costs()[1] != costs[1]), page.costs())
    page.run('sessionStorage.clear()')
    page.open(address)
    told('a shared address brings its profile along', page.shows(*costs), page.costs())
    page.open(RIDE.replace('trekking', '~AAAA'))
    told('a packed profile that is broken is told', page.tells('can\'t be unpacked'), page.told())
    page.open(RIDE.replace('trekking', address.split('profile=')[1].split('&')[0][:-9]))
    told('and one that was cut off', page.tells('can\'t be unpacked'), page.told())


def try_bomb(page):
    """A packed text that is longer than a profile may be isn't unpacked."""
    packed = page.driver.execute_async_script("""const done = arguments[0];
        import('/packing.js').then(({ pack }) => pack('#'.repeat(30000000))).then(done);""")
    page.open(RIDE.replace('trekking', '~' + packed))
    told('a packed text beyond a profile\'s length isn\'t unpacked', page.tells('can\'t be unpacked'), page.told()[:200])


def tries(page, front):
    try_fault(page)
    address, costs = try_written(page, front)
    try_again(page, front, address, costs)
    try_bomb(page)
