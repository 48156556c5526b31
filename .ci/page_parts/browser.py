"""The page in a headless Chromium."""
import os
import shutil
import time
import urllib.parse

from selenium import webdriver
from selenium.common.exceptions import TimeoutException, WebDriverException
from selenium.webdriver.chrome.service import Service
from selenium.webdriver.common.action_chains import ActionChains
from selenium.webdriver.common.by import By
from selenium.webdriver.support.ui import WebDriverWait

from page_parts.front import FRONT

PATIENCE = 60
LATLNGS = """const found = [];
document.getElementById('map').rideMap.map.eachLayer((layer) => {
  if (layer.options.className === arguments[0]) found.push(layer.getLatLngs().map(({ lat, lng }) => [lng, lat]));
});
return found;"""


def open_browser(room):
    options = webdriver.ChromeOptions()
    options.binary_location = shutil.which('chromium')
    for word in ('--headless=new', '--no-sandbox', '--disable-gpu', '--disable-dev-shm-usage', '--window-size=1400,1000', '--lang=en',
                 '--enable-precise-memory-info', '--js-flags=--expose-gc'):
        options.add_argument(word)
    options.add_experimental_option('prefs', {'download.default_directory': room})
    options.set_capability('goog:loggingPrefs', {'browser': 'ALL'})
    return webdriver.Chrome(service=Service(shutil.which('chromedriver')), options=options)


def schedule(process):
    """How long the main thread of a process of a page ran and waited; nothing of other processes."""
    try:
        with open(f'/proc/{process}/cmdline', encoding='utf-8') as file:
            if '--type=renderer' not in file.read():
                return 0, 0
        with open(f'/proc/{process}/schedstat', encoding='utf-8') as file:
            ran, waited, _ = file.read().split()
    except OSError:
        return 0, 0
    return int(ran), int(waited)


class Page:
    """The page, with what a rider does and sees."""

    def __init__(self, driver, pictures):
        self.driver, self.pictures = driver, pictures

    def open(self, ride='', search=''):
        self.driver.get('about:blank')
        self.driver.get(f'{FRONT}/{search}' + (f'#{ride}' if ride else ''))
        return self.until(lambda: self.run("return Boolean(document.getElementById('map').rideMap)"))

    def run(self, script, *words):
        return self.driver.execute_script(script, *words)

    def until(self, holds):
        """Whether this comes to hold; what is drawn anew meanwhile is looked for again."""
        try:
            WebDriverWait(self.driver, PATIENCE, 0.1, (WebDriverException,)).until(lambda _: holds())
            return True
        except TimeoutException:
            return False

    def by(self, name):
        return self.driver.find_element(By.ID, name)

    def all(self, selector):
        return self.driver.find_elements(By.CSS_SELECTOR, selector)

    def told(self, place='told'):
        return self.run('return document.getElementById(arguments[0]).textContent', place)

    def is_bad(self, place='told'):
        return self.run('return document.getElementById(arguments[0]).classList.contains("bad")', place)

    def tells(self, words, place='told'):
        return self.until(lambda: words in self.told(place))

    def address(self):
        return urllib.parse.unquote(self.driver.current_url.partition('#')[2])

    def costs(self):
        return [each.text for each in self.all('#figures .cost')]

    def shows(self, *costs):
        return self.until(lambda: self.costs() == list(costs) and not self.run('return document.body.classList.contains("waiting")'))

    def lines(self, name):
        return self.run(LATLNGS, name)

    def picture(self, name):
        time.sleep(0.5)
        self.driver.save_screenshot(os.path.join(self.pictures, name + '.png'))

    def click_map(self, right, down):
        ActionChains(self.driver).move_to_element_with_offset(self.by('map'), right, down).click().perform()
        time.sleep(0.5)

    def drag(self, element, right, down):
        ActionChains(self.driver).move_to_element(element).click_and_hold().move_by_offset(right, down).pause(0.1).move_by_offset(1, 1) \
            .release().perform()
        time.sleep(0.4)

    def spot_of(self, lon, lat):
        """Where a place lies in the window."""
        return self.run("""const map = document.getElementById('map').rideMap.map;
            const { x, y } = map.latLngToContainerPoint([arguments[1], arguments[0]]);
            const box = map.getContainer().getBoundingClientRect(); return [x + box.left, y + box.top];""", lon, lat)

    def touch(self, *spots):
        """A finger that is set down, moved and lifted."""
        for number, (x, y) in enumerate(spots):
            self.driver.execute_cdp_cmd('Input.dispatchTouchEvent', {'type': 'touchMove' if number else 'touchStart',
                                                                     'touchPoints': [{'x': x, 'y': y}]})
            time.sleep(0.05)
        self.driver.execute_cdp_cmd('Input.dispatchTouchEvent', {'type': 'touchEnd', 'touchPoints': []})

    def threads(self):
        """How long the main threads of the browser's pages ran and how long they waited for a processor, in nanoseconds."""
        parents = {}
        for name in filter(str.isdigit, os.listdir('/proc')):
            try:
                with open(f'/proc/{name}/stat', encoding='utf-8') as file:
                    parents[int(name)] = int(file.read().rpartition(')')[2].split()[1])
            except OSError:
                continue
        ours, top = {self.driver.service.process.pid}, 0
        while len(ours) > top:
            top = len(ours)
            ours |= {process for process, parent in parents.items() if parent in ours}
        return [sum(times) for times in zip(*(schedule(process) for process in ours))]

    def share(self, before):
        """The part of the time since then in which the page's threads, where they could run, had a processor."""
        ran, waited = [now - then for now, then in zip(self.threads(), before)]
        return ran / (ran + waited) if ran else 1

    def console(self):
        """What the console got since it was last asked, but for what a server refused: that is a line of it whatever a page does."""
        return [line['message'] for line in self.driver.get_log('browser')
                if 'the server responded with a status of' not in line['message'] and 'net::ERR_' not in line['message']]
