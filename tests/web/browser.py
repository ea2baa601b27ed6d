"""The page in a real browser: Chromium through its driver, Firefox through Marionette, its own protocol."""
import base64
import json
import os
import pathlib
import shutil
import socket
import subprocess
import tempfile
import time

from selenium import webdriver
from selenium.webdriver.chrome.options import Options
from selenium.webdriver.chrome.service import Service

ROOT = pathlib.Path(__file__).resolve().parents[2]
BUILT = ROOT / 'target' / 'web' / 'barrier.html'
FLAGS = ('--headless=new', '--no-sandbox', '--disable-gpu', '--hide-scrollbars', '--disable-dev-shm-usage', '--force-device-scale-factor=1')


def address(path):
    return pathlib.Path(path).resolve().as_uri()


def chromium(width=1400, height=1000, downloads=None):
    options = Options()
    options.binary_location = os.environ.get('CHROMIUM', '/usr/bin/chromium')
    for flag in FLAGS + ('--window-size=%d,%d' % (width, height),):
        options.add_argument(flag)
    if downloads:
        options.add_experimental_option('prefs', {'download.default_directory': str(downloads), 'download.prompt_for_download': False, 'profile.default_content_setting_values.automatic_downloads': 1})
    options.set_capability('goog:loggingPrefs', {'browser': 'ALL'})
    driver = webdriver.Chrome(service=Service(os.environ.get('CHROMEDRIVER', '/usr/bin/chromedriver')), options=options)
    driver.set_script_timeout(60)
    return driver


def ready(driver, path=BUILT, fragment=''):
    """Opens the page from disk, with nothing stored, and waits until it is there."""
    driver.get('about:blank')
    driver.get(address(path) + ('#' + fragment if fragment else ''))
    wait(lambda: driver.execute_script('return document.documentElement.dataset.ready'))


def fresh(driver, path=BUILT, fragment=''):
    ready(driver, path)
    driver.execute_script('clearTimeout(barrierPage.page.settling); localStorage.clear()')
    ready(driver, path, fragment)


def wait(found, seconds=30):
    end = time.monotonic() + seconds
    while time.monotonic() < end:
        value = found()
        if value:
            return value
        time.sleep(0.05)
    raise AssertionError('not there after %d s' % seconds)


# Everything that the page shows, read from the page itself and not from its script.
SHOWN = '''
const texts = (selector) => [...document.querySelectorAll(selector)].map((row) => [...row.cells].map((cell) => cell.textContent));
const by = (id) => document.getElementById(id);
const visible = (id) => by(id) && !by(id).hidden && !by(id).closest('[hidden]');
return {
    state: by('state-words').textContent, summary: by('summary').textContent, message: by('message').textContent,
    refused: document.querySelector('section.state').classList.contains('refused'),
    refusals: [...by('refusals').children].map((one) => one.textContent),
    runs: visible('runs') ? texts('#runs tbody tr') : [], noRuns: by('no-runs').textContent,
    overhangs: visible('overhangs') ? texts('#overhangs tbody tr') : [],
    quantities: visible('quantities') ? texts('#quantities tbody tr') : [], quantityHeads: texts('#quantity-heads')[0] || [],
    marked: [...document.querySelectorAll('[aria-invalid]')].map((one) => one.getAttribute('aria-label') || one.id),
    faults: [...document.querySelectorAll('td.faults')].map((one) => one.textContent).filter(Boolean),
    hazards: [...document.querySelectorAll('#hazards tbody tr')].filter((row) => row.querySelector('input')).map((row) =>
        [...row.querySelectorAll('input:not([type=radio]), select')].map((one) => one.value)),
    road: Object.fromEntries([...document.querySelectorAll('#road input')].map((one) => [one.id, one.type === 'checkbox' ? one.checked : one.value])),
    bars: [...document.querySelectorAll('#drawing [data-group^=levels] path')].length,
    barriers: [...document.querySelectorAll('#drawing [data-group^=barrier] path')].length,
    described: by('drawing').getAttribute('aria-label'),
    drawn: document.querySelectorAll('#drawing .hazard .body').length,
    envelope: visible('hazard-envelope') ? by('hazard-envelope').textContent : null,
    corners: visible('corners') ? texts('#corners tbody tr') : [], noCorners: by('no-corners') ? by('no-corners').textContent : '',
    smallest: by('smallest') ? by('smallest').textContent : '', reach: by('reach') ? by('reach').textContent : '',
    panels: by('panel-answer').textContent, level: by('level-answer').textContent, readout: by('readout').textContent,
    states: [...by('states').children].map((row) => row.querySelector('span').textContent),
};
'''


def shown(driver):
    return driver.execute_script(SHOWN)


def type_in(driver, name, text):
    """As somebody types it: the value, and the event that the page listens to."""
    driver.execute_script('''
        const input = document.getElementById(arguments[0]) || document.querySelector(arguments[0]);
        input.focus(); input.value = arguments[1];
        input.dispatchEvent(new Event('input', {bubbles: true}));''', name, text)


def choose_in(driver, name, value):
    driver.execute_script('''
        const input = document.getElementById(arguments[0]) || document.querySelector(arguments[0]);
        if (input.type === 'checkbox') input.checked = arguments[1]; else input.value = arguments[1];
        input.dispatchEvent(new Event('input', {bubbles: true}));
        input.dispatchEvent(new Event('change', {bubbles: true}));''', name, value)


def click(driver, name):
    driver.execute_script('document.getElementById(arguments[0]).click()', name)


def read_text(driver, text):
    """The job's text through the page's own field and button."""
    driver.execute_script('''
        const area = document.getElementById('text');
        area.value = arguments[0];
        area.dispatchEvent(new Event('input', {bubbles: true}));
        document.getElementById('read-text').click();''', text)


def complaints(driver):
    """What the browser's console says: nothing is wanted there."""
    return [entry['message'] for entry in driver.get_log('browser') if entry['level'] in ('SEVERE', 'WARNING')]


class Firefox:
    """Firefox by Marionette, for which Debian needs no driver: JSON with its length before it, over a socket."""

    def __init__(self, width=1400, height=1000):
        self.folder = tempfile.mkdtemp()
        with socket.socket() as free:
            free.bind(('127.0.0.1', 0))
            self.port = free.getsockname()[1]
        preferences = {'marionette.port': self.port, 'datareporting.policy.dataSubmissionEnabled': False, 'browser.shell.checkDefaultBrowser': False,
                       'toolkit.telemetry.enabled': False, 'app.update.enabled': False}
        text = ''.join('user_pref(%s, %s);\n' % (json.dumps(key), json.dumps(value)) for key, value in preferences.items())
        (pathlib.Path(self.folder) / 'user.js').write_text(text)
        self.process = subprocess.Popen([os.environ.get('FIREFOX', 'firefox-esr'), '--headless', '--marionette', '--profile', self.folder, '--width', str(width), '--height', str(height)],
                                        stdout=subprocess.DEVNULL, stderr=subprocess.DEVNULL, env={**os.environ, 'HOME': self.folder})
        self.socket = wait(self.connected, 90)
        self.socket.settimeout(90)
        self.count = 0
        self.received = b''
        self.message()
        self.command('WebDriver:NewSession', {'capabilities': {'alwaysMatch': {}}})

    def connected(self):
        try:
            return socket.create_connection(('127.0.0.1', self.port), 2)
        except OSError:
            return None

    def message(self):
        while b':' not in self.received:
            self.received += self.socket.recv(65536)
        length, _, rest = self.received.partition(b':')
        while len(rest) < int(length):
            rest += self.socket.recv(65536)
        self.received = rest[int(length):]
        return json.loads(rest[:int(length)].decode('utf-8'))

    def command(self, name, values):
        self.count += 1
        text = json.dumps([0, self.count, name, values]).encode('utf-8')
        self.socket.sendall(b'%d:%s' % (len(text), text))
        _, _, error, found = self.message()
        if error:
            raise AssertionError('%s: %s' % (name, error))
        return found

    def get(self, url):
        self.command('WebDriver:Navigate', {'url': url})

    def execute_script(self, script, *values):
        return self.command('WebDriver:ExecuteScript', {'script': script, 'args': list(values)})['value']

    def save_screenshot(self, path):
        found = self.command('WebDriver:TakeScreenshot', {'full': True})
        pathlib.Path(path).write_bytes(base64.b64decode(found['value']))

    def quit(self):
        try:
            self.command('Marionette:Quit', {'flags': ['eForceQuit']})
        except (AssertionError, OSError, ValueError):
            pass
        try:
            self.process.wait(20)
        except subprocess.TimeoutExpired:
            self.process.kill()
            self.process.wait()
        self.socket.close()
        shutil.rmtree(self.folder, ignore_errors=True)
