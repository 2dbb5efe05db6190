"""Headless Chromium, driven through chromedriver by the WebDriver protocol."""

import atexit
import base64
import json
import os
import shutil
import signal
import socket
import subprocess
import tempfile
import time
import urllib.error
import urllib.request

PATIENCE = 180  # seconds; a machine with much other work is slow
ELEMENT = 'element-6066-11e4-a52e-4f735466cecf'  # the key under which the protocol hands on an element
ENTER = '\ue007'


def is_installed():
    return all(map(shutil.which, ('chromium', 'chromedriver')))


def free_port():
    with socket.socket() as taken:
        taken.bind(('127.0.0.1', 0))
        return taken.getsockname()[1]


class Chromium:
    def __init__(self, width=1400, height=1000):
        self.room = tempfile.TemporaryDirectory(ignore_cleanup_errors=True)
        port = free_port()
        self.driver = subprocess.Popen(['chromedriver', f'--port={port}'], stdout=subprocess.DEVNULL, stderr=subprocess.DEVNULL, start_new_session=True,
                                       env={**os.environ, 'HOME': self.room.name, 'TMPDIR': self.room.name})
        atexit.register(self.end)  # where tests are broken off
        self.base = f'http://127.0.0.1:{port}'
        wait(lambda: self.is_ready(), 'chromedriver to be ready')
        words = ['--headless=new', '--disable-gpu', '--disable-dev-shm-usage', f'--window-size={width},{height}', f'--user-data-dir={self.room.name}/profile']
        if os.getuid() == 0:
            words.append('--no-sandbox')
        patience = {kind: 1000 * PATIENCE for kind in ('script', 'pageLoad')}
        asked = {'capabilities': {'alwaysMatch': {'browserName': 'chrome', 'timeouts': patience, 'goog:chromeOptions': {'args': words}}}}
        self.base += '/session/' + try_thrice(lambda: self.call('POST', '/session', asked))['sessionId']

    def is_ready(self):
        try:
            return self.call('GET', '/status')['ready']
        except OSError:
            return False

    def __enter__(self):
        return self

    def __exit__(self, *_):
        try:
            self.call('DELETE', '')
        except (OSError, AssertionError):
            pass  # it went away by itself
        self.end()

    def end(self):
        """Ends all that was started, and takes its folder away."""
        atexit.unregister(self.end)
        self.driver.terminate()
        self.driver.wait()
        try:
            os.killpg(self.driver.pid, signal.SIGKILL)
        except ProcessLookupError:
            pass  # all have ended
        self.room.cleanup()

    def call(self, method, path, body=None):
        data = None if body is None else json.dumps(body).encode()
        request = urllib.request.Request(self.base + path, data, {'Content-Type': 'application/json'}, method=method)
        try:
            with urllib.request.urlopen(request, timeout=2 * PATIENCE) as answer:
                return json.load(answer)['value']
        except urllib.error.HTTPError as error:
            raise AssertionError(json.load(error)['value']['message']) from None

    def go(self, address):
        self.call('POST', '/url', {'url': address})

    def run(self, script, *given):
        """What a function's body returns that is run in the page."""
        return self.call('POST', '/execute/sync', {'script': script, 'args': list(given)})

    def run_until_told(self, script, *given):
        """What a function's body hands to its last argument, a function, when it is done. The page isn't asked meanwhile."""
        return self.call('POST', '/execute/async', {'script': script, 'args': list(given)})

    def processes(self):
        """The numbers of Chromium's processes, by what they do."""
        kinds = {'--type=renderer': 'the page', '--type=gpu-process': 'the compositor', '--utility-sub-type=network': 'the network', '--type=': 'others'}
        numbers = {name: [] for name in ('the page', 'the compositor', 'the network', 'the browser')}
        for number in below(self.driver.pid)[1:]:
            with open(f'/proc/{number}/cmdline') as file:
                words = file.read()
            name = next((name for word, name in kinds.items() if word in words), 'the browser')
            numbers.setdefault(name, []).append(number)
        return numbers

    def find(self, selector):
        return self.call('POST', '/element', {'using': 'css selector', 'value': selector})[ELEMENT]

    def click(self, selector):
        self.call('POST', f'/element/{self.find(selector)}/click', {})

    def type(self, selector, text):
        self.call('POST', f'/element/{self.find(selector)}/value', {'text': text})

    def text(self, selector):
        return self.run('return document.querySelector(arguments[0]).textContent', selector)

    def pointer(self, *actions):
        """Moves the mouse: ('to', x, y), ('down',), ('up',), in pixels of the page."""
        kinds = {'to': 'pointerMove', 'down': 'pointerDown', 'up': 'pointerUp'}
        steps = [{'type': kinds[kind], **({'x': round(place[0]), 'y': round(place[1]), 'duration': 0} if place else {'button': 0})} for kind, *place in actions]
        self.call('POST', '/actions', {'actions': [{'type': 'pointer', 'id': 'mouse', 'parameters': {'pointerType': 'mouse'}, 'actions': steps}]})

    def screenshot(self, path=None):
        """The page as a PNG, which is written to a file where one is given."""
        picture = base64.b64decode(try_thrice(lambda: self.call('GET', '/screenshot')))
        if path:
            with open(path, 'wb') as file:
                file.write(picture)
        return picture

    def new_page(self):
        """Opens one more page, and goes to it; answers its handle."""
        handle = self.call('POST', '/window/new', {'type': 'tab'})['handle']
        self.to_page(handle)
        return handle

    def page(self):
        return self.call('GET', '/window')

    def to_page(self, handle):
        self.call('POST', '/window', {'handle': handle})

    def close_page(self):
        self.call('DELETE', '/window')

    def wait(self, script, what, *given):
        """Waits until a function's body returns something true; answers it."""
        return wait(lambda: self.run(script, *given), what)


def below(number):
    """A process and all that it started, directly or not."""
    numbers = [number]
    for number in numbers:
        for thread in os.listdir(f'/proc/{number}/task'):
            with open(f'/proc/{number}/task/{thread}/children') as file:
                numbers += map(int, file.read().split())
    return numbers


def try_thrice(act):
    """What an act answers for which chromedriver has little patience, on a machine that may have much other work."""
    for _ in range(2):
        try:
            return act()
        except AssertionError:
            pass
    return act()


def wait(until, what):
    limit = time.monotonic() + PATIENCE
    while not (got := until()):
        if time.monotonic() > limit:
            raise AssertionError(f'waited {PATIENCE} s for {what}')
        time.sleep(0.05)
    return got
