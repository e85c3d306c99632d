"""Debian's chromium without a window, for tools/page-tries: by the DevTools protocol, which it speaks over two pipes."""
import collections
import fcntl
import json
import os
import select
import subprocess
import time

from browser import MOST_WAIT, ZOOM, ZOOMED, Node, Page
from station_room import want

WORDS = ['chromium', '--headless', '--no-sandbox', '--disable-gpu', '--hide-scrollbars', '--no-first-run', '--disable-extensions',
         '--disable-background-networking', '--ignore-certificate-errors', '--remote-debugging-pipe',
         # None of these names is anybody's. They are all this machine.
         '--host-resolver-rules=MAP *.example 127.0.0.1']
KEYS = {'Tab': (9, ''), 'Enter': (13, '\r'), ' ': (32, ' '), 'ArrowUp': (38, ''), 'ArrowDown': (40, '')}

# Roles that ARIA has no word for.
ROLES = {'DisclosureTriangle': 'disclosure'}


class Chromium:
    """A run of it up to the end of the block, with its files in a folder."""

    name = 'chromium'

    def __init__(self, folder):
        self.folder, self.count, self.unread, self.events = folder, 0, b'', collections.deque()

    def __enter__(self):
        # It reads from 3 and writes to 4.
        heard, self.mouth = os.pipe()
        self.ear, said = os.pipe()
        high = [fcntl.fcntl(end, fcntl.F_DUPFD, 10) for end in (heard, said)]

        def place():
            os.dup2(high[0], 3)
            os.dup2(high[1], 4)
        words = [*WORDS, f'--user-data-dir={self.folder}', 'about:blank']
        self.process = subprocess.Popen(words, stdin=subprocess.DEVNULL, stdout=subprocess.DEVNULL, stderr=subprocess.DEVNULL,
                                        preexec_fn=place, pass_fds=(3, 4))
        for end in (heard, said, *high):
            os.close(end)
        return self

    def __exit__(self, *_):
        self.process.kill()
        self.process.wait()
        os.close(self.mouth)
        os.close(self.ear)

    def ask(self, method, session=None, **words):
        """What it answers. What it tells meanwhile is kept in `events`."""
        mine, end = self.send(method, session, **words), time.monotonic() + MOST_WAIT
        while True:
            told = self.read(end, method)
            if told.get('id') == mine:
                want('error' not in told, f'{method}: {told.get("error")}')
                return told['result']
            if 'method' in told:
                self.events.append(told)

    def send(self, method, session, **words):
        self.count += 1
        asked = {'id': self.count, 'method': method, 'params': words, **({'sessionId': session} if session else {})}
        text = json.dumps(asked).encode() + b'\0'
        while text:
            text = text[os.write(self.mouth, text):]
        return self.count

    def read(self, end, what):
        while b'\0' not in self.unread:
            want(select.select([self.ear], [], [], max(0, end - time.monotonic()))[0], f'chromium did not answer {what}')
            more = os.read(self.ear, 1 << 20)
            want(more, 'chromium ended')
            self.unread += more
        text, _, self.unread = self.unread.partition(b'\0')
        told = json.loads(text)
        if told.get('method') == 'Page.javascriptDialogOpening':
            # As long as it is open, the page answers nothing.
            self.send('Page.handleJavaScriptDialog', told['sessionId'], accept=True)
        return told

    def version(self):
        return self.ask('Browser.getVersion')['product']

    def page(self, width=1200, height=900):
        target = self.ask('Target.createTarget', url='about:blank')['targetId']
        session = self.ask('Target.attachToTarget', targetId=target, flatten=True)['sessionId']
        return ChromiumPage(self, target, session, width, height)


class ChromiumPage(Page):
    """A page of it. `run` works also where no script of a page does."""

    def __init__(self, browser, target, session, width, height):
        self.browser, self.target, self.session, self.media = browser, target, session, {}
        self.heard_alerts, self.heard_faults = [], []
        for area in ('Page', 'Runtime', 'Log', 'DOM'):
            self.ask(f'{area}.enable')
        self.resize(width, height)

    def close(self):
        self.browser.ask('Target.closeTarget', targetId=self.target)

    def ask(self, method, **words):
        return self.browser.ask(method, self.session, **words)

    # ---- how it looks

    def resize(self, width, height=900):
        self.ask('Emulation.setDeviceMetricsOverride', width=width, height=height, deviceScaleFactor=1, mobile=width < 600)

    def zoom(self):
        """To the pages a window by four is a fourth of it, with four times the dots. The DevTools know of no other."""
        width, height = ZOOMED
        self.ask('Emulation.setDeviceMetricsOverride', width=width, height=height, deviceScaleFactor=ZOOM, mobile=False)

    def write_larger(self, by):
        """The letters alone, as who sets a larger font in the browser."""
        self.ask('Page.setFontSizes', fontSizes={'standard': round(16 * by), 'fixed': round(13 * by)})

    def be(self, look):
        """Light or dark."""
        self.emulate('prefers-color-scheme', look)

    def be_in(self, zone):
        """A zone of time, by its name."""
        self.ask('Emulation.setTimezoneOverride', timezoneId=zone)

    def force_colours(self, look):
        """Black on white, or white on black, in place of the pages' own. With none the pages have theirs."""
        self.be(look or 'light')
        self.emulate('forced-colors', 'active' if look else 'none')

    def emulate(self, feature, value):
        self.media[feature] = value
        self.ask('Emulation.setEmulatedMedia', features=[{'name': name, 'value': value} for name, value in self.media.items()])

    def allow_scripts(self, allowed):
        self.ask('Emulation.setScriptExecutionDisabled', value=not allowed)

    def send_also(self, **fields):
        """Further fields of each request, as of a proxy."""
        self.ask('Network.enable')
        self.ask('Network.setExtraHTTPHeaders', headers=fields)

    def front(self):
        self.ask('Page.bringToFront')

    # ---- what it is asked

    def run(self, script):
        """The value of an expression, for which it is waited."""
        told = self.ask('Runtime.evaluate', expression=script, returnByValue=True, awaitPromise=True)
        fault = told.get('exceptionDetails', {}).get('exception', {}).get('description')
        want('exceptionDetails' not in told, f'{script[:200]}: {fault}')
        return told['result'].get('value')

    def note(self, told):
        """Keeps a dialog, and what the page's policy forbade."""
        if told['method'] == 'Page.javascriptDialogOpening':
            self.heard_alerts.append(told['params']['message'])
        elif told['method'] == 'Log.entryAdded':
            entry = told['params']['entry']
            if 'Content Security Policy' in entry['text'] or entry['level'] == 'error':
                self.heard_faults.append(entry['text'])
        elif told['method'] == 'Runtime.exceptionThrown':
            details = told['params']['exceptionDetails']
            self.heard_faults.append(details.get('exception', {}).get('description') or details['text'])

    def listen(self):
        """Keeps what came of this page beside answers."""
        self.run('1')
        told = [*self.browser.events]
        self.browser.events = collections.deque(one for one in told if one.get('sessionId') != self.session)
        for one in told:
            if one.get('sessionId') == self.session:
                self.note(one)

    @property
    def alerts(self):
        self.listen()
        return self.heard_alerts

    @property
    def blocked(self):
        self.listen()
        return self.heard_faults

    def wait_for_load(self, does):
        """Does something that leads to another page, and waits until that is there."""
        self.listen()
        does()
        end = time.monotonic() + MOST_WAIT
        while True:
            told = self.browser.events.popleft() if self.browser.events else self.browser.read(end, 'with a page')
            if told.get('sessionId') != self.session or 'method' not in told:
                continue
            self.note(told)
            if told['method'] == 'Page.loadEventFired':
                return

    def go(self, url):
        self.wait_for_load(lambda: self.ask('Page.navigate', url=url))

    def reload(self):
        """Again, also where it answers a form."""
        self.wait_for_load(lambda: self.ask('Page.reload'))

    def mouse(self, x, y):
        for kind in ('mousePressed', 'mouseReleased'):
            self.ask('Input.dispatchMouseEvent', type=kind, x=x, y=y, button='left', clickCount=1)

    def type(self, text):
        self.ask('Input.insertText', text=text)

    def choose(self, selector, path):
        """A file, for a field of one."""
        found = self.ask('Runtime.evaluate', expression=f'document.querySelector({json.dumps(selector)})')
        self.ask('DOM.setFileInputFiles', files=[path], objectId=found['result']['objectId'])

    def press(self, key, shift=False):
        code, text = KEYS[key]
        for kind in ('keyDown', 'keyUp'):
            self.ask('Input.dispatchKeyEvent', type=kind, key=key, code='Space' if key == ' ' else key, windowsVirtualKeyCode=code,
                     modifiers=8 * shift, **({'text': text} if text and kind == 'keyDown' else {}))

    # ---- what others are told of it

    def tree(self):
        """What a reader of a screen is told of the page, in its order."""
        nodes = self.ask('Accessibility.getFullAXTree')['nodes']
        by_id, told = {node['nodeId']: node for node in nodes}, []

        def walk(node):
            mine = None if node.get('ignored') else read_node(node)
            if mine:
                told.append(mine)
            texts = [walk(by_id[child]) for child in node.get('childIds', []) if child in by_id]
            text = mine.name if mine and mine.role == 'StaticText' else ' '.join(filter(None, texts))
            if mine and 'live' in mine.states:
                mine.states['text'] = ' '.join(text.split())
            return text
        walk(nodes[0])
        return told

    def png(self):
        size = self.ask('Page.getLayoutMetrics')['cssContentSize']
        clip = {'x': 0, 'y': 0, 'width': size['width'], 'height': min(size['height'], 6000), 'scale': 1}
        return self.ask('Page.captureScreenshot', format='png', captureBeyondViewport=True, clip=clip)['data']

    def pdf(self):
        return self.ask('Page.printToPDF', paperWidth=8.27, paperHeight=11.69, preferCSSPageSize=True)['data']


def read_node(node):
    value = {name: node.get(name, {}).get('value', '') for name in ('role', 'name', 'description')}
    states = {one['name']: one['value'].get('value') for one in node.get('properties', [])}
    return Node(ROLES.get(value['role'], value['role']), value['name'], value['description'], states)
