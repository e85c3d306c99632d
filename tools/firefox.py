"""Debian's firefox-esr without a window, for tools/page-tries: by Marionette, which it speaks over a socket."""
import contextlib
import json
import os
import socket
import subprocess
import time

from browser import MOST_WAIT, ZOOM, ZOOMED, Node, Page
from station_room import Wrong, wait_until, want

PREFERENCES = {
    'marionette.port': 0,
    # None of the names of sites is anybody's. They are all this machine.
    'network.dns.forceResolve': '127.0.0.1',
    'network.proxy.type': 0,
    'network.captive-portal-service.enabled': False,
    'network.connectivity-service.enabled': False,
    'network.auth.confirmAuth.enabled': False,
    # Who loads an answer to a form again is not asked.
    'dom.confirm_repost.testing.always_accept': True,
    'app.update.disabledForTesting': True,
    'browser.shell.checkDefaultBrowser': False,
    'browser.startup.page': 0,
    'browser.tabs.inTitlebar': 0,
    # Few processes, and none beforehand.
    'dom.ipc.processPrelaunch.enabled': False,
    'datareporting.policy.dataSubmissionEnabled': False,
    'toolkit.telemetry.reportingpolicy.firstRun': False,
    'widget.non-native-theme.enabled': True,
}
# The window has to hold the widest page.
WINDOW = {'MOZ_HEADLESS': '1', 'MOZ_HEADLESS_WIDTH': '1700', 'MOZ_HEADLESS_HEIGHT': '1300', 'MOZ_CRASHREPORTER_DISABLE': '1'}
KEYS = {'Tab': '\ue004', 'Enter': '\ue007', ' ': ' ', 'ArrowUp': '\ue013', 'ArrowDown': '\ue015'}
SHIFT = '\ue008'
# How it says that a page went while it was asked.
WENT = ('Document was unloaded', 'destroyed before query', 'no such window', 'NoSuchWindowError', 'AbortError')

EVALUATE = '''const told = arguments[arguments.length - 1];
(async () => (%s
))().then(
  (value) => { let text = null; try { text = JSON.stringify(value) ?? null; } catch (fault) { } told(['value', text]); },
  (fault) => told(['fault', String(fault)]));'''

# Keeps what each dialog says, and sends each tab's further fields.
WATCH = '''window.dialogsTold = [];
window.fieldsSent = new Map();
Services.obs.addObserver((dialog) => window.dialogsTold.push(String(dialog.Dialog?.args?.text)), 'common-dialog-loaded');
Services.obs.addObserver((asked) => {
  const to = asked.QueryInterface(Ci.nsIHttpChannel).loadInfo;
  const fields = window.fieldsSent.get((to?.frameBrowsingContext ?? to?.browsingContext)?.top.browserId) ?? {};
  for (const [name, value] of Object.entries(fields)) asked.setRequestHeader(name, value, false);
}, 'http-on-modify-request');'''

TREE = '''const service = Cc['@mozilla.org/accessibilityService;1'].getService(Ci.nsIAccessibilityService);
const NAMES = ['checked', 'pressed', 'focused', 'expanded', 'collapsed', 'unavailable', 'invalid', 'required'];
const STATES = Object.fromEntries(NAMES.map((name) => [name, Ci.nsIAccessibleStates['STATE_' + name.toUpperCase()]]));
const told = [];
const walk = (it) => {
  const bits = {}, high = {};
  it.getState(bits, high);
  const states = Object.fromEntries(Object.entries(STATES).filter(([, bit]) => bits.value & bit).map(([name]) => [name, true]));
  try { const live = it.attributes?.getStringProperty('live'); if (live) states.live = live; } catch (fault) { }
  const role = it.computedARIARole || service.getStringRole(it.role);
  told.push([role, it.name ?? '', it.description ?? '', states]);
  const texts = [];
  for (let child = it.firstChild; child; child = child.nextSibling) texts.push(walk(child));
  const text = role === 'text leaf' ? it.name ?? '' : texts.filter((part) => part).join(' ');
  if (states.live) states.text = text.split(/\\s+/).filter((part) => part).join(' ');
  return text;
};
const whole = service.getAccessibleFor(browser);
const top = whole?.firstChild;
if (top) walk(top);
return told;'''

# Roles that ARIA has no word for.
ROLES = {'summary': 'disclosure', 'password text': 'textbox'}


class Firefox:
    """A run of it up to the end of the block, with its files in a folder."""

    name = 'firefox'

    def __init__(self, folder):
        self.folder, self.count, self.unread, self.here = folder, 0, b'', None

    def __enter__(self):
        profile = f'{self.folder}/profile'
        os.mkdir(profile)
        with open(f'{profile}/user.js', 'w', encoding='utf-8') as file:
            file.writelines(f'user_pref({json.dumps(name)}, {json.dumps(value)});\n' for name, value in PREFERENCES.items())
        words = ['firefox-esr', '--headless', '--no-remote', '--marionette', '--remote-allow-system-access', '--profile', profile]
        self.process = subprocess.Popen(words, stdin=subprocess.DEVNULL, stdout=subprocess.DEVNULL, stderr=subprocess.DEVNULL,
                                        env={**os.environ, **WINDOW, 'HOME': self.folder})
        try:
            wait_until(lambda: self.process.poll() is not None or port_in(profile), MOST_WAIT, 'firefox')
            want(self.process.poll() is None, 'firefox ended')
            self.stream = socket.create_connection(('127.0.0.1', port_in(profile)), MOST_WAIT)
            self.read()
            self.told = self.ask('WebDriver:NewSession', acceptInsecureCerts=True, unhandledPromptBehavior='accept')['capabilities']
            self.first = self.here = self.ask('WebDriver:GetWindowHandle')['value']
            self.chrome(WATCH)
        except BaseException:
            self.__exit__()
            raise
        return self

    def __exit__(self, *_):
        self.process.kill()
        self.process.wait()
        with contextlib.suppress(AttributeError):
            self.stream.close()

    def ask(self, command, **words):
        """What it answers."""
        self.count += 1
        text = json.dumps([0, self.count, command, words])
        self.stream.sendall(f'{len(text.encode())}:{text}'.encode())
        while True:
            _, number, fault, value = self.read()
            if number == self.count:
                break
        want(fault is None, f'{command}: {fault and (fault.get("error"), fault.get("message"), fault.get("data"))}')
        return value

    def read(self):
        while b':' not in self.unread:
            self.more()
        size, _, self.unread = self.unread.partition(b':')
        while len(self.unread) < int(size):
            self.more()
        text, self.unread = self.unread[:int(size)], self.unread[int(size):]
        return json.loads(text)

    def more(self):
        try:
            more = self.stream.recv(1 << 20)
        except TimeoutError as late:
            raise Wrong('firefox did not answer') from late
        want(more, 'firefox ended')
        self.unread += more

    def chrome(self, script, *words):
        """What a script of the browser's own gives."""
        self.ask('Marionette:SetContext', value='chrome')
        try:
            return self.ask('WebDriver:ExecuteScript', script=script, args=list(words), sandbox='system')['value']
        finally:
            self.ask('Marionette:SetContext', value='content')

    def version(self):
        return f'{self.told["browserName"]}/{self.told["browserVersion"]}'

    def enter(self, handle, focus=False):
        if focus or self.here != handle:
            self.ask('WebDriver:SwitchToWindow', handle=handle, focus=focus)
            self.here = handle

    def page(self, width=1200, height=900):
        self.enter(self.first)
        handle = self.ask('WebDriver:NewWindow', type='tab')['handle']
        self.enter(handle, focus=True)
        return FirefoxPage(self, handle, width, height)


def port_in(profile):
    with contextlib.suppress(OSError, ValueError):
        with open(f'{profile}/MarionetteActivePort', encoding='utf-8') as file:
            return int(file.read())
    return None


class FirefoxPage(Page):
    """A page of it, a tab of its one window. `run` works also where no script of a page does."""

    def __init__(self, browser, handle, width, height):
        self.browser, self.handle, self.is_forced, self.larger = browser, handle, False, 1
        told = browser.chrome('return [gBrowser.selectedBrowser.browserId, Date.now(), window.dialogsTold.length];')
        self.tab, self.since, self.dialogs = told
        self.resize(width, height)

    def close(self):
        if self.is_forced:
            self.force_colours(None)
        if self.larger != 1:
            self.write_larger(1)
        self.browser.enter(self.handle)
        self.browser.ask('WebDriver:CloseWindow')
        self.browser.here = None
        self.browser.enter(self.browser.first)

    def ask(self, command, **words):
        self.browser.enter(self.handle)
        return self.browser.ask(command, **words)

    def chrome(self, script, *words):
        """What a script of the browser's own gives, of this tab."""
        self.browser.enter(self.handle)
        find = f'const browser = [...gBrowser.browsers].find((one) => one.browserId === {self.tab});\n'
        return self.browser.chrome(find + script, *words)

    # ---- how it looks

    def resize(self, width, height=900):
        self.chrome('''browser.fullZoom = 1;
            for (const [name, size] of [['width', arguments[0]], ['height', arguments[1]]])
              for (const front of ['', 'min-', 'max-']) browser.style.setProperty(front + name, size + 'px', 'important');''',
                    width, height)
        wait_until(lambda: self.run('[innerWidth, innerHeight]') == [width, height], 20, f'{width} by {height}')

    def zoom(self):
        """As by control and plus."""
        self.resize(ZOOM * ZOOMED[0], ZOOM * ZOOMED[1])
        self.chrome('browser.fullZoom = arguments[0];', ZOOM)
        wait_until(lambda: self.run('[innerWidth, innerHeight]') == list(ZOOMED), 20, 'the zoom')

    def write_larger(self, by):
        """The letters alone, as who sets a larger font in the browser."""
        self.larger = by
        self.chrome('''for (const [name, size] of [['variable', 16], ['monospace', 13]])
            Services.prefs.setIntPref('font.size.' + name + '.x-western', Math.round(size * arguments[0]));''', by)
        self.ask('WebDriver:Refresh')
        size = 'parseFloat(getComputedStyle(document.documentElement).fontSize)'
        wait_until(lambda: self.run(size) == 16 * by, 20, 'the letters')

    def be(self, look):
        """Light or dark."""
        self.chrome('browser.browsingContext.prefersColorSchemeOverride = arguments[0];', look)
        wait_until(lambda: self.run(f'matchMedia("(prefers-color-scheme: {look})").matches'), 20, look)

    def be_in(self, zone):
        """A zone of time, by its name."""
        self.chrome('browser.browsingContext.timezoneOverride = arguments[0];', zone)

    def force_colours(self, look):
        """Black on white, or white on black, as who sets colours of their own in place of the pages'. With none the pages'."""
        self.is_forced = look is not None
        colours = ['#ffffff', '#000000', '#ffff00'] if look == 'dark' else ['#000000', '#ffffff', '#0000ee']
        self.chrome('''Services.prefs.setIntPref('browser.display.document_color_use', arguments[0] ? 2 : 0);
            Services.prefs.setBoolPref('browser.display.use_system_colors', false);
            const names = ['display.foreground', 'display.background', 'anchor', 'visited', 'active'];
            for (const end of ['', '.dark']) names.forEach((name, place) =>
              Services.prefs.setCharPref('browser.' + name + '_color' + end, arguments[1][Math.min(place, 2)]));
            browser.browsingContext.prefersColorSchemeOverride = arguments[0] ?? 'none';''', look, colours)
        wait_until(lambda: self.run('matchMedia("(forced-colors: active)").matches') == self.is_forced, 20, 'the colours')

    def allow_scripts(self, allowed):
        self.chrome('browser.browsingContext.allowJavascript = arguments[0];', allowed)

    def send_also(self, **fields):
        """Further fields of each request, as of a proxy."""
        self.chrome('window.fieldsSent.set(browser.browserId, arguments[0]);', fields)

    def front(self):
        self.browser.enter(self.handle, focus=True)

    # ---- what it is asked

    def run(self, script):
        """The value of an expression, for which it is waited."""
        words = {'script': EVALUATE % script, 'args': [], 'scriptTimeout': 1000 * MOST_WAIT, 'sandbox': None}
        told = self.ask('WebDriver:ExecuteAsyncScript', **words)['value']
        want(told, WENT[0])
        want(told[0] == 'value', f'{script[:200]}: {told[1]}')
        return None if told[1] is None else json.loads(told[1])

    @property
    def alerts(self):
        return self.chrome('return window.dialogsTold.slice(arguments[0]);', self.dialogs)

    @property
    def blocked(self):
        """What its console has of faults of scripts and of the page's policy, since there is this page."""
        return self.chrome('''return Services.console.getMessageArray().filter((one) => one instanceof Ci.nsIScriptError)
            .filter((one) => one.timeStamp >= arguments[0]
              && (/Content.Security.Policy|X-Frame/.test(one.errorMessage) || (one.category === 'content javascript' && !(one.flags & 1))))
            .map((one) => one.category + ': ' + one.errorMessage);''', self.since)

    def stamp(self):
        """Which document is there, once it is whole."""
        try:
            return self.run('document.readyState === "complete" ? [performance.timeOrigin, location.href] : null')
        except Wrong as fault:
            if any(word in str(fault) for word in WENT):
                return None
            raise

    def wait_for_load(self, does):
        """Does something that leads to another page, and waits until that is there."""
        before = self.stamp()
        does()
        wait_until(lambda: self.stamp() not in (before, None), MOST_WAIT, 'a page')

    def go(self, url):
        self.ask('WebDriver:Navigate', url=url)

    def reload(self):
        """Again, also where it answers a form."""
        self.wait_for_load(lambda: self.ask('WebDriver:Refresh'))

    def mouse(self, x, y):
        to = {'type': 'pointerMove', 'x': round(x), 'y': round(y), 'duration': 0, 'origin': 'viewport'}
        press = [{'type': kind, 'button': 0} for kind in ('pointerDown', 'pointerUp')]
        self.act('pointer', [to, *press], parameters={'pointerType': 'mouse'})

    def act(self, kind, acts, **more):
        self.ask('WebDriver:PerformActions', actions=[{'type': kind, 'id': kind, 'actions': acts, **more}])

    def type(self, text):
        self.act('key', [{'type': way, 'value': key} for key in text for way in ('keyDown', 'keyUp')])

    def choose(self, selector, path):
        """A file, for a field of one."""
        found = self.ask('WebDriver:FindElement', using='css selector', value=selector)['value']
        self.ask('WebDriver:ElementSendKeys', id=next(iter(found.values())), text=path)

    def press(self, key, shift=False):
        acts = [{'type': 'keyDown', 'value': KEYS[key]}, {'type': 'keyUp', 'value': KEYS[key]}]
        if shift:
            acts = [{'type': 'keyDown', 'value': SHIFT}, *acts, {'type': 'keyUp', 'value': SHIFT}]
        self.act('key', acts)

    # ---- what others are told of it

    def tree(self):
        """What a reader of a screen is told of the page, in its order."""
        end = time.monotonic() + 20
        while True:
            told = [Node(ROLES.get(role, role), *more) for role, *more in self.chrome(TREE)]
            # It is built once it is asked for.
            if len(told) > 3 or time.monotonic() > end:
                return told
            time.sleep(0.1)

    def png(self):
        return self.ask('WebDriver:TakeScreenshot', full=True, hash=False)['value']

    def pdf(self):
        return self.ask('WebDriver:Print', page={'width': 21.0, 'height': 29.7}, shrinkToFit=True, background=False)['value']
