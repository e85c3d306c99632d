"""A browser without a window, for tools/page-tries: what tries ask of a page, in Debian's chromium or firefox-esr."""
import base64
import json
from typing import Any, NamedTuple

from station_room import want

MOST_WAIT = 60
# Zoom as WCAG 2.2, 1.4.10 tries it: by four, in a window of 1280 by 1024.
ZOOM, ZOOMED = 4, (320, 256)


class Node(NamedTuple):
    """What a reader of a screen is told of a place: ARIA's word for its role, its name, what describes it, and its states.

    Of a place that is read aloud when it changes, the state `live` says how, and `text` what it says.
    """

    role: str
    name: str
    said: str
    states: dict[str, Any]


class Page:
    """A page, up to the end of the block.

    A browser has of its own: `run`, `go`, `reload`, `wait_for_load`, `press`, `mouse`, `type`, `choose`; `resize`, `zoom`,
    `write_larger`, `be`, `be_in`, `force_colours`, `allow_scripts`, `send_also`, `front`; `tree`, `png`, `pdf`; and the lists
    `alerts`, of dialogs, and `blocked`, of what the page's policy forbade and which faults its scripts had.
    """

    def __enter__(self):
        return self

    def __exit__(self, *_):
        self.close()

    def at(self) -> str:
        return self.run('location.pathname + location.search')

    def text(self, selector: str = 'body') -> str:
        return self.run(f'document.querySelector({json.dumps(selector)}).innerText')

    def texts(self, selector: str) -> list[str]:
        return self.run(f'[...document.querySelectorAll({json.dumps(selector)})].map(e => e.innerText)')

    def count(self, selector: str) -> int:
        return self.run(f'document.querySelectorAll({json.dumps(selector)}).length')

    def click(self, selector: str, text: str | None = None):
        """By the mouse, on the first of these that has the text."""
        found = self.run(f'''(() => {{ const e = [...document.querySelectorAll({json.dumps(selector)})]
            .find(e => {json.dumps(text)} === null || e.innerText.trim() === {json.dumps(text)});
            if (!e) return null; e.scrollIntoView({{block: 'center'}}); const r = e.getBoundingClientRect();
            return [r.x + r.width / 2, r.y + r.height / 2]; }})()''')
        want(found, f'there is no {selector} {text or ""} at {self.at()}')
        self.mouse(*found)

    def follow(self, selector: str, text: str | None = None):
        """Clicks, and waits for the page that this leads to."""
        self.wait_for_load(lambda: self.click(selector, text))

    def fill(self, selector: str, text: str):
        self.run(f'(e => {{ e.focus(); e.select(); }})(document.querySelector({json.dumps(selector)}))')
        self.type(text)

    def picture(self, path: str):
        """Of the whole page, as wide as the window."""
        with open(path, 'wb') as file:
            file.write(base64.b64decode(self.png()))

    def print(self, path: str):
        """As it comes out on A4."""
        with open(path, 'wb') as file:
            file.write(base64.b64decode(self.pdf()))
