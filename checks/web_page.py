"""The page in a browser: what checks/web puts into it and reads of it, and its screenshots."""

from __future__ import annotations

import base64
import json
import pathlib
import statistics
import subprocess
import tempfile
import time
from typing import Any, Iterator

from browsers import BROWSERS, Browser
from harness import ROOT, path_of

WIDE, NARROW = (1440, 1000), (390, 844)
OPENINGS, SETTLE = 5, 1


def native(words: list[str], given: bytes) -> tuple[str, str]:
    """What a program prints of an input: standard output, standard error."""
    program = path_of(words[0])
    with tempfile.NamedTemporaryFile() as file:
        file.write(given)
        file.flush()
        ran = subprocess.run([program, *(file.name if it == "FILE" else it for it in words[1:])], input=given, capture_output=True, check=False)
    return ran.stdout.decode(errors="replace"), ran.stderr.decode(errors="replace")


class Page:
    """The page in a browser, and what differed."""

    def __init__(self, browser: Browser, url: str) -> None:
        self.browser, self.url, self.answered, self.compared, self.faults, self.times = browser, url, "", 0, [], []

    def same(self, what: str, found: Any, wanted: Any) -> None:
        self.compared += 1
        if found != wanted:
            self.faults.append(f"{what}: {str(found)[:300]!r} and not {str(wanted)[:300]!r}")

    def answer(self) -> None:
        """Waits for the answers to what was just put in."""
        self.answered = self.browser.wait(f"document.documentElement.dataset.answered !== {json.dumps(self.answered)} && document.documentElement.dataset.answered")

    def open(self, fragment: str = "") -> None:
        self.browser.open("about:blank")
        self.browser.open(self.url + fragment)
        self.answered = ""
        self.browser.wait("document.documentElement.dataset.answered && document.documentElement.dataset.learned")
        self.answered = self.browser.run("return document.documentElement.dataset.answered")

    def choose(self, name: str) -> None:
        self.browser.run(f"const s = document.getElementById('example'); s.value = {json.dumps(name)}; s.onchange();")
        self.answer()

    def load(self, data: bytes, kind: str = "file") -> None:
        text = base64.b64encode(data).decode()
        self.browser.run(f"window.bendrika.load(Uint8Array.from(atob('{text}'), (c) => c.charCodeAt(0)), '{kind}')")
        self.answer()

    def type(self, text: str) -> float:
        """Types at the end of the editor. Returns the milliseconds that the page's script took."""
        return self.browser.run(f"const a = document.getElementById('text'); a.setRangeText({json.dumps(text)}, a.value.length, a.value.length, 'end');"
                                "const t = performance.now(); a.oninput(); return performance.now() - t;")


def first_answers(name: str, url: str) -> tuple[float, float]:
    """When the first report and the last of the first answers come, in milliseconds from the begin of opening the page. A new
    browser for each opening, since one that had the page may have kept its compiled modules."""
    times = []
    for _ in range(OPENINGS):
        browser = BROWSERS[name]()
        try:
            browser.size(*WIDE, False)
            time.sleep(SETTLE)
            page = Page(browser, url)
            page.open()
            times.append(browser.run("return ['first answer', 'first more'].map((it) => performance.getEntriesByName(it)[0].startTime)"))
        finally:
            browser.close()
    return statistics.median(it[0] for it in times), statistics.median(it[1] for it in times)


def situations(page: Page) -> Iterator[str]:
    """The five situations of the screenshots."""
    page.choose("torn_block")
    yield "report"
    page.load(b'[[board]]\nslot = 22\nbase = 2\nsize = 18\nscript = """\nr 09 00000000 1\nrx 09\nw 40 00000000 01\n"""\n')
    page.browser.run("document.querySelector('#findings button.code')?.click();")
    yield "findings"
    page.choose("first_cycles")
    page.browser.run("[...document.querySelectorAll('#answer .reply.bad')].pop()?.click();")
    yield "lines"
    page.choose("lost_update")
    page.browser.run("delete document.documentElement.dataset.listed; document.getElementById('tab-outcomes').click();")
    page.browser.wait("document.documentElement.dataset.listed")
    page.browser.run("document.querySelectorAll('#listing article button')[1].click(); document.getElementById('below').scrollIntoView();")
    page.browser.wait("!!document.querySelector('#listing .drawn').shadowRoot?.querySelector('svg')")
    yield "outcomes"
    page.browser.run("document.getElementById('tab-timing').click();")
    page.choose("pipeline")
    page.browser.run("document.getElementById('below').scrollIntoView();")
    yield "timing"


def shoot(name: str, page: Page, folder: pathlib.Path, is_dark: bool) -> None:
    for label, (width, height) in (("wide", WIDE), ("narrow", NARROW)):
        page.browser.size(width, height, is_dark)
        for situation in situations(page):
            time.sleep(0.6)
            (folder / f"{name}-{situation}-{'dark' if is_dark else 'light'}-{label}.png").write_bytes(page.browser.picture())
            page.browser.run("window.scrollTo(0, 0)")


def shots(name: str, url: str, folder: pathlib.Path) -> None:
    """Writes the screenshots of a browser."""
    folder.mkdir(parents=True, exist_ok=True)
    for is_dark in (False, True):
        browser = BROWSERS[name](is_dark)
        try:
            page = Page(browser, url)
            page.open()
            shoot(name, page, folder, is_dark)
        finally:
            browser.close()
