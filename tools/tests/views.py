"""A desk in a driven browser: clicks that are counted, what is shown, and pictures that say what they show."""

from __future__ import annotations

import os
import re
import struct
import zlib
from pathlib import Path
from typing import Any

from desks import ROOT, Running, wait

PICTURES = ROOT / "docs/planner"
_SAYS = b"Description"


class View:
    """A page of a desk: what is clicked, typed and read."""

    def __init__(self, driver: Any, running: Running) -> None:
        """Opens the first address."""
        self.driver, self.running, self.clicks = driver, running, 0
        driver.get(running.address)
        assert driver.current_url == f"{running.base}/"

    def find(self, where: str) -> Any:
        """An element by its selector, or by the words of a button or link."""
        if re.match(r"[A-Z]", where):
            return self.driver.find_element("xpath", f"//*[self::button or self::a or self::summary][normalize-space()=\"{where}\"]")
        return self.driver.find_element("css selector", where)

    def click(self, where: str) -> View:
        """Clicks, which is counted, and waits for what the desk answers."""
        before = self.told()
        asks = self._clicked(where) in ("button", "path")
        self.clicks += 1
        wait(lambda: not asks or self.told() != before, 60)
        return self

    def _clicked(self, where: str) -> str:
        """Clicks an element, which the page may just be making anew; its tag."""
        from selenium.common.exceptions import StaleElementReferenceException
        for _ in range(5):
            try:
                element = self.find(where)
                tag = str(element.tag_name)
                self.driver.execute_script("arguments[0].scrollIntoView({block: 'center'})", element)
                element.click()
                return tag
            except StaleElementReferenceException:
                continue
        raise AssertionError(f"{where} is made anew all the time")

    def told(self) -> str:
        """What a click changes: the revision, the link that is chosen, and the line that says what was refused."""
        return str(self.driver.execute_script(
            "const by = (id) => document.getElementById(id);"
            "return [document.body.dataset.revision, by('link').innerText, by('message').innerText, by('map').dataset.map].join('|')"))

    def choose(self, link: str) -> View:
        """Clicks a link on the map."""
        return self.click(f'svg [aria-label^="{link}: "] .line')

    def select(self, where: str, words: str) -> View:
        """Chooses from a list, which counts as two clicks."""
        from selenium.webdriver.support.ui import Select
        Select(self.find(where)).select_by_visible_text(words)
        self.clicks += 2
        return self

    def type(self, where: str, text: str) -> View:
        """Types into a field in place of what it has."""
        element = self.find(where)
        element.clear()
        element.send_keys(text)
        return self

    def text(self, *names: str) -> str:
        """What is to be read in parts of the page."""
        read = "return arguments[0].map((name) => document.getElementById(name)?.innerText ?? '').join(' ')"
        return " ".join(self.driver.execute_script(read, names).split())

    def settled(self) -> View:
        """Waits until nothing is under way, and the page says so."""
        wait(lambda: not self.driver.find_elements("id", "stop") and "asked for" not in self.text("bounds"))
        return self

    def picture(self, name: str, says: str) -> None:
        """A picture of what is to be seen now: that of the documents says the same, or is written where MCF_PICTURES asks for it."""
        file = PICTURES / f"desk-{name}.png"
        if os.environ.get("MCF_PICTURES"):
            file.write_bytes(_saying(self.driver.get_screenshot_as_png(), says))
        assert said(file) == says


def _saying(picture: bytes, says: str) -> bytes:
    """A picture with what it shows in words."""
    chunk = b"iTXt" + _SAYS + b"\0\0\0\0\0" + says.encode()
    end = picture.index(b"IEND") - 4
    return picture[:end] + struct.pack(">I", len(chunk) - 4) + chunk + struct.pack(">I", zlib.crc32(chunk)) + picture[end:]


def said(file: Path) -> str:
    """What a picture shows, in words."""
    data = file.read_bytes()
    at = data.index(b"iTXt" + _SAYS)
    size = struct.unpack(">I", data[at - 4 : at])[0]
    return data[at + 4 : at + 4 + size].removeprefix(_SAYS + b"\0\0\0\0\0").decode()


# The contrast of all text that is to be seen with what is behind it, by the rule of WCAG 2: the texts below a ratio.
CONTRAST = """
const light = (c) => { const [r, g, b] = c.map((v) => { v /= 255; return v <= 0.03928 ? v / 12.92 : ((v + 0.055) / 1.055) ** 2.4; });
  return 0.2126 * r + 0.7152 * g + 0.0722 * b; };
const of = (text) => text.match(/[\\d.]+/g).map(Number);
const behind = (e) => {
  for (; e; e = e.parentElement) {
    const c = of(getComputedStyle(e).backgroundColor);
    if (c.length < 4 || c[3] > 0) return c.slice(0, 3);
  }
  return [255, 255, 255];
};
const low = [];
for (const e of document.querySelectorAll("body *")) {
  const own = [...e.childNodes].some((n) => n.nodeType === 3 && n.textContent.trim());
  if (!own || e.closest("title, noscript, script, [hidden]") || !e.getClientRects().length) continue;
  const style = getComputedStyle(e), front = of(e.namespaceURI.endsWith("svg") ? style.fill : style.color).slice(0, 3);
  const [a, b] = [light(front), light(behind(e))];
  const ratio = (Math.max(a, b) + 0.05) / (Math.min(a, b) + 0.05);
  if (ratio < arguments[0]) low.push(`${e.tagName} ${e.textContent.trim().slice(0, 40)} ${ratio.toFixed(2)}`);
}
return low;
"""
