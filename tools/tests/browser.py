"""Pages in a real browser, headless: what a page is like in a frame of a given width."""

from __future__ import annotations

import json
import os
import re
import shutil
import subprocess
from html import unescape
from pathlib import Path
from typing import Any

import pytest

MEASURE = """
<!DOCTYPE html><meta charset="utf-8"><body style="margin:0"><pre id="out">no answer</pre><script>
const page = PAGE, width = WIDTH, start = performance.now();
const frame = document.createElement("iframe");
frame.style = `border:0;width:${width}px;height:900px`;
frame.onload = () => {
  const doc = frame.contentDocument, root = doc.documentElement;
  const height = doc.body.getBoundingClientRect().height, seconds = (performance.now() - start) / 1000;
  const outside = [], lost = [];
  const name = e => e.tagName + ":" + (e.textContent || "").trim().slice(0, 40);
  for (const e of doc.querySelectorAll("body *")) {
    const r = e.getBoundingClientRect();
    if (r.width === 0 || e.closest(".wide table") || e.closest("svg title")) continue;
    if (r.left < -0.5 || r.right > width + 0.5) outside.push(name(e));
  }
  for (const svg of doc.querySelectorAll("svg")) {
    const box = svg.getBoundingClientRect();
    for (const e of svg.querySelectorAll("circle, text")) {
      const r = e.getBoundingClientRect();
      if (r.left < box.left - 1 || r.right > box.right + 1 || r.top < box.top - 1 || r.bottom > box.bottom + 1) lost.push(name(e));
    }
  }
  const strokes = {};
  for (const e of doc.querySelectorAll("svg path")) {
    const s = frame.contentWindow.getComputedStyle(e).stroke;
    strokes[s] = (strokes[s] || 0) + 1;
  }
  const svg = doc.querySelector("svg");
  document.getElementById("out").textContent = JSON.stringify({
    seconds, height, outside, lost, strokes,
    wide: root.scrollWidth, scripts: doc.scripts.length, text: doc.body.innerText,
    picture: svg ? [svg.getBoundingClientRect().width, svg.getBoundingClientRect().height] : [0, 0],
    circles: doc.querySelectorAll("svg circle").length, rows: doc.querySelectorAll("tr").length,
    hit: window.hit || frame.contentWindow.hit || false, title: doc.title,
  });
};
frame.srcdoc = page;
document.body.append(frame);
</script>
"""


def find_browser() -> str:
    """The browser; tests are skipped where there is none."""
    found = shutil.which("chromium") or shutil.which("chromium-browser")
    if not found:
        pytest.skip("chromium is missing: tools/setup --tests")
    return found


def run(words: list[str], room: Path) -> str:
    """What a headless run writes."""
    root = ["--no-sandbox"] if os.getuid() == 0 else []
    front = [
        find_browser(),
        "--headless",
        *root,
        "--disable-gpu",
        "--disable-dev-shm-usage",
        f"--user-data-dir={room / 'profile'}",
    ]
    done = subprocess.run([*front, *words], capture_output=True, timeout=120, check=False)
    return done.stdout.decode("utf-8", "replace")


def measured(page: str, width: int, room: Path) -> dict[str, Any]:
    """What a page is like in a frame of so many pixels."""
    text = json.dumps(page).replace("</", "<\\/")
    file = room / f"measure-{width}.html"
    file.write_text(MEASURE.replace("WIDTH", str(width)).replace("PAGE", text, 1), "utf-8")
    dom = run(["--window-size=1700,1000", "--timeout=60000", "--dump-dom", file.as_uri()], room)
    out = re.search(r'<pre id="out">(.*?)</pre>', dom, re.DOTALL)
    assert out and out.group(1) != "no answer", dom[:500]
    return json.loads(unescape(out.group(1)))
