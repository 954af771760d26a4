"""Desks for tests: one that runs, a client that was let in, and a real browser that is driven."""

from __future__ import annotations

import http.cookiejar
import os
import re
import shutil
import signal
import subprocess
import time
import urllib.error
import urllib.parse
import urllib.request
from collections.abc import Callable, Iterator
from contextlib import contextmanager
from dataclasses import dataclass
from html import unescape
from pathlib import Path
from typing import Any

import pytest

from mcf import Program

ROOT = Path(__file__).resolve().parents[2]
DESK = ROOT / "tools/desk"
EXAMPLES = ROOT / "examples"


class Open(urllib.request.HTTPErrorProcessor):
    """Hands out every answer, whatever its status."""

    def http_response(self, request: Any, response: Any) -> Any:
        """The answer."""
        return response if response.status != 303 else super().http_response(request, response)


@dataclass
class Running:
    """A desk that runs, and a client with its own cookies."""

    process: subprocess.Popen[str]
    address: str
    port: int

    def __post_init__(self) -> None:
        """A client that has no cookie yet."""
        self.client = urllib.request.build_opener(urllib.request.HTTPCookieProcessor(http.cookiejar.CookieJar()), Open)

    @property
    def base(self) -> str:
        """The address without a token."""
        return f"http://127.0.0.1:{self.port}"

    def enter(self) -> str:
        """Lets the client in; the page."""
        return self.get(self.address)[1]

    def get(self, path: str, **headers: str) -> tuple[int, str]:
        """Status and text of an address."""
        url = path if path.startswith("http") else self.base + path
        with self.client.open(urllib.request.Request(url, headers=headers), timeout=120) as answer:
            return answer.status, answer.read().decode("latin-1" if "/out/" in url else "utf-8")

    def post(self, path: str, **fields: object) -> tuple[int, str]:
        """Status and text of a change."""
        data = urllib.parse.urlencode(fields).encode()
        with self.client.open(urllib.request.Request(self.base + path, data, {"Origin": self.base}), timeout=120) as answer:
            return answer.status, answer.read().decode()

    def news(self) -> str:
        """All fragments, as they are now."""
        return self.get("/news?seen=0")[1]

    def done(self) -> str:
        """All fragments, once nothing is under way any more."""
        wait(lambda: "<progress" not in self.news())
        return self.news()

    def bounds(self) -> list[str]:
        """Both bounds as they are shown: decimals and fractions."""
        wait(lambda: "asked for" not in part(self.news(), "bounds"))
        return shown(self.news())

    def end(self, number: signal.Signals = signal.SIGTERM) -> tuple[int, str]:
        """Ends the desk; its status and what it told."""
        if self.process.poll() is None:
            self.process.send_signal(number)
        _, told = self.process.communicate(timeout=60)
        return self.process.returncode, told


def shown(text: str) -> list[str]:
    """The bounds of a page: lower and upper, decimals and fractions."""
    names = ("lower", "lower-exact", "upper", "upper-exact")
    return [found[1] if (found := re.search(rf'id="{name}">([^<]*)<', text)) else "" for name in names]


def as_shown(line: str) -> list[str]:
    """The bounds of the program's line, as a page has them."""
    found = re.search(r"lower (\S+) (\S+) upper (\S+) (\S+)$", line)
    assert found is not None, line
    return [found[2], found[1], found[4], found[3]]


def part(text: str, name: str) -> str:
    """The words of a fragment, without its tags."""
    parts = "map|bounds|edits|job|link|certificates|failures|doublings|routes|growth|out|changes"
    found = re.search(rf'<div id="{name}"[^>]*>(.*?)(?=<div id="(?:{parts})"|$)', text, re.DOTALL)
    return " ".join(unescape(re.sub(r"<[^>]*>", " ", found[1])).split()) if found else ""


def wait(ready: Callable[[], bool], seconds: float = 120.0) -> None:
    """Waits until something holds."""
    end = time.monotonic() + seconds
    while not ready():
        assert time.monotonic() < end, "it took too long"
        time.sleep(0.05)


@contextmanager
def desk(program: str | Program, *words: str | Path) -> Iterator[Running]:
    """A desk that ends with the block."""
    path = program if isinstance(program, str) else program.path
    command = [DESK, *map(str, words), "--no-browser", "--mcf", path]
    process = subprocess.Popen(command, stdout=subprocess.PIPE, stderr=subprocess.PIPE, text=True)
    assert process.stdout is not None
    first = process.stdout.readline()
    if not first:
        pytest.fail(process.communicate(timeout=60)[1])
    address = first.split()[1]
    running = Running(process, address, urllib.parse.urlsplit(address).port or 0)
    try:
        yield running
    finally:
        running.end(signal.SIGKILL)


def refused(program: Program, *words: str | Path) -> tuple[int, str, str]:
    """Status and both outputs of a desk that does not begin."""
    command = [DESK, *map(str, words), "--no-browser", "--mcf", program.path]
    done = subprocess.run(command, capture_output=True, text=True, check=False, timeout=60)
    return done.returncode, done.stdout, done.stderr


def descendants(process: int) -> set[int]:
    """The processes that a process has started, and those that these have started."""
    parents = {}
    for file in Path("/proc").glob("[0-9]*/stat"):
        try:
            parents[int(file.parent.name)] = int(file.read_text().rpartition(")")[2].split()[1])
        except (OSError, IndexError):
            continue
    found: set[int] = set()
    while more := {child for child, parent in parents.items() if (parent == process or parent in found) and child not in found}:
        found |= more
    return found


def alive(processes: set[int]) -> set[int]:
    """Those that run still; a zombie does not."""
    return {one for one in processes if (state := _state(one)) and state != "Z"}


def _state(process: int) -> str:
    """The state of a process, or nothing."""
    try:
        return Path(f"/proc/{process}/stat").read_text().rpartition(")")[2].split()[0]
    except OSError:
        return ""


@contextmanager
def browser(width: int = 1280, height: int = 1000, *words: str) -> Iterator[Any]:
    """A driven Chromium, headless; tests are skipped where it or its driver is missing."""
    webdriver = pytest.importorskip("selenium.webdriver", reason="python3-selenium is missing: tools/setup --tests")
    from selenium.webdriver.chrome.service import Service

    chromium, driver = shutil.which("chromium"), shutil.which("chromedriver")
    if not chromium or not driver:
        pytest.skip("chromium or chromium-driver is missing: tools/setup --tests")
    options = webdriver.ChromeOptions()
    options.binary_location = chromium
    root = ["--no-sandbox"] if os.getuid() == 0 else []
    for word in ("--headless=new", *root, "--disable-gpu", "--disable-dev-shm-usage", f"--window-size={width},{height}", *words):
        options.add_argument(word)
    options.set_capability("goog:loggingPrefs", {"browser": "ALL"})
    driven = webdriver.Chrome(options=options, service=Service(driver))
    try:
        yield driven
    finally:
        driven.quit()
