"""A desk in a real browser: a planner's clicks, the questions of docs/planner/hour.md, the keyboard, a phone, and the guide's pictures."""

from __future__ import annotations

import os
import re
import subprocess
from collections.abc import Iterator
from pathlib import Path
from typing import Any

import pytest

from desks import EXAMPLES, ROOT, Running, as_shown, browser, desk, wait
from mcf import Program
from views import CONTRAST, View

HOUR = (ROOT / "docs/planner/hour.md").read_text("utf-8")
# the elements of a selector that are to be seen, also by who reads with a screen reader
THERE = """return [...document.querySelectorAll(arguments[0])].filter((e) =>
  e.checkVisibility() && (e.tagName === 'SUMMARY' || !e.closest('details:not([open])')))"""


def ran(program: Program, room: Path, line: str) -> str:
    """What a line of a shell writes, in a folder, where mcf is the program."""
    (room / "bin").mkdir(exist_ok=True)
    if not (room / "bin/mcf").exists():
        (room / "bin/mcf").symlink_to(program.path)
        (room / "tools").symlink_to(ROOT / "tools")
    environment = {**os.environ, "PATH": f"{room / 'bin'}:{os.environ['PATH']}", "MCF": program.path, "LC_ALL": "C.UTF-8"}
    done = subprocess.run(["bash", "-c", line], cwd=room, env=environment, capture_output=True, text=True, check=False)
    return done.stdout


@pytest.fixture(scope="module")
def room(program: Program, tmp_path_factory: pytest.TempPathFactory) -> Path:
    """A folder with the network of the hour and its certificate, and all downloads."""
    made = tmp_path_factory.mktemp("alps")
    source = f"{EXAMPLES / 'alps.graphml'} {EXAMPLES / 'alps.csv'}"
    ran(program, made, f"tools/convert {source} alps.net --unit Gbit --from-unit Gbit --capacity-default 10G")
    ran(program, made, "mcf solve alps.net --workers 1 > alps.cert")
    return made


@pytest.fixture(scope="module")
def driver(room: Path) -> Iterator[Any]:
    """A browser whose downloads come into the folder."""
    with browser(1100, 1000) as driven:
        driven.execute_cdp_cmd("Browser.setDownloadBehavior", {"behavior": "allow", "downloadPath": str(room)})
        yield driven


@pytest.fixture
def view(driver: Any, program: Program, room: Path, monkeypatch: pytest.MonkeyPatch) -> Iterator[View]:
    """A desk that was just opened."""
    monkeypatch.chdir(room)
    with desk(program, "alps.net", "alps.cert") as running:
        driver.get_log("browser")
        yield View(driver, running)
        driver.get("about:blank")
        told = [entry["message"] for entry in driver.get_log("browser") if entry["level"] == "SEVERE"]
        assert [line for line in told if "status of 400" not in line] == []


def bounds(view: View) -> list[str]:
    """Both bounds on the page: decimals and fractions."""
    return [view.text(name) for name in ("lower", "lower-exact", "upper", "upper-exact")]


def test_ten_clicks_from_the_map_to_a_script_that_whatif_accepts(view: View, program: Program, room: Path):
    view.choose("Milan-Verona").click("Double it").choose("Geneva-Milan").click("Close it").click("Undo").click("Do again")
    view.click('.links button[data-choose="0"]').type("#capacity", "33").click("Set it").click("Double it").click("The script of the edits")
    assert view.clicks == 10
    wait(lambda: (room / "alps-edits.script").exists())
    script = (room / "alps-edits.script").read_text()
    assert script.splitlines()[:2] == ["set Milan-Verona 200 show", "close Geneva-Milan show"] and script.count("show") == 4
    lines = ran(program, room, "mcf whatif alps.net alps.cert alps-edits.script").splitlines()
    assert bounds(view) == as_shown(lines[-1]) and lines[-1] in view.text("out")
    view.picture("out", view.text("out"))


def test_all_that_is_taken_away_is_judged_by_the_commands_beside_it(view: View, program: Program, room: Path):
    view.choose("Basel-Munich").click("Double it").type("[name=gap]", "0.01").click("form[data-post='/solve'] button").settled()
    view.choose("Milan-Verona").click("Close it")
    rows = view.driver.find_elements("css selector", "#out li")
    parts = [(row.find_element("tag name", "a"), row.find_elements("tag name", "pre")) for row in rows]
    kinds = [(*part, row.find_elements("class name", "line")) for part, row in zip(parts, rows)]
    assert len(kinds) == 6
    for link, _, _ in kinds:
        view.driver.execute_script("arguments[0].click()", link)
        name = str(link.get_attribute("download"))
        wait(lambda: (room / name).exists())
    ran(program, room, "cp alps.cert alps-given.cert")
    for link, commands, says in kinds:
        file = room / str(link.get_attribute("download"))
        written = file.read_bytes()
        told = ran(program, room, commands[0].text)
        assert told and (not says or told.splitlines()[-1] == says[0].text)
        assert file.read_bytes() == written


def test_each_question_of_the_hour_is_answered_by_five_clicks(view: View, program: Program, room: Path):
    assert as_shown(re.findall(r"^valid closed .*$", HOUR, re.M)[0]) == bounds(view) and "115.7 % to 121.5 %" in view.text("verdict")
    first = [row.find_element("tag name", "bdi").text for row in view.driver.find_elements("css selector", ".links li")[:3]]
    assert first == re.findall(r"^([\w.-]+),40\.0", HOUR, re.M)
    view.picture("map", view.text("bounds", "edits"))
    asked: list[tuple[str, list[str]]] = []

    def answered(name: str, *sentences: str) -> None:
        """Notes how many clicks a question took, and requires what the hour says."""
        assert view.clicks <= 5, name
        view.clicks = 0
        words = view.driver.find_element("tag name", "main").text.replace("\xa0", " ")
        asked.append((name, [sentence for sentence in sentences if sentence not in " ".join(words.split())]))

    view.click("Find what they carry").settled()
    best = "The best carries 1.157243 of every demand and no routing more than 1.214794"
    answered("routes", "feasible undirected largest 1600/2244 0.713012", best)
    view.click("Show failures on the map").click("Solve each failure").settled()
    answered("failures", re.findall(r"^Not all demands fit after .*$", HOUR, re.M)[0])
    view.driver.execute_script("window.scrollTo(0, document.getElementById('map').offsetTop - 260)")
    view.picture("failures", view.text("failures-say"))
    view.click("Double each link, exactly").settled()
    answered("doubling", re.findall(r"^The link most worth doubling is Basel-Munich .*$", HOUR, re.M)[0])
    answered("growth", *re.findall(r"^With all demands times .*$", HOUR, re.M)[:2])
    view.click(f'.links button[data-choose="{link(view, "Basel-Munich")}"]').click("Double it")
    view.click("form[data-post='/solve'] button").settled()
    answered("before and after", "133.0 % to 139.6 % of every demand", "Without edits, by the certificate given: 1.157243 to 1.214794",
             *re.findall(r"^With all demands times .*$", HOUR, re.M)[2:4])
    view.driver.execute_script("window.scrollTo(0, 0)")
    view.picture("after", view.text("bounds", "edits"))
    view.click("Undo").select("[name=kind]", "tools/certify (the optimum, or nearly)").type("[name=gap]", "0.000001")
    view.click("form[data-post='/solve'] button").settled()
    answered("the best of all", "117.3 % to 117.4 % of every demand")
    assert [name for name, lacks in asked if lacks] == [], asked


def link(view: View, name: str) -> int:
    """The number of a link."""
    return int(view.find(f'svg [aria-label^="{name}"]').get_attribute("data-link"))


def test_another_tab_shows_the_same_and_the_last_edit_wins(view: View):
    driver, first = view.driver, view.driver.current_window_handle
    driver.switch_to.new_window("tab")
    try:
        driver.get(f"{view.running.base}/")
        view.choose("Milan-Verona").click("Close it")
        closed = bounds(view)
        driver.switch_to.window(first)
        wait(lambda: bounds(view) == closed)
        view.click("Undo")
        assert view.text("edits").startswith("No edits")
    finally:
        if len(driver.window_handles) > 1:
            driver.switch_to.window(next(one for one in driver.window_handles if one != first))
            driver.close()
        driver.switch_to.window(first)


EDIT = 'return fetch("/edit", {method: "POST", body: new URLSearchParams({link: arguments[0], what: "double"})}).then((answer) => answer.status)'
"""An edit that the page knows nothing of, as of another tab."""


def test_a_click_on_a_page_that_is_behind_brings_all_of_it_up(view: View):
    before, milan = bounds(view), link(view, "Milan-Verona")
    # (a click before the page asks for news)
    click = 'document.querySelector("svg [data-link]").dispatchEvent(new MouseEvent("click", {bubbles: true}))'
    edit = EDIT.replace("=> answer.status)", f"=> {{ {click}; return answer.status; }})")
    assert view.driver.execute_script(edit, milan) == 200
    wait(lambda: view.text("edits").startswith("Milan-Verona") and bounds(view) != before)
    assert view.find("#link-title").get_attribute("data-link") == view.find("svg [data-link]").get_attribute("data-link")


def test_what_is_typed_stays_and_the_words_round_it_follow(view: View):
    milan = link(view, "Milan-Verona")
    view.choose("Milan-Verona").type("#capacity", "123")
    assert view.driver.execute_script(EDIT, milan) == 200
    wait(lambda: "capacity 200 (in the file 100)" in view.text("link"))
    field = view.find("#capacity")
    assert field.get_attribute("value") == "123" and field == view.driver.switch_to.active_element
    view.click("Set it")
    assert "capacity 123 (in the file 100)" in view.text("link")


def test_all_is_done_by_the_keyboard_and_has_a_name(view: View):
    from selenium.webdriver import ActionChains, Keys

    def press(key: str, times: int = 1) -> Any:
        """Presses a key, and what has the focus then."""
        ActionChains(view.driver).send_keys(*[key] * times).perform()
        return view.driver.switch_to.active_element

    assert press(Keys.TAB).text == "Skip to the bounds and edits"
    seen = [press(Keys.TAB) for _ in range(9)]
    button = press(Keys.TAB)
    assert button.aria_role == "button" and button.get_attribute("data-link") and len(seen) == 9
    name = button.accessible_name.partition(":")[0]
    press(Keys.SPACE)
    wait(lambda: view.driver.switch_to.active_element.get_attribute("id") == "link-title")
    assert view.text("link-title") == f"Link {name}" and press(Keys.TAB).text == "Close it"
    press(Keys.ENTER)
    wait(lambda: "closed" in view.text("edits"))
    assert view.driver.switch_to.active_element.get_attribute("id") == "do-close"
    wanted = "a, button, input:not([type=hidden]), select, summary, svg [role=button], section, nav, progress"
    names = [(one.get_attribute("outerHTML")[:80], one.accessible_name) for one in view.driver.execute_script(THERE, wanted)]
    assert len(names) > 60 and not [shown for shown, name in names if not name]
    assert view.find("#bounds").get_attribute("aria-live") == "polite" and view.find("html").get_attribute("lang") == "en"


@pytest.mark.parametrize("scheme", ["light", "dark"])
@pytest.mark.parametrize("width", [360, 1280])
def test_on_a_phone_and_on_a_screen_in_the_light_and_in_the_dark(view: View, width: int, scheme: str):
    driver = view.driver
    try:
        screen = {"width": width, "height": 740, "deviceScaleFactor": 1, "mobile": width < 500}
        driver.execute_cdp_cmd("Emulation.setDeviceMetricsOverride", screen)
        driver.execute_cdp_cmd("Emulation.setEmulatedMedia", {"features": [{"name": "prefers-color-scheme", "value": scheme}]})
        view.choose("Basel-Munich").click("Close it").click("Show failures on the map").click("Show utilisation on the map")
        assert driver.execute_script("return document.documentElement.scrollWidth") <= width
        assert driver.execute_script(CONTRAST, 4.5) == []
        back = driver.execute_script("return getComputedStyle(document.body).backgroundColor")
        assert (int(re.findall(r"\d+", back)[0]) < 60) == (scheme == "dark")
        if (width, scheme) == (360, "dark"):
            driver.execute_script("window.scrollTo(0, 0)")
            view.picture("phone", view.text("bounds"))
    finally:
        driver.execute_cdp_cmd("Emulation.clearDeviceMetricsOverride", {})
        driver.execute_cdp_cmd("Emulation.setEmulatedMedia", {"features": []})


def test_names_are_words_and_nothing_else(driver: Any, program: Program, tmp_path: Path):
    evil = ['"><script>window.hit=1</script>', "<img/src=x/onerror=window.hit=1>", "{{7*7}}'\"&amp;</g></svg>"]
    text = (EXAMPLES / "triangle.net").read_text()
    for word, bad in zip(("AB", "AC", "BC"), evil):
        text = text.replace(f"  {word} (", f"  {bad} (")
    file = tmp_path / "<b>evil.net"
    file.write_text(re.sub(r"\bA\b", "<i>A</i>", text))
    with desk(program, file) as running:
        view = View(driver, running)
        wait(lambda: bool(driver.find_elements("id", "lower")))
        view.settled().choose("<img/src=x/onerror=window.hit=1>").click("Double it")
        view.click("Name it").type("#name-1", evil[0]).click("Keep").click("Show failures on the map").type("[name=find]", evil[0])
        wait(lambda: len(driver.find_elements("css selector", ".links li")) == 1)
        made = "document.querySelectorAll('img, i:not(#edits i), header b').length"
        assert driver.execute_script(f"return [window.hit === undefined, document.scripts.length, {made}]") == [True, 1, 0]
        assert view.find("h1").text == "<b>evil" and evil[0] in view.text("edits") and evil[1] in view.text("link")
        assert evil[2] in view.text("failures") and "49" not in view.text("failures-say")
        assert not [entry for entry in driver.get_log("browser") if "Content Security" in entry["message"]]


def test_the_page_says_when_the_desk_has_ended(view: View):
    view.choose("Basel-Munich").running.end()
    view.find("#do-close").click()
    wait(lambda: view.text("message").startswith("The desk does not answer"))
    view.driver.get("about:blank")
    view.driver.get_log("browser")
