"""The explorer's page in a real browser: its flows by keyboard and mouse, at two widths, with checks of names and
contrast."""

from __future__ import annotations

import importlib.util
import json
import shutil
import subprocess
from collections.abc import Iterator
from pathlib import Path
from typing import Any

import pytest
from explored import LONGEST, Served, slow_program, wait_until

CHROMIUM, DRIVER = shutil.which("chromium"), shutil.which("chromedriver")
pytestmark = [pytest.mark.browser,
              pytest.mark.skipif(not (CHROMIUM and DRIVER), reason="there is no chromium with its driver"),
              pytest.mark.skipif(importlib.util.find_spec("selenium") is None, reason="there is no python3-selenium")]

ROOT = Path(__file__).resolve().parents[2]
EXAMPLE = ROOT / "examples" / "tick_size.toml"
WIDTHS = (1400, 700)


class Page:
    """A browser with the explorer's page. What is waited for is a condition of the page's own script, never a time."""

    def __init__(self, driver: Any) -> None:
        self.driver = driver

    def script(self, text: str, *words: Any) -> Any:
        """The value of an expression of the page."""
        return self.driver.execute_script(f"return ({text})", *words)

    def wait(self, text: str, *words: Any) -> None:
        """Waits until an expression of the page holds."""
        from selenium.common.exceptions import JavascriptException
        from selenium.webdriver.support.ui import WebDriverWait
        waiting = WebDriverWait(self.driver, LONGEST, 0.05, [JavascriptException])
        waiting.until(lambda driver: self.script(text, *words), text)

    def open(self, served: Served, place: str = "branch=root&event=4990") -> None:
        """Opens the page anew at a place, and waits until all of it is drawn."""
        self.driver.get("about:blank")
        self.driver.get_log("browser")      # what earlier pages complained of
        self.driver.get(f"{served.address}#{place}")
        self.drawn()

    def drawn(self) -> None:
        """Waits until the state, its causes and the pictures are there."""
        self.wait("document.querySelector('#what-body .words') && document.querySelector('#why *') && "
                  "document.querySelector('#plot .main-svg') && !document.getElementById('cursor').hidden")

    def keys(self, *keys: str) -> None:
        """Presses keys where the focus is."""
        from selenium.webdriver.common.action_chains import ActionChains
        ActionChains(self.driver).send_keys(*keys).perform()

    def retype(self, text: str) -> None:
        """Types over all that stands in the field with the focus."""
        from selenium.webdriver.common.action_chains import ActionChains
        from selenium.webdriver.common.keys import Keys
        ActionChains(self.driver).key_down(Keys.CONTROL).send_keys("a").key_up(Keys.CONTROL).send_keys(text).perform()
        self.wait("document.activeElement.value === arguments[0]", text)

    def free(self) -> None:
        """Takes the focus out of every field, so that keys are for the page."""
        self.script("document.activeElement.blur()")

    @property
    def event(self) -> int:
        """The event at the cursor, as the page's field says it."""
        return int(self.script("document.getElementById('event').value"))

    def at(self, event: int) -> None:
        """Waits until the cursor is at an event and its state is drawn."""
        self.wait("document.getElementById('event').value === arguments[0] && "
                  "document.getElementById('what-title').textContent.replaceAll(',', '')"
                  ".startsWith(arguments[0] === '0' ? 'The opening' : `Event ${arguments[0]} `)", str(event))

    def text(self, selector: str) -> str:
        """The text of an element."""
        return self.script("document.querySelector(arguments[0])?.textContent ?? ''", selector)

    def click(self, selector: str) -> None:
        """Clicks an element, once it is there."""
        self.wait("document.querySelector(arguments[0])", selector)
        self.script("document.querySelector(arguments[0]).click()", selector)

    def errors(self) -> list[str]:
        """What the page's script complained of."""
        return [entry["message"] for entry in self.driver.get_log("browser") if entry["level"] == "SEVERE"]


def started(folder: Path) -> Any:
    """A browser without a screen; a second try where the machine is too busy for the first."""
    from selenium import webdriver
    from selenium.common.exceptions import WebDriverException
    from selenium.webdriver.chrome.service import Service
    for attempt in range(3):
        options = webdriver.ChromeOptions()
        options.binary_location = CHROMIUM
        for word in ("--headless=new", "--no-sandbox", "--disable-gpu", "--disable-dev-shm-usage",
                     "--window-size=1400,1000",
                     f"--user-data-dir={folder / str(attempt)}", "--no-first-run", "--disable-extensions"):
            options.add_argument(word)
        options.set_capability("goog:loggingPrefs", {"browser": "ALL"})
        try:
            driver = webdriver.Chrome(service=Service(DRIVER), options=options)
        except WebDriverException:
            if attempt == 2:
                raise
            continue
        driver.set_script_timeout(LONGEST)
        return driver
    raise AssertionError


@pytest.fixture(scope="module")
def page(tmp_path_factory: pytest.TempPathFactory) -> Iterator[Page]:
    driver = started(tmp_path_factory.mktemp("browser"))
    try:
        yield Page(driver)
    finally:
        driver.quit()


@pytest.fixture
def served(program: str) -> Iterator[Served]:
    """An explorer of the example; its run comes from the cache from the second on."""
    with Served(EXAMPLE, program) as served:
        yield served


def test_what_the_page_shows_is_what_the_server_answers(page: Page, served: Served) -> None:
    """Ladder, agents, messages and rules as text, at several events."""
    page.open(served)
    for branch, event in (("root", 4990), ("wide", 5145), ("same", 0)):
        page.script("location.hash = arguments[0]", f"branch={branch}&event={event}&stock=0&agent=2")
        page.at(event)
        page.wait("document.getElementById('branch').value === arguments[0]", branch)
        state = served.ask("state", branch=branch, event=event, agent=2)
        page.wait("document.querySelector('#ladders caption')?.textContent.endsWith(arguments[0])", branch)
        page.wait("document.querySelector('#panel-trader h3')?.textContent === 'maker 2'")
        rows = page.script("[...document.querySelectorAll('#ladders tr.ask, #ladders tr.bid')]"
                           ".map(row => row.innerText.split('\\t'))")
        shown = [[cell.strip().replace(",", "") for cell in row[:3]] for row in rows]
        book = state["stocks"][0]
        price = [f"{level['price'] / 10000:.2f}" for level in (*book["asks"][::-1], *book["bids"])]
        assert [row[1] for row in shown] == price
        assert [row[2] for row in shown[:len(book["asks"])]] == [str(level["shown"]) for level in book["asks"][::-1]]
        assert page.text("#what-body .words") == state["what"]["words"]
        assert page.script("document.querySelectorAll('#panel-agents tbody tr').length") == len(state["agents"])
        assert page.script("document.querySelectorAll('#panel-waiting tbody tr').length") == len(state["waiting"])
        assert state["trader"]["cash"] in page.text("#panel-trader")
        assert f"./abides rewind study.toml {branch}:{event}" in page.text("#provenance")
    assert page.errors() == []


def test_keys_walk_through_the_events(page: Page, served: Served) -> None:
    from selenium.webdriver.common.keys import Keys
    page.open(served, "branch=wide&event=5000&stock=0&agent=5")
    page.free()
    view = served.explorer.run.views["wide"]
    steps = [(Keys.ARROW_RIGHT, 5001), (Keys.ARROW_LEFT, 5000), ("d", view.branch.first_difference), ("t", None),
             ("a", None), ("s", None),
             ("T", None), (Keys.HOME, 0), (Keys.END, view.count), ("S", None), ("A", None)]
    for key, event in steps:
        if event is None:
            kind = {"t": "trade", "a": "agent", "s": "stock"}[key.lower()]
            event = view.find(kind, page.event, key.islower(), {"agent": 5}.get(kind, 0))
        page.keys(key)
        page.at(event)
    assert page.errors() == []


def test_why_leads_from_a_trade_to_the_order_behind_it(page: Page, served: Served) -> None:
    page.open(served, "branch=wide&event=5145&stock=0&agent=1")
    chain = served.ask("why", branch="wide", event=5145)["causes"]
    page.wait("document.querySelectorAll('#why li').length === arguments[0]", len(chain))
    page.free()
    page.keys("w")
    page.at(chain[0]["event"])
    bid = next(row for row in served.ask("why", branch="wide", event=chain[0]["event"])["causes"] if row["link"]
               == "bid set by")
    page.wait("[...document.querySelectorAll('#why li')].some(item => item.textContent.includes('bid set by'))")
    page.script("[...document.querySelectorAll('#why li')].find(item => item.textContent.includes('bid set "
                "by')).querySelector('button').click()")
    page.at(bid["event"])


def test_five_minutes_by_keyboard_alone(page: Page, served: Served, program: str, tmp_path: Path) -> None:
    """A trade, its fork with another tick, the difference; and the study taken along gives the branch, byte for "
    "byte."""
    from selenium.webdriver.common.keys import Keys
    page.open(served, "branch=root&event=4990&stock=0&agent=1")
    page.free()
    page.keys("t")
    event = served.explorer.run.views["root"].find("trade", 4990, True)
    page.at(event)
    page.keys("f")
    page.wait("document.activeElement.name === 'name'")
    page.retype("wider")
    tabs = 0
    while page.script("document.activeElement.name") != "bands":
        page.keys(Keys.TAB)
        tabs += 1
        assert tabs < 20
    page.retype("0.00: 0.05")
    page.keys(Keys.ENTER)
    page.wait("document.getElementById('branch').value === 'wider'")
    page.wait("document.querySelector('#compare .differs')")
    study = served.ask("study")
    made = study["branches"][-1]
    assert (made["name"], made["fork"], made["edits"][0]["bands"]) == ("wider", event, [[0, 500]])
    page.at(made["difference"])
    assert "quoted spread" in page.text("#compare")
    taken = page.script("fetch(document.getElementById('take-study').href).then(answer => answer.text())")
    (tmp_path / "taken.toml").write_text(taken)
    bundle = subprocess.run([program, "run", "taken.toml"], cwd=tmp_path, check=True, capture_output=True).stdout
    assert bundle == served.take("bundle")
    page.free()
    page.keys("u")
    page.wait("document.querySelectorAll('#branch option').length === 3")
    page.keys("r")
    page.wait("document.querySelectorAll('#branch option').length === 4")
    assert page.errors() == []


def test_a_refused_fork_shows_its_sentence_and_the_page_stands(page: Page, served: Served) -> None:
    page.open(served)
    page.script("document.querySelector('#fork-form [name=name]').value = 'No Name!'")
    page.click("#fork-form [type=submit]")
    page.wait("document.getElementById('fork-error').textContent.includes('1 to 32')")
    assert page.event == 4990 and len(served.ask("study")["branches"]) == 3
    page.script("document.querySelector('#fork-form [name=name]').value = 'fine'")
    page.click("#fork-form [type=submit]")
    page.wait("document.getElementById('branch').value === 'fine'")


def test_each_of_the_nine_edits_has_a_form_that_is_accepted(page: Page, served: Served) -> None:
    """What each form begins with is what holds at the cursor, which the program accepts as an edit."""
    page.open(served)
    kinds = page.script("[...document.querySelector('#fork-form [name=kind]').options].map(option => option.value)")
    assert len(kinds) == 9
    for number, kind in enumerate(kinds):
        if number:
            page.click("#fork-form .edit-part ~ .quiet, #fork-form > .quiet")
        page.script(CHOOSE_KIND, kind)
    page.script("document.querySelector('#fork-form [name=name]').value = 'nine'")
    page.click("#fork-form [type=submit]")
    page.wait("document.getElementById('branch').value === 'nine' || document.getElementById('fork-error').textContent")
    assert page.text("#fork-error") == ""
    assert [edit["kind"] for edit in served.ask("study")["branches"][-1]["edits"]] == kinds
    page.click("#branch-list li.chosen button[aria-label='Change the edits of nine']")
    page.wait("document.querySelectorAll('.change-form .edit-part').length === 9")
    before, tag = served.ask("study")["branches"], served.explorer.tag
    page.click(".change-form [type=submit]")
    wait_until(lambda: served.explorer.tag == tag + 1, "the change")
    assert served.ask("study")["branches"] == before       # the form says each edit as it was


def test_branches_are_renamed_and_removed(page: Page, served: Served) -> None:
    page.open(served, "branch=wide&event=5145")
    page.click("button[aria-label='Rename wide']")
    page.wait("document.querySelector('input[aria-label=\"New name of wide\"]')")
    page.script("document.querySelector('input[aria-label=\"New name of wide\"]').value = 'wider'")
    page.click(".change-form [type=submit]")
    page.wait("[...document.querySelectorAll('#branch option')].some(option => option.value === 'wider')")
    page.click("button[aria-label='Remove wider']")
    page.wait("document.querySelectorAll('#branch option').length === 2")
    assert [branch["name"] for branch in served.ask("study")["branches"]] == ["root", "same"]


def test_a_click_on_the_picture_and_on_an_order(page: Page, served: Served) -> None:
    from selenium.webdriver.common.action_chains import ActionChains
    page.open(served)
    frame = page.driver.find_element("id", "plot-frame")
    ActionChains(page.driver).move_to_element_with_offset(frame, 200, -100).click().perform()
    page.wait("document.getElementById('event').value !== '4990'")
    time = page.script("document.getElementById('cursor').dataset.time")
    assert page.script("document.getElementById('clock').value") == time
    page.click("#ladders .bid .order")
    page.wait("document.getElementById('queue').textContent.includes('is the first to trade at its price')")
    page.wait("document.getElementById('tab-trader').getAttribute('aria-selected') === 'true'")


def test_playing_moves_on_and_stops(page: Page, served: Served) -> None:
    page.open(served)
    page.script("document.getElementById('speed').value = 'e100'")
    page.click("#play")
    page.wait("Number(document.getElementById('event').value) > 5000")
    page.click("#play")
    page.wait("document.getElementById('play').getAttribute('aria-pressed') === 'false'")


def test_the_parent_stands_beside_its_branch_at_the_same_time(page: Page, served: Served) -> None:
    page.open(served, "branch=wide&event=6000")
    page.click("#beside")
    page.wait("document.querySelectorAll('#ladders caption').length === 2")
    time = served.ask("state", branch="wide", event=6000)["time"]
    event = served.ask("at", branch="root", time=time)["event"]
    caption = page.script("[...document.querySelectorAll('#ladders caption')][1].textContent")
    assert caption.replace(",", "").endswith(f"event {event}")


def test_a_reload_and_a_link_open_at_the_same_place(page: Page, served: Served) -> None:
    page.open(served, "branch=wide&event=5145&stock=0&agent=7")
    link = page.driver.current_url
    page.driver.refresh()
    page.drawn()
    page.at(5145)
    page.driver.get("about:blank")
    page.driver.get(link)
    page.drawn()
    page.at(5145)
    assert page.script("document.getElementById('branch').value") == "wide"
    assert page.script("document.getElementById('agent').value") == "7"


def test_a_second_tab_sees_what_the_first_changed(page: Page, served: Served) -> None:
    page.open(served)
    served.change("fork", name="other", parent="root", at=100, edits=[])
    page.free()
    page.keys("t")
    page.wait("[...document.querySelectorAll('#branch option')].some(option => option.value === 'other')")
    assert "changed" in page.text("#notice")


def test_the_page_says_that_the_explorer_has_ended(page: Page, program: str) -> None:
    with Served(EXAMPLE, program) as served:
        page.open(served)
        served.end()
        page.free()
        page.keys("t")
        page.wait("document.getElementById('alarm').textContent.includes('The explorer has ended')")
        assert "Traceback" not in page.text("body")


def test_a_run_that_failed_is_told_and_can_be_run_again(page: Page, program: str, tmp_path: Path) -> None:
    path = tmp_path / "study.toml"
    path.write_text(EXAMPLE.read_text().replace("events = 20000", "events = 0"))
    with Served(path, program) as served:
        page.driver.get("about:blank")
        page.driver.get(served.address)
        page.wait("document.getElementById('alarm').textContent.includes('events')")
        path.write_text(EXAMPLE.read_text())
        page.click("#alarm button")
        page.drawn()
        assert page.script("document.getElementById('alarm').hidden")


def test_a_run_that_goes_on_is_told_and_can_be_stopped(page: Page, program: str, tmp_path: Path) -> None:
    with Served(EXAMPLE, str(slow_program(tmp_path, program)), wait=False) as served:
        page.driver.get("about:blank")
        page.driver.get(served.address)
        page.wait("document.getElementById('running-text').textContent.includes('at most 60,000 events')")
        page.click("#running-stop")
        page.wait("document.getElementById('alarm').textContent.includes('the run was stopped')")
        page.wait("document.getElementById('running').hidden && document.querySelector('#alarm button')")


def test_hidden_orders_are_marked(page: Page, program: str) -> None:
    """1,812 shares to sell at 49.96 rest hidden in a branch of an example, and no share is shown at that price."""
    with Served(ROOT / "examples" / "hidden.toml", program) as served:
        page.open(served, "branch=hidden&event=1900&stock=0&agent=5")
        page.wait("document.querySelectorAll('#ladders .hidden-order').length === 1")
        assert page.text("#ladders .hidden-order") == "◌5:1,812"
        row = page.script("document.querySelector('#ladders .hidden-order').closest('tr').innerText.split('\\t')")
        assert [cell.strip() for cell in row[1:3]] == ["49.96", "0 + 1,812 hidden"]
        page.click("#ladders .hidden-order")
        page.wait("document.getElementById('queue').textContent.includes('hidden, is the first to trade at its price')")


def test_an_order_says_its_place_in_the_queue(page: Page, served: Served) -> None:
    """An order that is not the first of its level says what trades before it, as the server counted it."""
    def second(event: int) -> Any:
        levels = served.ask("state", branch="root", event=event)["stocks"][0]["bids"][:12]
        later = [order for level in levels for order in level["orders"][1:]]
        return next((order for order in later if order["open"] != order["ahead"]), None)
    event = next(event for event in range(4900, 12000, 25) if second(event))
    order = second(event)
    page.open(served, f"branch=root&event={event}&stock=0&agent=1")
    page.click(f"#ladders [aria-label^='order {order['reference']} of']")
    words = f"trades after {order['before']} order{'s' * (order['before'] > 1)} with {order['ahead']:,} shares"
    page.wait("document.getElementById('queue').textContent.includes(arguments[0])", words)


def test_a_fork_at_a_branchs_own_beginning_is_its_child(page: Page, served: Served) -> None:
    """One event before it, it is its parent's. With the shift key an arrow goes ten events."""
    from selenium.webdriver.common.action_chains import ActionChains
    from selenium.webdriver.common.keys import Keys
    page.open(served, "branch=wide&event=5000")
    assert page.text("#fork-form p").startswith("A new branch of wide.")
    page.free()
    page.keys(Keys.ARROW_LEFT)
    page.at(4999)
    assert page.text("#fork-form p").startswith("A new branch of root.")
    for key, event in ((Keys.ARROW_RIGHT, 5009), (Keys.ARROW_LEFT, 4999)):
        ActionChains(page.driver).key_down(Keys.SHIFT).send_keys(key).key_up(Keys.SHIFT).perform()
        page.at(event)


def test_effects_and_measures_are_the_servers(page: Page, served: Served) -> None:
    """Each effect with its words, and the two columns of measures in their order."""
    page.open(served, "branch=wide&event=5032")
    found = served.ask("why", branch="wide", event=5032)["effects"]
    assert found
    words = [row["words"] for row in found]
    page.wait("document.querySelectorAll('#effects li').length === arguments[0].length && "
              "[...document.querySelectorAll('#effects li')].map(item => item.textContent)"
              ".every((text, place) => text.includes(arguments[0][place]))", words)
    rows = [row for row in served.ask("compare", branch="wide")["measures"][:12] if None not in (row["ours"],
            row["theirs"])]
    assert any(row["ours"] != row["theirs"] for row in rows)
    page.wait("document.querySelector('#compare table')")
    cells = page.script("Object.fromEntries([...document.querySelectorAll('#compare table tr')]"
                        ".map(row => [...row.cells].map(cell => cell.textContent)).map(row => [row[0], row]))")
    assert cells["measure"][1:3] == ["root", "wide"]
    for row in rows:
        shown = [float(text.replace(",", "")) for text in cells[row["name"]][1:3]]
        assert shown == pytest.approx([row["theirs"], row["ours"]], rel=1e-4)


def test_the_cursor_and_a_click_in_the_tree_are_where_the_picture_has_them(page: Page, served: Served) -> None:
    """By the pictures' own axes: the cursor at its time, and a branch's row."""
    page.open(served, "branch=root&event=9000")
    time = served.ask("state", branch="root", event=9000)["time"]
    page.wait("Math.abs(parseFloat(document.getElementById('cursor').style.left) - (axes => axes.xaxis._offset + "
              "axes.xaxis.l2p(arguments[0]))(document.getElementById('plot')._fullLayout)) < 2", time)
    for place, name in ((2, "same"), (1, "wide"), (0, "root")):
        page.script(CLICK_TREE, place, time)
        page.wait("document.getElementById('branch').value === arguments[0]", name)


def test_times_and_amounts_are_read_and_written(page: Page, served: Served) -> None:
    """The page's own functions: a time of day, a length of time, a price, a fee."""
    page.open(served)
    second = 10**9
    calls = [
        ("clockTime", "9:31:05.25", (9 * 3600 + 31 * 60 + 5) * second + second // 4), ("clockTime", "9:60:00", None),
        ("clockTime", "24:00", None), ("clockTime", " 9:31 ", (9 * 60 + 31) * 60 * second), ("clockTime", "x", None),
        ("clock", 34200000000001, "09:30:00.000000001"), ("clock", 86399999999999, "23:59:59.999999999"),
        ("span", 1500000, "1.5 ms"), ("span", 999, "999 ns"), ("span", 2 * second, "2 s"),
        ("spanInput", 50000, "50us"), ("spanInput", 1500, "1500ns"), ("spanInput", 0, "0ns"),
        ("price", 500050, "50.0050"), ("price", 500000, "50.00"), ("priceInput", -250, "-0.025"),
        ("fee", -2000, "-0.002"), ("fee", 0, "0.00"), ("fee", 10000, "0.01"), ("whole", 1234567, "1,234,567"),
    ]
    got = page.driver.execute_async_script(
        "const done = arguments[1]; import('./page/format.js').then(module => done(arguments[0].map(([name, word]) => "
        "module[name](word))), error => done(String(error)))", [call[:2] for call in calls])
    assert got == [wish for _, _, wish in calls]


def test_playing_by_the_markets_time_keeps_its_speed(page: Page, served: Served) -> None:
    """The first time that is asked for lies at least 30 ms of playing, times the speed, behind the cursor: the page
    waits 40 ms before."""
    page.open(served)
    time = served.ask("state", branch="root", event=4990)["time"]
    speed = page.script("[...document.getElementById('speed').options].map(option => option.value)"
                        ".filter(value => value[0] !== 'e').pop()")
    page.script(RECORD_TIMES)
    page.script("document.getElementById('speed').value = arguments[0]", speed)
    page.click("#play")
    page.wait("window.timesAsked.length > 0")
    page.click("#play")
    assert page.script("window.timesAsked[0]") >= time + 30_000_000 * float(speed[1:])


def test_an_answer_that_comes_late_is_not_drawn_over_a_newer_one(page: Page, served: Served) -> None:
    from selenium.webdriver.common.keys import Keys
    page.open(served)
    page.script(HOLD_STATE, "event=100&")
    page.script("location.hash = 'branch=root&event=100'")
    page.wait("window.held")
    page.script("location.hash = 'branch=root&event=200'")
    page.at(200)
    page.script("window.letGo()")
    page.wait("window.answered")
    page.free()
    page.keys(Keys.ARROW_RIGHT)
    page.at(201)


def test_a_question_that_a_change_overtakes_is_answered(page: Page, served: Served) -> None:
    """What the page asks of the version that it knows fails in no way when the next one is there, and it goes on to
    that."""
    page.open(served)
    served.change("fork", name="other", parent="root", at=100, edits=[])
    page.free()
    page.keys("t")
    page.wait("[...document.querySelectorAll('#branch option')].some(option => option.value === 'other')")
    page.drawn()
    assert page.errors() == []


def test_the_tabs_are_worked_by_arrows(page: Page, served: Served) -> None:
    from selenium.webdriver.common.keys import Keys
    page.open(served)
    page.script("document.getElementById('tab-trader').focus()")
    for panel in ("agents", "waiting", "rules", "trader"):
        page.keys(Keys.ARROW_RIGHT)
        page.wait("!document.getElementById(arguments[0]).hidden && "
                  "document.querySelectorAll('[role=tabpanel]:not([hidden])').length === 1", f"panel-{panel}")
    assert page.event == 4990


CLICK_TREE = """
((place, time) => {
  const { xaxis, yaxis4 } = document.getElementById('plot')._fullLayout;
  const box = document.getElementById('plot').getBoundingClientRect();
  const at = { bubbles: true, clientX: box.left + xaxis._offset + xaxis.l2p(time),
    clientY: box.top + yaxis4._offset + yaxis4.l2p(-place) };
  for (const kind of ['pointerdown', 'pointerup'])
    document.getElementById('plot-frame').dispatchEvent(new PointerEvent(kind, at));
})(arguments[0], arguments[1])
"""

HOLD_STATE = """
(words => {
  const own = window.fetch;
  window.fetch = (address, ...more) => {
    if (!String(address).startsWith('api/state') || !String(address).includes(words)) return own(address, ...more);
    window.held = true;
    return new Promise(resolve => { window.letGo = resolve; }).then(() => own(address, ...more)).then(answer => {
      window.answered = true;
      return answer;
    });
  };
})(arguments[0])
"""

RECORD_TIMES = """
(() => {
  const own = window.fetch;
  window.timesAsked = [];
  window.fetch = (address, ...more) => {
    const words = new URLSearchParams(String(address).split('?')[1]);
    if (String(address).startsWith('api/at') && words.has('time')) window.timesAsked.push(Number(words.get('time')));
    return own(address, ...more);
  };
})()
"""

NAMES = """
(() => {
  const bad = [];
  const all = selector => [...document.querySelectorAll(selector)];
  const told = item => item.outerHTML.slice(0, 90);
  const labels = item => [...(item.labels || [])].map(label => label.textContent).join('');
  const nameOf = item => item.getAttribute('aria-label') || labels(item) || item.title || item.textContent.trim();
  const named = 'button, a, input, select, textarea, summary, progress, [role=tab], [role=region], [role=img]';
  for (const item of all(named))
    if (item.getClientRects().length && !nameOf(item).trim()) bad.push('no name: ' + told(item));
  const ids = all('[id]').filter(item => !item.closest('svg')).map(item => item.id);
  for (const id of ids) if (ids.indexOf(id) !== ids.lastIndexOf(id)) bad.push('twice: ' + id);
  for (const name of ['aria-labelledby', 'aria-controls', 'aria-describedby', 'for'])
    for (const item of all(`[${name}]`))
      if (!document.getElementById(item.getAttribute(name))) bad.push(name + ' leads nowhere: ' + told(item));
  for (const table of all('table'))
    if (!table.caption || !table.querySelector('th')) bad.push('a table without caption');
  if (document.documentElement.lang !== 'en' || !document.title) bad.push('no language or title');
  if (document.documentElement.scrollWidth > innerWidth) bad.push('wider than the window');
  return bad;
})()
"""

CONTRAST = """
(() => {
  const parse = text => (text.match(/[\\d.]+/g) || []).map(Number);
  const part = share => share <= 0.03928 ? share / 12.92 : ((share + 0.055) / 1.055) ** 2.4;
  const weights = [0.2126, 0.7152, 0.0722];
  const light = colour => weights.reduce((sum, weight, at) => sum + weight * part(colour[at] / 255), 0);
  const ground = item => {
    for (let at = item; at; at = at.parentElement) {
      const colour = parse(getComputedStyle(at).backgroundColor);
      if (colour.length === 3 || colour[3] > 0.99) return colour;
    }
    return [255, 255, 255];
  };
  const bad = [];
  for (const item of document.querySelectorAll('body *')) {
    if (item.closest('svg, [disabled], option') || !item.getClientRects().length) continue;
    if (![...item.childNodes].some(node => node.nodeType === 3 && node.textContent.trim())) continue;
    const lights = [light(parse(getComputedStyle(item).color)), light(ground(item))].sort((a, b) => b - a);
    const ratio = (lights[0] + 0.05) / (lights[1] + 0.05);
    if (ratio < 4.5) bad.push(ratio.toFixed(2) + ': ' + item.outerHTML.slice(0, 90));
  }
  return bad;
})()
"""

CHOOSE_KIND = """
(kind => {
  const parts = document.querySelectorAll('#fork-form .edit-part');
  const select = parts[parts.length - 1].querySelector('[name=kind]');
  select.value = kind;
  select.dispatchEvent(new Event('change'));
})(arguments[0])
"""


@pytest.mark.parametrize("width", WIDTHS)
def test_names_and_contrast_at_two_widths(page: Page, served: Served, width: int) -> None:
    """Each control has a name, each reference leads somewhere, each text has a contrast of 4.5 at least, and nothing is
    cut off."""
    page.driver.set_window_size(width, 1000)
    try:
        page.open(served, "branch=wide&event=5145")
        page.click("#show-keys")
        page.click("#what details summary")
        for tab in ("trader", "agents", "waiting", "rules"):
            page.click(f"#tab-{tab}")
            page.wait("!document.getElementById(arguments[0]).hidden", f"panel-{tab}")
            assert page.script(NAMES) == []
            assert page.script(CONTRAST) == []
        page.wait("document.querySelector('#plot .main-svg').getAttribute('width') <= innerWidth")
    finally:
        page.driver.set_window_size(1400, 1000)


def test_no_answer_has_a_traceback(page: Page, served: Served) -> None:
    page.open(served)
    found = page.script("fetch('api/state?event=x').then(answer => answer.text())")
    assert "Traceback" not in found and json.loads(found)["error"]
