"""Tests of pages in a browser: what they show of each example is what the program says of its run."""

import tomllib

import pytest
from browsing import NARROW, WIDE
from common import ALL, EXAMPLES, TOP
from selenium.webdriver.common.action_chains import ActionChains
from selenium.webdriver.common.keys import Keys

import fbsim

CONVEYOR = next(it for it in ALL if it.folder.name == "conveyor")
SHIFT = next(it for it in ALL if it.folder.name == "shift")
NAMES = [str(it.folder.relative_to(EXAMPLES)) for it in ALL]


def page_of(example, folder, **how):
    """Writes the page of an example's run, and returns its file and the trace."""
    trace = example.run(stop=True)
    trace.page(folder / "run.html", **how)
    return folder / "run.html", trace


@pytest.fixture(scope="module")
def conveyor(tmp_path_factory):
    """The page of the conveyor, with its rules."""
    return page_of(CONVEYOR, tmp_path_factory.mktemp("conveyor"), rules=EXAMPLES / "conveyor" / "conveyor.rules")[0]


@pytest.fixture(scope="module")
def shift(tmp_path_factory):
    """The page of a shift of the bottling line, with its rules."""
    return page_of(SHIFT, tmp_path_factory.mktemp("shift"), rules=EXAMPLES / "bottling" / "bottling.rules")[0]


def inspected(trace):
    """Returns the lines of a trace, each with what happens inside after it."""
    found = []
    for it in trace.application.inspect(trace).splitlines()[:-1]:
        if it.startswith("  "):
            found[-1][1].append(it[2:])
        else:
            found.append((it, []))
    return found


def shown_by_session(example, ticks, paths):
    """Returns what a session shows of each block after each of some ticks."""
    found = []
    with example.application.session(example.stimuli) as it:
        for tick in ticks:
            it.until(tick + 1)
            found.append([])
            for path in paths:
                it.ask(f"show {path}")
                found[-1].append(it.answer.partition(" ")[2])
    return found


@pytest.mark.parametrize("example", ALL, ids=NAMES)
def test_the_page_of_each_example_shows_its_run(browser, tmp_path, example):
    path, trace = page_of(example, tmp_path)
    browser.open(path)
    assert browser.faults() == []
    seen, is_last = browser.call("walk")
    wanted = inspected(trace)
    assert is_last and len(seen) == len(wanted)
    assert [it[0] for it in seen] == [it[1] for it in seen] == [it[0] for it in wanted]
    assert [it[2] for it in seen] == [it[1] for it in wanted]

    # (the last position of each of ten ticks, when the session has taken all events of that tick)
    ticks = [int(it[0].partition(" ")[0]) for it in wanted]
    last = {tick: position for position, tick in enumerate(ticks, 1)}
    places = sorted({tick: None for tick in [*last][::max(1, len(last) // 9)][:9] + [*last][-1:]})
    blocks = browser.run("return page.run.instances.map((it) => it.path)")
    looked = browser.call("look", [last[it] for it in places])
    assert looked == shown_by_session(example, places, blocks)
    assert browser.faults() == []


def test_search_finds_the_lines_of_a_pattern(browser, shift):
    browser.open(shift)
    trace = fbsim.Trace(EXAMPLES / "bottling" / "shift" / "trace")
    lines = [str(it) for it in trace]
    for pattern in ("* > INSPECT.*", "* < *.CHANGED", "* * fill.dose.* LEVEL>=720", "PACKING * *"):
        found = browser.run("page.find(arguments[0]); return page.found", pattern)
        wanted = [str(it) for it in trace.where(pattern)]
        assert [lines[it - 1] for it in found] == wanted and wanted
    browser.run("page.go(0); page.find('PACKING < *.CHANGED'); page.nextHit(1)")
    count = trace.where("PACKING < *.CHANGED").count()
    assert browser.text("#hits") == f"2 of {count}"
    browser.run("page.go(0)")
    assert browser.text("#hits") == f"{count} lines"
    browser.run("page.find('* > NOBODY.X')")
    assert browser.text("#hits") == "0 lines"
    browser.run("page.find('PACKING * ')")
    assert browser.text("#hits").startswith("a pattern is a resource, a sign, a port")


def test_patterns_are_those_of_rules(browser, conveyor):
    browser.open(conveyor)
    one, other = tomllib.loads((TOP / "cases" / "patterns.toml").read_text())["group"]
    rows = [[pattern, *line.split(" ")[1:4], line.split(" ")[4:]] for pattern, line, _ in one["rows"]]
    answers = browser.run("""
        return arguments[0].map(([text, resource, sign, port, words]) => {
          const pattern = new Pattern(text);
          return pattern.isAt(resource, sign, port) && pattern.isMet(new Map(words.map((it) => it.split("="))));
        });
    """, rows)
    assert answers == [it[2] == "${yes}" for it in one["rows"]] and len(answers) > 20
    texts = [it[0] for it in other["rows"]]
    refused = browser.run("""
        return arguments[0].filter((text) => { try { new Pattern(text); return false; } catch { return true; } });
    """, texts)
    assert refused == texts and len(texts) > 20


def test_a_step_lights_up_the_event_its_connection_and_its_values(browser, conveyor):
    browser.open(conveyor, tick=104)
    assert browser.text("#now-line") == "104 STATION > GATE.ARRIVE ARRIVED=1"
    lit = browser.run("return [...document.querySelectorAll('#picture .port.lit')].map((it) => it.dataset.port)")
    assert [it.partition(" ")[2] for it in lit] == ["event ARRIVE", "data ARRIVED"]
    assert browser.texts("#picture .edge.lit title") == ["BEFORE.CAME to GATE.ARRIVE"]
    assert browser.texts("#picture .block.lit .name") == ["GATE"]
    assert browser.texts("#ways li") == ["from BEFORE.CAME"]
    assert browser.texts("#inside li") == ["SHUT -> LIFTED by [ARRIVED > TAKEN]", "TAKE: TAKEN=1"]
    values = browser.texts("#picture .block.lit .port.data text")
    assert values == ["ARRIVED 1", "1 TAKEN"]
    assert browser.texts("#picture .block.lit .memory") == ["LIFTED"]
    browser.click("#forward")
    assert browser.text("#now-line") == "104 STATION < GATE.LIFT TAKEN=1"
    browser.call("goTo", "184 STATION < GATE.DROP")
    assert browser.texts("#picture .edge.lit title") == ["GATE.DROP to WORK.START", "GATE.DROP to BELT.R"]
    browser.run("page.go(0)")
    assert browser.texts("#picture .lit") == []


def test_a_block_shows_its_chart_its_variables_and_its_lost_events(browser, conveyor):
    browser.open(conveyor, tick=190)
    browser.call("goTo", "190 STATION > GATE.ARRIVE ARRIVED=2")
    number = browser.run("return page.picture.network.blocks.findIndex((it) => it.name === 'GATE')")
    browser.click("#picture .block", number)
    assert browser.texts("#panel .path") == ["GATE"]
    assert browser.texts("#panel .state .name") == ["SHUT", "LIFTED", "WORKING", "DONE"]
    assert browser.texts("#panel .state.active .name") == ["WORKING"]
    assert browser.texts("#panel .condition") == ["[ARRIVED > TAKEN]", "PASSED", "FREE", "1"]
    assert browser.texts("#panel .variables .value") == ["WORKING", "2", "1"]
    assert browser.texts("#panel .variables .lit") == ["2"]
    assert browser.texts("#panel summary") == ["1 lost event"]
    assert browser.texts("#panel .lost-events li") == ["190 STATION > GATE.ARRIVE ARRIVED=2 lost in WORKING"]
    assert "lost" in browser.text('#lines [aria-selected="true"]')
    browser.run("page.go(1)")
    browser.click("#panel .lost-events button")
    assert browser.text("#now-line") == "190 STATION > GATE.ARRIVE ARRIVED=2"
    browser.call("goTo", "434 STATION < GATE.RESUME")
    assert browser.texts("#panel .transition.lit .condition") == ["[ARRIVED > TAKEN]", "1"]


def test_a_composite_shows_its_network(browser, shift):
    browser.open(shift)
    number = browser.run("return page.picture.network.blocks.findIndex((it) => it.name === 'FILL')")
    browser.click("#picture .block", number)
    assert browser.texts("#way button") == ["BOTTLING", "FILL"]
    assert browser.texts("#picture .name") == ["GATE", "DOSE", "TIMER", "BOTH"]
    browser.run("page.find('* > FILL.ARRIVE'); page.go(page.found[0])")
    titles = browser.texts("#picture .edge.lit title")
    assert titles == ["ARRIVE to GATE.ARRIVE"]
    browser.click("#picture .block", 2)
    assert browser.texts("#panel .path") == ["FILL.GATE"]
    browser.click("#way button")
    assert browser.run("return page.picture.instance") == -1


RULES = """[[rule]]
name = "</script><script>alert('x')</script> \\"quoted\\" & \\u2028 end"
never = "STATION < GATE.LIFT TAKEN=2"

[[rule]]
name = "kept"
never = "STATION < GATE.LIFT TAKEN=3"
"""


def test_a_broken_rule_shows_its_line_and_names_may_be_anything(browser, tmp_path):
    (tmp_path / "rules").write_text(RULES)
    name = "</title></script><b>\"'&\u2028.trace"
    folder = tmp_path / "<"
    folder.mkdir()
    file = folder / name.replace("/", "\u2215")
    CONVEYOR.run().save(file)
    fbsim.Trace(file, CONVEYOR.application).page(tmp_path / "run.html", rules=tmp_path / "rules")
    browser.open(tmp_path / "run.html")
    assert browser.faults() == []
    shown = browser.texts("header p")[0]
    assert shown == file.name and browser.run("return document.title") == f"CONVEYOR: {shown}"
    rule = "</script><script>alert('x')</script> \"quoted\" & \u2028 end"
    assert browser.texts("#rule-list .rule-name") == [rule, "kept"]
    assert browser.text("#rule-count") == "1 broken, 1 kept"
    assert browser.texts("#rule-list button") == ["line 22, tick 434"]
    browser.click("#rule-list button")
    assert browser.text("#now-line") == "434 STATION < GATE.LIFT TAKEN=2"
    assert browser.texts("#inside .broken") == [f"breaks the rule: {rule}"]
    assert browser.run("return document.querySelectorAll('script').length") == 2
    assert browser.faults() == []


LINKS = [(104, "104 STATION > GATE.ARRIVE ARRIVED=1"), (183, "180 LINE < BEHIND.CAME COUNT=1")]


@pytest.mark.parametrize("tick, line", LINKS)
def test_a_link_to_a_tick(browser, conveyor, tick, line):
    browser.open(conveyor, tick=tick)
    assert browser.text("#now-line") == line
    browser.run("location.hash = '#500'; return new Promise((end) => addEventListener('hashchange', () => end()))")
    assert browser.text("#now-line") == "500 LINE > BEHIND.SENSE COVERED=TRUE"


def test_the_keyboard_alone_is_enough(browser, conveyor):
    browser.open(conveyor)

    def press(*keys):
        chain = ActionChains(browser.driver)
        for it in keys:
            chain.send_keys(it)
        chain.perform()

    def line():
        return browser.text("#now-line")

    press(Keys.HOME)
    assert line() == "Before the first line"
    press(Keys.ARROW_RIGHT, Keys.ARROW_RIGHT)
    assert line() == "0 LINE > BELT.S"
    press(Keys.ARROW_LEFT)
    assert line() == "0 LINE < POWER.COLD"
    press(Keys.END)
    assert line() == "760 LINE < BELT.EO Q=TRUE"
    press("/", "* < GATE.LIFT", Keys.ENTER)
    assert line() == "104 STATION < GATE.LIFT TAKEN=1"
    # Tab reaches the picture, where arrow keys go from block to block, and the list.
    reached = []
    for _ in range(40):
        press(Keys.TAB)
        here = browser.call("focused")
        reached.append(here)
        if here == "lines":
            break
        if here.startswith("POWER, E_RESTART"):
            press(Keys.ARROW_RIGHT, Keys.ENTER)
            assert browser.texts("#panel .path") == ["BEFORE"]
    assert reached[-1] == "lines" and any(it.startswith("POWER, E_RESTART") for it in reached)
    press(Keys.ARROW_DOWN)
    assert line() == "160 LINE > BEFORE.SENSE COVERED=FALSE"


@pytest.mark.parametrize("size, is_dark", [(WIDE, False), (WIDE, True), (NARROW, False), (NARROW, True)])
def test_texts_can_be_read_in_each_size_and_colour(browser, conveyor, shift, size, is_dark):
    looks = f"{size[0]}-{'dark' if is_dark else 'light'}"
    for name, path, tick in (("conveyor", conveyor, 434), ("bottling", shift, 21015)):
        browser.open(path, tick, size, is_dark)
        browser.run("page.open(page.run.instances.findIndex((it) => /GATE$/.test(it.path)), false)")
        browser.run("page.find('* < *.CHANGED')")
        browser.run("document.querySelectorAll('details').forEach((it) => { it.open = true; })")
        count, bad = browser.call("contrast")
        assert bad == [] and count > 100
        assert browser.run("return document.documentElement.scrollWidth") == size[0]
        browser.run("document.querySelectorAll('.help, #rules').forEach((it) => { it.open = false; })")
        browser.run("page.go(page.run.positionOf(arguments[0]))", tick)
        browser.keep(f"page-{name}-{looks}.png")


def test_a_page_uses_no_network_and_runs_only_its_own_script(browser, conveyor):
    browser.open(conveyor)
    policy = browser.run("return document.querySelector('meta[http-equiv]').content")
    assert policy.startswith("default-src 'none'; script-src 'sha256-") and "unsafe" not in policy
    assert browser.run("return performance.getEntriesByType('resource').length") == 0
    browser.run("""
        const it = document.createElement("script");
        it.textContent = "window.wrong = 1";
        document.body.append(it);
    """)
    assert browser.run("return window.wrong ?? null") is None
    assert any("Content Security Policy" in it for it in browser.faults())
