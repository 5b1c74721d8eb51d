"""Tests of the page of 100,000 lines, and of pages with many blocks or without graphviz."""

import os
import subprocess
import sys

import pytest
from browsing import WIDE
from common import ALL, TOP, application

CONVEYOR = next(it for it in ALL if it.folder.name == "conveyor")

# A counter that each tick of a timer drives, so that there are three lines in each tick.
COUNTING = """FUNCTION_BLOCK COUNTER
EVENT_INPUT TICK; END_EVENT
EVENT_OUTPUT DONE WITH N, IS_ODD; END_EVENT
VAR_OUTPUT N : UDINT; IS_ODD : BOOL; END_VAR
VAR SQUARE : ULINT; END_VAR
EC_STATES START; ODD : ADD -> DONE; EVEN : ADD -> DONE; END_STATES
EC_TRANSITIONS START TO ODD := TICK; ODD TO EVEN := TICK; EVEN TO ODD := TICK; END_TRANSITIONS
ALGORITHM ADD IN ST: N := N + 1; IS_ODD := NOT IS_ODD; SQUARE := N * N; END_ALGORITHM
END_FUNCTION_BLOCK
APPLICATION COUNTING
FBS POWER : E_RESTART; CYCLE : E_CYCLE(DT := T#1ms); COUNT : COUNTER; END_FBS
EVENT_CONNECTIONS POWER.COLD TO CYCLE.START; CYCLE.EO TO COUNT.TICK; END_CONNECTIONS
END_APPLICATION
"""
# Runs the command, and prints the seconds of processor and the kibibytes that it and its programs used.
MEASURED = """import resource, sys
from fbsim.page.command import main
assert main(sys.argv[1:]) == 0
own, other = (resource.getrusage(it) for it in (resource.RUSAGE_SELF, resource.RUSAGE_CHILDREN))
print(own.ru_utime + own.ru_stime + other.ru_utime + other.ru_stime, own.ru_maxrss + other.ru_maxrss)
"""
# (two lines at tick 0, and three at each tick from 1 on)
TICKS = 33_332
LINES = 2 + 3 * TICKS


@pytest.fixture(scope="module")
def long_page(tmp_path_factory):
    """The page of nearly 100,000 lines, with the seconds of processor and the memory that it took."""
    folder = tmp_path_factory.mktemp("long")
    trace = application(folder, COUNTING).run(horizon=TICKS + 1)
    trace.save(folder / "trace")
    words = [sys.executable, "-B", "-c", MEASURED, folder / "plant.iec", folder / "trace", "--out", folder / "run.html"]
    settings = os.environ | {"PYTHONPATH": str(TOP / "python" / "src")}
    said = subprocess.run(words, capture_output=True, text=True, check=True, env=settings).stdout
    return folder / "run.html", *map(float, said.split())


def test_a_page_of_100_000_lines_is_small_and_made_soon(long_page):
    path, seconds, kibibytes = long_page
    assert path.stat().st_size <= 6_000_000
    assert seconds < 60 and kibibytes < 1_000_000


def test_100_000_lines_are_shown_soon_and_each_step_is_quick(browser, long_page):
    paints = []
    for _ in range(3):
        browser.open(long_page[0])
        paints.append(browser.run("return performance.getEntriesByName('first-contentful-paint')[0].startTime"))
    assert min(paints) < 2_000
    assert browser.run("return page.run.length") == LINES
    # Steps and jumps, each with the layout of the page, in time of the processor: other work of the machine is none.
    browser.driver.execute_cdp_cmd("Performance.enable", {"timeDomain": "threadTicks"})

    def seconds():
        metrics = browser.driver.execute_cdp_cmd("Performance.getMetrics", {})["metrics"]
        return next(it["value"] for it in metrics if it["name"] == "TaskDuration")

    before = seconds()
    browser.run("""
        for (let at = 0; at < 80; at++) {
          if (at % 2) page.go(page.position + 1); else page.go((at * 7919 * 131) % page.run.length);
          document.body.offsetHeight;
        }
    """)
    assert 0 < (seconds() - before) / 80 < 0.050
    browser.run("page.go(50000)")
    rows = browser.run("""
        const those = [...document.querySelectorAll("#lines .row")];
        return those.map((it) => ["aria-posinset", "aria-setsize"].map((name) => it.getAttribute(name)));
    """)
    assert 5 < len(rows) < 100 and {it[1] for it in rows} == {str(LINES + 1)} and "50001" in [it[0] for it in rows]
    # (tick 16,666 has the lines 49,998 to 50,000; the count is that of the tick)
    assert browser.text("#now-line") == "16666 MAIN < COUNT.DONE N=16666 IS_ODD=FALSE"
    browser.run("page.open(2)")
    assert browser.texts("#panel .variables tbody .value") == ["EVEN", "16666", "FALSE", str(16_666 ** 2)]
    found = browser.run("page.find('MAIN < COUNT.DONE N>33330'); return page.found.length")
    assert found == 2
    assert browser.faults() == []


def test_without_graphviz_a_list_is_in_place_of_the_picture(browser, tmp_path, monkeypatch):
    trace = CONVEYOR.run()
    with monkeypatch.context() as it:
        it.setenv("PATH", str(tmp_path))
        trace.page(tmp_path / "run.html")
    browser.open(tmp_path / "run.html", tick=104)
    assert browser.text("#picture-area .quiet").startswith("This is a list and no picture: graphviz (dot) is missing")
    assert browser.texts("#picture h3") == ["INFEED.LINE", "PACKING.STATION"]
    assert browser.texts("#picture .block.lit") == ["GATESTOP_GATELIFTED"]
    browser.click("#picture .block", 4)
    assert browser.texts("#panel .state.active strong") == ["LIFTED"]
    browser.keep("page-without-graphviz.png")
    assert browser.faults() == []


def test_the_picture_of_over_400_blocks_is_of_resources(browser, tmp_path):
    blocks = "".join(f"  M{it} : E_MERGE;\n" for it in range(400))
    ways = "".join(f"M{it}.EO TO M{it + 1}.EI1;\n" for it in range(399))
    text = (f"APPLICATION MANY\nFBS POWER : E_RESTART;\n{blocks}END_FBS\n"
            f"EVENT_CONNECTIONS POWER.COLD TO M0.EI1;\n{ways}END_CONNECTIONS\nEND_APPLICATION\n")
    names = ['"POWER"', *(f'"M{it}"' for it in range(400))]
    deploy = "".join(
        f'[[resource]]\ndevice = "CELL"\nname = "{name}"\ninstances = [{", ".join(them)}]\n'
        for name, them in (("NORTH", names[:200]), ("SOUTH", names[200:]))
    ) + '[[link]]\nfrom = "NORTH"\nto = "SOUTH"\nlatency = 7\n'
    application(tmp_path, text, deploy=deploy).run(horizon=20).page(tmp_path / "run.html")
    browser.open(tmp_path / "run.html", size=WIDE)
    assert browser.texts("#picture .area-name") == ["CELL.NORTH", "CELL.SOUTH"]
    assert browser.texts("#picture .link") == ["7 ms", "200 blocks", "201 blocks"]
    assert "over 400 blocks" in browser.text("#picture-area .quiet")
    browser.run("""
        const field = document.getElementById("block-path");
        field.value = "m399";
        field.dispatchEvent(new Event("change"));
    """)
    assert browser.texts("#panel .path") == ["M399"]
    browser.run("page.go(page.run.length)")
    assert browser.texts("#picture .area.lit .area-name") == ["CELL.SOUTH"]
    assert browser.faults() == []
