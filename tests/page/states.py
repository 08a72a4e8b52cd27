"""The states of a program, as the page draws them: boxes, lines, marks in the editor, keys, and files."""
import json
import re
import subprocess
import xml.etree.ElementTree

from compared import TOP
from keys import tab_to
from shown import saved
from stages import point_at

STUCK = "DO %50 (1) NEXT\nDO READ OUT #1\nPLEASE GIVE UP\n(1) DO FORGET #1\nDO (1) NEXT\n"
PRINTING = "(1) DO READ OUT #1\nPLEASE FORGET #1\nDO %50 (1) NEXT\nDO (1) NEXT\n"
LABELS = "[...document.querySelectorAll('#charted .state text')].map((it) => it.textContent).join('|')"
LINES = "[...document.querySelectorAll('#charted .digit')].map((it) => it.textContent).filter(Boolean).sort().join('|')"
# how many boxes of states lie over each other
OVER = """(() => {
  const boxes = [...document.querySelectorAll('#charted .state rect')].map((it) => it.getBoundingClientRect());
  return boxes.filter((one) => boxes.some((other) => one !== other && one.left < other.right && other.left < one.right
    && one.top < other.bottom && other.top < one.bottom)).length;
})()"""
FOCUSED = "document.activeElement.dataset.state ?? ''"
BACK = "document.querySelectorAll('#charted .line.back').length"


def drawn(tally, page):
    """States by what asks, ends with their weights, choices with their chances, loops that go back."""
    page.choose("ruin")
    page.job("states")
    tally.check(page.status().startswith("7 states, 5 of them go on"), f"the status {page.status()!r} of states")
    found = sorted(page.browser.evaluate(LABELS).split("|"))
    tally.equal("the states of ruin", found, sorted(["1", "5 %49", "5 %49", "5 %49", "5 %49", "GIVE-UP  I  52 %",
                                                     "GIVE-UP  XVI  48 %"]))
    tally.equal("the choices of ruin", page.browser.evaluate(LINES), "|".join(["0 · 51 %"] * 4 + ["1 · 49 %"] * 4))
    tally.equal("the lines of ruin that go back", page.browser.evaluate(BACK), 2)
    page.choose("lock")
    page.job("states")
    found = sorted(page.browser.evaluate(LABELS).split("|"))
    tally.equal("the states of lock", found, ["1"] + ["10 %50"] * 10 + ["GIVE-UP  75 %", "GIVE-UP  II  25 %"])
    tally.equal("the loops of lock", page.browser.evaluate(BACK), 2)
    page.set(source=STUCK, choices="", seed="", limit="3")
    page.job("states")
    tally.equal("the headline of a run that may never end", page.texts("#status .wait"), "50 % never ends")
    tally.check("never ends, 50 %" in page.browser.evaluate(LABELS), "no state says that it never ends")
    page.set(source=PRINTING, limit="")
    page.job("states")
    found = page.text("errors")
    tally.check(re.fullmatch(r"TOO MANY STATES: 20000 IN \d+ STEPS\n|TOO MUCH MEMORY: 200000000 BYTES\n", found),
                f"too many states: {found!r}")


def heaviest(tally, page):
    """Of many states the heaviest are drawn, and the page says so. No box lies over another."""
    for name in ("craps", "wgc", "again", "queens", "race", "die"):
        page.choose(name)
        page.job("states")
        tally.equal(f"boxes of {name} over each other", page.browser.evaluate(OVER), 0)
    page.choose("craps")
    page.job("states")
    tally.equal("the states of craps that are drawn", page.browser.evaluate("document.querySelectorAll('.state').length"), 100)
    said = page.texts("#charted .cut")
    tally.check(said.startswith("The 100 heaviest of 689 states"), f"craps says {said!r}")
    tally.check("50.7 %" in page.browser.evaluate(LABELS), "an end of craps isn't drawn")
    page.browser.resize(375, 812)
    is_wider = page.browser.evaluate("document.documentElement.scrollWidth > innerWidth")
    tally.check(not is_wider, "the page is wider than a phone with states")
    page.browser.resize(1280, 900)


def pointed(tally, page):
    """A state that is pointed at marks the editor's line, and all states of its statement. A click runs up to it."""
    page.choose("ruin")
    page.job("states")
    point_at(page, "#charted [data-state='5'] rect")
    tally.equal("the editor's line of a state", page.texts("#numbers .here"), "6")
    tally.equal("the states of a statement", page.browser.evaluate("document.querySelectorAll('.state.on').length"), 4)
    page.browser.evaluate("document.querySelector(\"#charted [data-state='5']\")"
                          ".dispatchEvent(new MouseEvent('click', { bubbles: true }))")
    page.idle()
    tally.equal("the choices up to a state", page.value("choices"), "01")
    tally.check(page.status().startswith("The run asks for a choice"), f"the status {page.status()!r} of a run to a state")
    tally.check(page.text("charted-name") is not None, "the states are gone behind a run")
    page.browser.evaluate("document.querySelector(\"#charted [data-state='6']\")"
                          ".dispatchEvent(new MouseEvent('click', { bubbles: true }))")
    page.idle()
    tally.equal("the run to an end", (page.value("choices"), page.text("output")), ("11", "\nXVI\n"))


def by_keys(tally, page):
    """The arrow keys go from state to state, and mark the editor's line. Enter runs the program up to one."""
    page.choose("ruin")
    page.job("states")
    tab_to(page.browser, ".state")
    visited = [page.browser.evaluate(FOCUSED)]
    for key in ("ArrowRight", "ArrowRight", "ArrowDown", "ArrowRight", "End", "Home", "ArrowLeft"):
        page.browser.press(key)
        visited.append(page.browser.evaluate(FOCUSED))
    tally.equal("the first states by keys", (visited[:2], visited[6:]), (["0", "1"], ["0", "0"]))
    tally.check({visited[2], visited[3]} == {"2", "3"}, f"the states by keys are {visited}")
    page.browser.press("ArrowRight")
    tally.equal("the editor's line by keys", page.texts("#numbers .here"), "6")
    page.browser.press("ArrowRight")
    page.browser.press("Enter")
    page.idle()
    tally.check(page.status().startswith("The run asks for a choice"), f"the status {page.status()!r} of Enter")


def saving(tally, page):
    """States are saved as text, as JSON and as a drawing of its own."""
    page.choose("ruin")
    page.job("states")
    name, text = saved(page, "states txt")
    tally.check(name == "ruin-states.txt" and text.endswith("DONE\n") and text.startswith('state 0 1 ""\n'), f"saved: {text!r}")
    name, found = saved(page, "states json")
    lines = [json.loads(line) for line in found.splitlines()]
    told = subprocess.run([f"{TOP}/tools/ick-json"], input=text.encode(), capture_output=True, check=True).stdout
    tally.equal("the lines of states as JSON", lines, [json.loads(line) for line in told.splitlines()])
    name, text = saved(page, "states svg")
    states = [it for it in xml.etree.ElementTree.fromstring(text).iter() if "state" in it.get("class", "").split()]
    tally.equal("a saved drawing of states", (name, len(states)), ("ruin-states.svg", 7))
    tally.check("var(" not in text, "a saved drawing of states without its style")


IN_EACH = drawn, heaviest, pointed, by_keys, saving
