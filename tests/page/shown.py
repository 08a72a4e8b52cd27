"""What the page shows when its buttons are pressed."""
import glob
import json
import os
import random
import re
import subprocess
import sys
import tempfile
import xml.etree.ElementTree

from compared import TOP, example_words, read

ENDLESS = "(1) DO FORGET #1\nPLEASE DO (1) NEXT\n"
GREEDY = "".join(f"{'PLEASE' if at % 4 == 3 else 'DO'} ;{at} <- #65535\n" for at in range(1, 3000)) + "DO GIVE UP\n"
LONG = "(1) DO READ OUT #1\nPLEASE FORGET #1\nDO (1) NEXT\n"


class Page:
    """The page in one browser, of which tests see the document alone."""

    def __init__(self, browser, address):
        self.browser, self.address, self.opened = browser, address, 0

    def open(self, fragment=""):
        # A new address each time, so that the browser loads the page anew for a new fragment too.
        self.opened += 1
        self.browser.open(f"{self.address}?{self.opened}{fragment}")
        self.browser.wait("document.getElementById('made').textContent !== ''")
        self.idle()

    def idle(self):
        self.browser.wait("document.getElementById('answer').getAttribute('aria-busy') === 'false'")

    def value(self, name):
        return self.browser.evaluate(f"document.getElementById('{name}').value")

    def text(self, name):
        """Returns the text of a part of the page, or None if it isn't shown."""
        return self.browser.evaluate(f"document.getElementById('{name}').closest('[hidden]') ? null : "
                                     f"document.getElementById('{name}').textContent")

    def press(self, selector):
        self.browser.evaluate(f"document.querySelector({selector!r}).click()")
        self.idle()

    def job(self, name):
        self.press(f"[data-job={name}]")

    def press_leaf(self, place):
        self.browser.evaluate(f"document.querySelectorAll('.leaf')[{place}]"
                              ".dispatchEvent(new MouseEvent('click', { bubbles: true }))")
        self.idle()

    def set(self, **fields):
        for name, value in fields.items():
            self.browser.evaluate(f"document.getElementById('{name}').value = {json.dumps(value)}")

    def choose(self, example):
        self.set(example=example)
        self.browser.evaluate("document.getElementById('example').dispatchEvent(new Event('change'))")

    def status(self):
        return self.text("status")

    def texts(self, selector):
        """Returns the texts of all elements that a selector names, with commas between."""
        return self.browser.evaluate(f"[...document.querySelectorAll({selector!r})].map((it) => it.textContent).join()")

    def inject(self, script):
        """Runs a script as one of the page's own, and returns what it puts into `answer`, as JSON."""
        text = f"(async () => {{ let answer; {script}\n document.body.dataset.answer = JSON.stringify(answer); }})()"
        self.browser.evaluate("delete document.body.dataset.answer")
        self.browser.evaluate("document.body.append(Object.assign(document.createElement('script'), "
                              f"{{ textContent: {json.dumps(text)} }}))?.x")
        self.browser.wait("document.body.dataset.answer !== undefined")
        return json.loads(self.browser.evaluate("document.body.dataset.answer"))


def shown_examples(tally, page):
    """Each example, as it is chosen: what it prints, and its listings."""
    names = page.browser.evaluate("[...document.querySelectorAll('#example option')].map((it) => it.value).join()")
    there = {name[:-2] for name in os.listdir(f"{TOP}/examples") if name.endswith(".i")}
    tally.equal("the examples of the page", set(names.split(",")) - {""}, there)
    for name in sorted(there):
        page.choose(name)
        for job, part, ending in (("run", "output", "out"), ("runs", "listing", "runs"), ("list", "output", "list"),
                                  ("check", "output", "check")):
            wanted = read(f"{TOP}/examples/{name}.{ending}", None)
            if wanted is not None:
                page.job(job)
                tally.equal(f"{job} of the example {name}", page.text(part) or "", wanted.decode())
        if os.path.isfile(f"{TOP}/examples/{name}.err"):
            page.job("run")
            tally.equal(f"the message of {name}", page.text("errors"), read(f"{TOP}/examples/{name}.err").decode())
        tally.equal(f"what is pasted behind {name}",
                    page.browser.evaluate("document.querySelectorAll('#library :checked').length"), 0)


def first_view(tally, page):
    """The page opens with the tree of its first example. Each example has a sentence, which names what it fills in."""
    tally.equal("the first example", page.value("example"), "quiet")
    tally.check(page.status().startswith("4 runs, and no other"), f"the status {page.status()!r} of an opened page")
    tally.equal("the tree of an opened page", page.browser.evaluate("document.querySelectorAll('.leaf').length"), 2)
    place = page.browser.evaluate("[scrollY, document.activeElement.tagName].join()")
    tally.equal("where an opened page stands", place, "0,BODY")
    for name in page.browser.evaluate("[...document.querySelectorAll('#example option')].map((it) => it.value).join()"
                                      ).split(",")[1:]:
        page.choose(name)
        options = [word[2:] for words in example_words(name).values() for word in words if word.startswith("--")]
        said = page.text("shows") or ""
        tally.check(re.match(r"[A-Z].*[.?]", said), f"the sentence {said!r} of {name}")
        named = {"choices", "seed"} & set(options)
        tally.equal(f"the values that {name} fills in", {it for it in named if f"{it} {page.value(it)}" in said}, named)
    page.choose("")
    tally.equal("the sentence of no example", page.text("shows"), None)


# An output of zeros, whose numeral is a bar and nothing below it.
ZEROS = "DO READ OUT #0\nDO %50 READ OUT #0\nPLEASE GIVE UP\n"
OVER = """(() => {
  const box = (it) => it.getBoundingClientRect();
  return [...document.querySelectorAll('#bars .bar')].filter((bar) =>
    box(bar).top <= box(bar.closest('.outcome').querySelector('.weight')).bottom).length;
})()"""


def narrow(tally, page):
    """On a phone's screen the bar of a zero isn't drawn over the line above, and no number is broken."""
    page.browser.resize(390, 844)
    page.set(source=ZEROS, choices="", seed="", limit="")
    page.job("outcomes")
    tally.equal("zeros over the line above", page.browser.evaluate(OVER), 0)
    numbers = "[...document.querySelectorAll('#bars :is(.weight, .many)')]"
    most = page.browser.evaluate(f"Math.max(...{numbers}.map((it) => it.getClientRects().length))")
    tally.equal("lines of a number", most, 1)
    is_wider = page.browser.evaluate("document.documentElement.scrollWidth > innerWidth")
    tally.check(not is_wider, "the page is wider than a phone")
    page.browser.resize(1280, 900)


def wide(tally, page):
    """A wide screen is used, and the trees of doors.i and queens.i fit."""
    fits = "(({ scrollWidth, clientWidth }) => scrollWidth <= clientWidth)(document.getElementById('tree'))"
    for width, names in ((2560, ("doors", "queens")), (1280, ("doors",))):
        page.browser.resize(width, 1400)
        for name in names:
            page.choose(name)
            page.job("runs")
            tally.check(page.browser.evaluate(fits), f"the tree of {name} doesn't fit into {width} pixels")
        used = page.browser.evaluate("document.querySelector('main').getBoundingClientRect().width / innerWidth")
        tally.check(used > .98, f"{used} of {width} pixels are used")
    page.browser.resize(1280, 900)


def question(tally, page):
    """A run that asks offers both choices, one after the other, and each can be taken back."""
    page.choose("quiet")
    page.job("run")
    tally.check("asks for a choice" in page.status(), "a run that asks doesn't say so")
    tally.equal("a message beside the question", page.text("errors"), None)
    page.press("[data-choice='1']")
    tally.equal("the run after one choice", (page.value("choices"), page.text("output")), ("1", "\nV\n"))
    page.press("[data-choice='0']")
    tally.equal("the run after both choices", (page.value("choices"), page.text("output")), ("10", "\nV\n\nI\n"))
    tally.equal("a question behind the end", page.text("question-name"), None)
    page.set(choices="1")
    page.job("run")
    page.press("#back")
    tally.equal("the run without its last choice", (page.value("choices"), page.text("output")), ("", None))
    page.choose("again")
    page.set(choices="1*70", limit="100")
    page.job("run")
    page.press("[data-choice='1']")
    page.press("[data-choice='0']")
    tally.equal("choices in groups", (page.value("choices"), page.status()[:19]), ("1*71,0*1", "The program gave up"))


def stopping(tally, page):
    """A run without an end says that it runs, and can be stopped."""
    page.set(source=ENDLESS, choices="", limit="4294967295")
    page.browser.evaluate("document.querySelector('[data-job=run]').click()")
    page.browser.wait("document.getElementById('status').textContent.startsWith('Running')")
    page.browser.wait("/ends it0[.][5-9] s|ends it[1-9]/.test(document.getElementById('status').textContent)")
    page.browser.evaluate("document.querySelector('[data-job=runs]').click()")
    page.press("#stop")
    tally.check(page.status().startswith("Stopped"), "the run wasn't stopped")
    page.choose("hello")
    page.job("run")
    tally.equal("a run after a stop", page.text("output"), "Hello, world!\n")


def going_on(tally, page):
    """A listing goes on by its cursor until no run is left, and every run is there once."""
    page.choose("fair")
    page.set(count="5")
    for wanted in (5, 10, 15, 20, 22):
        if wanted == 5:
            page.job("runs")
        else:
            page.press("#more")
        tally.equal(f"the lines of a listing with {wanted} runs", page.text("listing").count("\n"), wanted + 1)
    tally.equal("a listing in parts", page.text("listing"), read(f"{TOP}/examples/fair.runs").decode())
    tally.equal("a button behind the last run", page.text("more"), None)
    tally.check("22 runs, and no other" in page.status(), f"the status {page.status()!r} of a whole listing")


def tree(tally, page):
    """Equal parts of the tree are one, and an end runs again."""
    leaves = "[...document.querySelectorAll('.leaf')].map((it) => it.textContent)"
    page.choose("box")
    page.job("runs")
    names = page.browser.evaluate(f"{leaves}.join('|')").split("|")
    tally.equal(f"the first of the ends {names}", names[0].startswith("Run 000000: E241@21"), True)
    tally.equal("the ends of the box", len(names), 3)
    tally.equal("an end of 62 runs", sum("62 runs" in name for name in names), 1)
    tally.equal(f"the second of the ends {names}", names[1].startswith("Run 000001: GIVE-UP, output “Safe”"), True)
    page.press_leaf(2)
    tally.equal("an end that is run again", (page.value("choices"), page.text("output")), ("000010", "Safe\n"))
    tally.check("run 000010" in page.status(), f"the status {page.status()!r} of an end")
    tally.equal("the listing behind an end that was run again", page.text("listing").count("\n"), 65)
    page.choose("die")
    page.job("runs")
    page.press_leaf(0)
    tally.check("reaches its limit" in page.status(), "an end at its limit isn't run with the limit of the listing")
    page.choose("again")
    page.set(count="1", limit="10")
    page.job("runs")
    tally.equal("the rest of a listing", page.browser.evaluate("document.querySelectorAll('.rest').length"), 1)


def outcomes(tally, page):
    """Each outcome has a bar by its weight, and leads to its first run. A branch of the tree says what asks there."""
    page.choose("die")
    page.job("outcomes")
    tally.check(page.status().startswith("6.25 % lies behind the limit6 outcomes within it, and no other"),
                f"the status {page.status()!r} of outcomes")
    tally.equal("the headline in the colour of a limit", page.texts("#status .wait"), "6.25 % lies behind the limit")
    texts = "[...document.querySelectorAll('#bars .{}')].map((it) => it.textContent).join()"
    tally.equal("the weights of a die", page.browser.evaluate(texts.format("weight")), "6.25 %" + ",15.6 %" * 6)
    tally.equal("the ends of a die", page.browser.evaluate(texts.format("end")), "LIMIT" + ",GIVE-UP" * 6)
    tally.equal("the outputs of a die", page.browser.evaluate(texts.format("wrote")), ",I,II,III,IV,V,VI")
    tally.equal("the numbers of runs of a die", page.browser.evaluate(texts.format("many")), "8 runs" + ",3 runs" * 6)
    widths = page.browser.evaluate("[...document.querySelectorAll('#bars .fill')].map((it) => it.style.width).join()")
    tally.equal("the bars of a die", widths, ",".join(["100%"] * 6))
    page.press("#bars li:nth-child(3) button")
    tally.equal("the first run of an outcome", (page.value("choices"), page.text("output")), ("000010", "\nII\n"))
    bars = page.browser.evaluate("document.querySelectorAll('#bars li').length")
    tally.equal("the outcomes behind a run of one", bars, 7)
    page.choose("doors")
    page.job("runs")
    tally.equal("the outcomes behind a listing", page.text("weighed-name"), None)
    asked = "[...document.querySelectorAll('#tree .asker')].map((it) => it.textContent.trim()).join()"
    found = set(page.browser.evaluate(asked).split(","))
    tally.equal("what asks in doors.i", found, {"3 %50", "4 %33", "8 %50", "14 %50"})
    page.set(source=COUNTED, limit="", seed="", choices="")
    page.job("outcomes")
    many = page.browser.evaluate(texts.format("many"))
    tally.equal("a number of runs of many digits", many, "1 run,about 10^90 runs")
    page.choose("die")
    page.set(limit="")
    page.job("outcomes")
    tally.equal("the outcomes of a die without a limit", page.texts("#status .ok"), "6 outcomes, and no other")
    tally.equal("their weights", page.browser.evaluate(texts.format("weight")), ",".join(["1/6 = 16.7 %"] * 6))
    tally.equal("their numbers of runs", page.browser.evaluate(texts.format("many")), ",".join(["infinitely many runs"] * 6))
    page.set(limit="10000")
    page.job("outcomes")
    found = re.match(r"(.*) lies behind the limit", page.status())[1]
    tally.check(re.fullmatch(r"\d\.\de-\d{3} %", found), f"{found!r} lies behind 10,000 steps of a die")
    for weight, wanted in (("1", "100 %"), ("0.333333333333333..", "33.3 %"), ("0.000000152", "1.5e-5 %"),
                           ("0.000001", "1.0e-4 %"), ("1/6", "16.7 %"), ("1/9999999", "1.0e-5 %")):
        tally.equal(f"{weight} in percent", page.browser.evaluate(f"percentOf('{weight}')"), wanted)
    page.set(source=REFUSED, limit="")
    page.job("outcomes")
    tally.check("is refused" in page.status() and page.text("weighed-name") is None, "a refusal has outcomes")


def limits(tally, page):
    """What lies behind a limit, or never ends, is no outcome, and is said first."""
    for name in ("life", "primes"):
        page.choose(name)
        page.job("outcomes")
        tally.equal(f"the outcome of {name} without a limit", page.texts("#status .ok"), "1 outcome, and no other")
        page.set(limit="10000")
        page.job("outcomes")
        tally.check(page.status().startswith("100 % lies behind the limitno outcome within it"),
                    f"the status {page.status()!r} of the outcomes of {name}")
        page.job("runs")
        tally.check(page.status().startswith("1 run reaches the limit1 run, and no other, 0 outcomes"),
                    f"the status {page.status()!r} of the runs of {name}")
        tally.equal(f"a headline of {name} in green", page.texts("#status .ok"), "")
    page.set(source=PRINTS_ON, limit="")
    page.job("outcomes")
    tally.check(page.status().startswith("100 % lies behind the limitno outcome within it"),
                f"the status {page.status()!r} of a loop that prints")
    page.choose("walk")
    page.job("runs")
    tally.check(re.match(r"\d+ runs reach the limit", page.status()), f"the status {page.status()!r} of walk")
    page.choose("hello")
    page.job("outcomes")
    tally.equal("an outcome without a limit", page.texts("#status .ok"), "1 outcome, and no other")
    lines = json.dumps('* 2/3 0 GIVE-UP ""\n* 1/3 1 NEVER ""\nDONE\n')
    tally.equal("lines that never end", page.inject(f"""
        const found = readOutcomes({lines}), item = outcomeItem(found.outcomes[0], 2 / 3);
        answer = [openOf(found.open), found.outcomes.length, item.textContent, item.querySelector('.fill').style.width];
    """), ["33.3 % never ends", 1, "2/3 = 66.7 %GIVE-UPinfinitely many runs", "100%"])


# A loop that prints without an end, so the states are without an end too.
PRINTS_ON = "(1) DO FORGET #1\nDO READ OUT #1\nPLEASE DO (1) NEXT\n"
# Two statements with unlike chances, and ten that each print another number.
UNLIKE = "DO %90 READ OUT #1\nDO %30 READ OUT #2\nPLEASE GIVE UP\n"
MANY = "".join(f"{'DO' if at % 4 else 'PLEASE'} %50 READ OUT #{at + 1}\n" for at in range(10)) + "DO GIVE UP\n"


def bars(tally, page):
    """The longest bar is the greatest weight. Outcomes are sorted by order or by weight, and all are reached."""
    page.set(source=UNLIKE, choices="", seed="", limit="", input="")
    page.job("outcomes")
    tally.equal("weights in their order", page.texts("#bars .weight"), "7 %,3 %,63 %,27 %")
    page.press("#by-weight")
    tally.equal("weights by their size", page.texts("#bars .weight"), "63 %,27 %,7 %,3 %")
    widths = page.browser.evaluate("[...document.querySelectorAll('#bars .fill')].map((it) => "
                                   "Math.round(parseFloat(it.style.width))).join()")
    tally.equal("bars by the greatest weight", widths, "100,43,11,5")
    title = page.browser.evaluate("document.querySelector('#bars button').title")
    tally.equal("the title of an outcome of one run", title, "Weight 0.63, 1 run. Runs 10 again")
    page.press("#by-weight")
    page.set(source=MANY)
    page.job("outcomes")
    for count, left in ((500, "524 more"), (1000, "24 more"), (1024, None)):
        found = page.browser.evaluate("document.querySelectorAll('#bars li').length")
        tally.equal("the outcomes that are shown", found, count)
        said = page.text("more-bars")
        tally.equal("the outcomes that are left", said and said.partition(": ")[2], left)
        if left:
            page.press("#more-bars")


SAVED = """
  globalThis.saved = new Promise((done) => {
    HTMLAnchorElement.prototype.click = function () { blob.text().then((text) => done([this.download, text])); };
  });
  URL.createObjectURL = (made) => { globalThis.blob = made; return 'blob:x'; };
  document.querySelector(BUTTON).click();
  answer = await globalThis.saved;
"""


def saved(page, part):
    """Returns the name and the text of the file that a button of a part saves."""
    return page.inject(SAVED.replace("BUTTON", json.dumps(f"[data-save='{part}']")))


def saving(tally, page):
    """Listings and outcomes are saved as text and as ick-json has them, and a tree as a drawing of its own."""
    page.choose("box")
    for job, part, ending in (("runs", "runs", "runs"), ("outcomes", "outcomes", "outcomes")):
        page.job(job)
        name, text = saved(page, f"{part} txt")
        wanted = read(f"{TOP}/examples/box.{ending}", None)
        tally.equal(f"the name of saved {part}", name, f"box-{part}.txt")
        if wanted is not None:
            tally.equal(f"saved {part}", text, wanted.decode())
        name, found = saved(page, f"{part} json")
        told = subprocess.run([f"{TOP}/tools/ick-json"], input=text.encode(), capture_output=True, check=True).stdout
        tally.equal(f"{part} as JSON", [json.loads(line) for line in found.splitlines()],
                    [json.loads(line) for line in told.splitlines()])
    page.set(source=COUNTED, choices="", seed="", limit="")
    page.job("outcomes")
    _, found = saved(page, "outcomes json")
    tally.equal("a number of many digits", json.loads(found.splitlines()[1])["runs"], 2 ** 300 - 1)
    page.choose("doors")
    page.job("runs")
    name, text = saved(page, "tree svg")
    drawing = xml.etree.ElementTree.fromstring(text)
    leaves = [it for it in drawing.iter() if "leaf" in it.get("class", "").split()]
    tally.equal("a saved tree", (name, len(leaves)), ("doors-tree.svg", 6))
    tally.check(".leaf" in text and "var(" not in text, "a saved tree without its style")


def stepping(tally, page):
    """A session goes forwards and backwards, asks for choices, and marks the statement that is met next."""
    marked = "[...document.querySelectorAll('#{} mark')].map((it) => it.textContent).join('')"
    page.set(source=STEPPED, input="NINE\n", choices="", seed="", limit="", watched=".1")
    page.job("step")
    for button, said, place, change, printed in STEPS:
        if button:
            page.press(button)
        name = f"after {button}"
        tally.check(page.status().startswith(said), f"the status {page.status()!r} {name}")
        tally.equal(f"the statement {name}", page.browser.evaluate(marked.format("around")), place and f"> {place}\n")
        tally.equal(f"the changes {name}", page.browser.evaluate(marked.format("state")), change)
        tally.equal(f"the output {name}", page.text("output"), printed)
        line = page.browser.evaluate("document.querySelector('#numbers .here')?.textContent ?? ''")
        tally.equal(f"the line {name}", line, place and place.split(":")[0].split()[1])
        asks = page.text("question-name") is not None
        tally.equal(f"a question {name}", asks, said.endswith("choice"))
    page.set(watched="x")
    page.press("[data-step=why]")
    tally.equal("no name", page.text("told"), "why takes one variable or array, such as .1 or ,2\n")
    page.job("run")
    tally.equal("a session behind a run", (page.text("told"), page.value("choices")), (None, ""))
    page.press("[data-choice='0']")
    tally.equal("a choice of a run behind a session", page.value("choices"), "0")
    page.set(source=MIDDLE, choices="")
    page.job("step")
    page.press("[data-choice='1']")
    tally.equal("marks behind an end", (page.status()[:19], page.texts("#around mark"), page.texts("#numbers .here")),
                ("The program gave up", "", ""))
    page.set(source=FAR)
    page.job("step")
    page.press("[data-step=run]")
    tally.equal("the line far below", page.texts("#numbers .here"), "81")
    tally.equal("whether the line far below is seen", page.browser.evaluate(HERE_IS_SEEN), True)
    page.set(source="DO X", choices="")
    page.job("step")
    page.press("[data-step=step]")
    tally.check(page.status().startswith("The run ends by a fault"), f"the status {page.status()!r} of a fault")
    page.set(source=REFUSED)
    page.job("step")
    tally.check("is refused" in page.status() and page.text("told") is None, "a refusal has a session")


def breakpoints(tally, page):
    """A click on a line's number sets a breakpoint, at which a session stops, and deletes it again."""
    page.set(source=CALLS, input="", choices="", seed="", limit="")
    page.job("step")
    for action, said, lines, told in STOPS:
        if action == "click":
            page.browser.evaluate(CLICK_AT_LINE.replace("LINE", "4"))
            page.idle()
        else:
            page.press(f"[data-step={action}]")
        tally.check(page.status().startswith(said), f"the status {page.status()!r} after {action}")
        tally.equal(f"the breakpoints after {action}", page.texts("#numbers .stop"), lines)
        tally.check(told in page.text("told"), f"the answer {page.text('told')!r} to {action}")
    page.browser.evaluate("document.getElementById('source').setSelectionRange(0, 0), document.activeElement.blur()")
    page.browser.press("t")
    page.idle()
    tally.equal("a breakpoint by its key", page.texts("#numbers .stop"), "1")
    page.browser.press("o")
    page.idle()
    tally.equal("out by its key", page.text("told"), "the NEXT stack is empty\n")
    page.job("run")
    tally.equal("breakpoints behind a session", page.texts("#numbers .stop"), "")


CALLS = "DO (10) NEXT\nDO READ OUT #1\nPLEASE GIVE UP\n(10) DO .1 <- #2\nDO RESUME #1\n"
CLICK_AT_LINE = """(() => {
  const range = document.createRange();
  range.selectNode([...document.querySelector('#numbers div').childNodes].find((it) => it.textContent === 'LINE'));
  const { top, height } = range.getBoundingClientRect(), clientY = top + height / 2;
  document.getElementById('numbers').dispatchEvent(new MouseEvent('click', { clientY, bubbles: true }));
})()"""
# What is done, and what the page shows: the status, the lines with breakpoints, and a part of the answer.
STOPS = [
    ("click", "Statement 1 is met next", "4", 'breakpoint at 4 4:1 "(10) DO .1 <- #2"\n'),
    ("run", "Statement 4 is met next", "4", "  breakpoint\n"),
    ("out", "Statement 2 is met next", "4", '3 2 2:1 "DO READ OUT #1"\n'),
    ("back", "Statement 5 is met next", "4", '2 5 5:1 "DO RESUME #1"\n'),
    ("back", "Statement 4 is met next", "4", "  breakpoint\n"),
    ("click", "Statement 4 is met next", "", "breakpoint deleted\n"),
    ("back", "Statement 1 is met next", "", '0 1 1:1 "DO (10) NEXT"\n'),
    ("run", "The program gave up", "", "5 ended: GIVE UP\n"),
]
MIDDLE = "DO %50 GIVE UP\nDO READ OUT #1\nPLEASE GIVE UP\n"
FAR = "DO .1 <- #1\nDO .1 <- #1\nDO .1 <- #1\nPLEASE .1 <- #1\n" * 20 + "DO %50 READ OUT .1\nDO GIVE UP\n"
HERE_IS_SEEN = """(() => {
  const [line, frame] = ['.here', '.editor'].map((it) => document.querySelector(it).getBoundingClientRect());
  return line.top >= frame.top && line.bottom <= frame.bottom;
})()"""
STEPPED = "DO .1 <- #5\nDO %50 READ OUT .1\nDO WRITE IN .1\nPLEASE GIVE UP\n"
ONE, TWO, THREE, FOUR = [f'{number} {number}:1 "{line}"' for number, line in enumerate(STEPPED.split("\n")[:-1], 1)]
# A button, and what the page shows: the status, the next statement, what changed in the state, and the output.
STEPS = [
    (None, "Statement 1 is met next", ONE, "", None),
    ("[data-step=step]", "The run asks for a choice", TWO, "next statement: 2 of 4\n.1 = 5\n", None),
    ("[data-choice='1']", "Statement 3 is met next", THREE, "next statement: 3 of 4\noutput: 3\n", "\nV\n"),
    ("[data-step=next]", "Statement 4 is met next", FOUR, "next statement: 4 of 4\n.1 = 9\ninput left: 0\n", "\nV\n"),
    ("[data-step=why]", "Statement 3 is met next", THREE, "next statement: 3 of 4\n.1 = 5\ninput left: 5\n", "\nV\n"),
    ("[data-step=back]", "The run asks for a choice", TWO, "next statement: 2 of 4\noutput: 0\n", None),
    ("[data-choice='0']", "Statement 3 is met next", THREE, "next statement: 3 of 4\n", None),
    ("[data-step=watch]", "Statement 4 is met next", FOUR, "next statement: 4 of 4\n.1 = 9\ninput left: 0\n", None),
    ("[data-step=run]", "The program gave up", "", "next statement: 5 of 4\nended: GIVE UP\n", None),
]

# One of 300 parts fails, by 1 in 100 for each: the counts are 2^300 - 1 and 1.
COUNTED = "".join(f"{'DO' if at % 4 else 'PLEASE'} %1 .1 <- #1\n" for at in range(300)) + "DO READ OUT .1\nDO GIVE UP\n"
REFUSED = "DO READ OUT #70000\n"
CUT = "".join(f"{'DO' if at % 4 else 'PLEASE'} %50 READ OUT #3888\n" for at in range(16)) + "DO GIVE UP\n"
COINS = "".join(f"{'DO' if at % 4 else 'PLEASE'} %50 FORGET #0\n" for at in range(14)) + "DO GIVE UP\n"
ROOT_IS_SEEN = """(() => {
  const tree = document.getElementById('tree'), frame = tree.getBoundingClientRect();
  const dots = [...tree.querySelectorAll('.dot, .branch')].map((it) => it.getBoundingClientRect());
  const first = dots.reduce((one, other) => (other.left < one.left ? other : one));
  return first.top >= frame.top && first.bottom <= frame.bottom && first.left >= frame.left;
})()"""


def large_trees(tally, page):
    """Equal parts are one before the tree is cut. A drawing is limited by its parts, begins at its root, and fits."""
    page.set(source=COINS, count="20000", limit="", seed="", choices="", input="")
    page.job("runs")
    tally.check("16,384 runs, and no other" in page.status() and "1 outcome" in page.status(), "14 coins aren't listed")
    parts = "document.querySelectorAll('#tree :is(.dot, .branch, .leaf)').length"
    tally.equal("the parts of 14 quiet coins", page.browser.evaluate(parts), 15)
    page.set(source=CUT, count="70000")
    page.job("runs")
    tally.check("cut at 4 MiB" in page.status(), f"the status {page.status()!r} of a listing of more than 4 MiB")
    tally.check(page.browser.evaluate(parts) <= 200, "a drawing has more than 200 parts")
    tally.equal("whether the root of a large tree is seen first", page.browser.evaluate(ROOT_IS_SEEN), True)
    page.press("#fit")
    tree = "document.getElementById('tree')"
    tally.check(page.browser.evaluate(f"{tree}.scrollWidth <= {tree}.clientWidth"), "a tree isn't fitted")
    page.press("#fit")
    page.set(source=CUT.replace("#3888", "#1 + #2") + "DO READ OUT #7\n", count="900")
    page.job("runs")
    rests = page.browser.evaluate("[...document.querySelectorAll('#tree .rest')].map((it) => it.textContent).join('|')")
    tally.check("…" in rests, f"a listing that goes on has no rest: {rests!r}")


def drawn_by_tool(path):
    """Returns what ick-tree draws of the listing of an example, with what asks for its choices."""
    options, given = example_words(os.path.basename(path)[:-5]), f"{path[:-5]}.in"
    words = [f"{TOP}/tools/ick-tree", "--format", "dot", "--depth", "200", "--width", "10000"]
    words += ["--program", f"{path[:-5]}.i", *options.get("runs", []), path]
    words += ["--input", given] if os.path.isfile(given) else []
    return subprocess.run(words, capture_output=True, check=True).stdout.decode()


def equal_parts(tally, page):
    """The tree has as many parts as ick-tree draws of the same listing. Numerals have their bars."""
    for path in sorted(glob.glob(f"{TOP}/examples/*.runs")):
        page.choose(os.path.basename(path)[:-5])
        page.job("runs")
        found = page.browser.evaluate("document.querySelectorAll('#tree :is(.dot, .branch, .leaf)').length")
        dot = drawn_by_tool(path)
        wanted = 0 if page.text("tree-name") is None else len(re.findall(r"^  n\d+ \[", dot, re.MULTILINE))
        if wanted > 200:
            tally.check(found <= 200, f"the tree of {path} has {found} parts")
            continue
        tally.equal(f"the parts of the tree of {path}", found if wanted else 0, wanted)
    page.set(source="DO READ OUT #3999 + #4000\nDO %50 READ OUT #0\nPLEASE GIVE UP\n", limit="", seed="", choices="")
    page.job("runs")
    for kind, wanted in (("branch", "MMMCMXCIX, MV  2 %50"), ("bar", "V,\u2007\u2007"),
                         ("leaf title", "Run 0: GIVE-UP, output 3999, 4000,Run 1: GIVE-UP, output 3999, 4000, 0")):
        texts = f"[...document.querySelectorAll('#tree .{kind}')].map((it) => it.textContent).join()"
        tally.equal(f"the texts of .{kind} in the tree", page.browser.evaluate(texts), wanted)


def type_source(page, text):
    """Writes a program as a user does: the page sees it being typed."""
    page.set(source=text)
    page.browser.evaluate("document.getElementById('source').dispatchEvent(new Event('input', { bubbles: true }))")
    page.browser.wait(f"JSON.parse(sessionStorage.getItem('ick.form')).fields.source === {json.dumps(text)}")


def keeping(tally, page):
    """What was typed outlives a reload. It comes back after an example took its place, by the button and by Ctrl-Z."""
    text = "DO READ OUT #7\nPLEASE GIVE UP\n"
    type_source(page, text)
    page.set(seed="5")
    page.browser.evaluate("document.getElementById('seed').dispatchEvent(new Event('input', { bubbles: true }))")
    page.browser.wait("JSON.parse(sessionStorage.getItem('ick.form')).fields.seed === '5'")
    page.browser.evaluate("(window.isOld = true, location.reload())")
    page.browser.wait("!window.isOld && document.getElementById('made').textContent !== ''")
    page.idle()
    tally.equal("the form after a reload", (page.value("source"), page.value("seed")), (text, "5"))
    for how in ("the button", "Ctrl-Z"):
        page.choose("hello")
        page.choose("liars")
        tally.check(page.text("kept") is not None, "a page that doesn't say that it keeps what was typed")
        if how == "the button":
            page.press("#undo")
        else:
            page.browser.evaluate("document.getElementById('source').focus()")
            page.browser.press("z", control=True)
        tally.equal(f"the form after {how}", (page.value("source"), page.value("seed"), page.text("kept")),
                    (text, "5", None))
    page.choose("hello")
    page.press("#undo")
    page.choose("hello")
    page.open()
    page.choose("hello")
    tally.equal("what is kept if nothing was typed", page.text("kept"), None)


def marked(page):
    """The lines that are marked, with their kinds."""
    texts = "[...document.querySelectorAll('#numbers b')].map((it) => `${it.textContent} ${it.className}`).join()"
    return page.browser.evaluate(texts)


def lines(tally, page):
    """Each line has its number. The lines of a fault, of a refusal and of advice are marked, and advice leads there."""
    type_source(page, "DO READ OUT #1\nDO .1 <- 5\nPLEASE GIVE UP\n")
    tally.equal("the numbers of the lines", page.text("numbers"), "1\n2\n3\n4\n")
    page.browser.wait("document.querySelector('#numbers b') !== null")
    tally.equal("the line of an advice", marked(page), "2 wait")
    page.press("#advice button")
    source = "document.getElementById('source')"
    chosen = page.browser.evaluate(f"{source}.value.slice({source}.selectionStart, {source}.selectionEnd)")
    tally.equal("where an advice leads", chosen, "DO .1 <- 5")
    page.job("run")
    tally.equal("the line of a fault", marked(page), "2 bad")
    tally.check("Line 2 E000 at statement 2" in page.text("advice"), f"the list of advice {page.text('advice')!r}")
    page.set(source="DO READ OUT #1\nPLEASE\nREAD OUT #70000\nDO GIVE UP\n")
    page.job("check")
    page.browser.wait("document.querySelectorAll('#numbers b').length === 2")
    tally.equal("the line of a refusal, and of its advice", marked(page), "2 bad,3 bad")
    page.choose("sort")
    page.job("run")
    tally.equal("marks in a program without a mistake", marked(page), "")
    type_source(page, "DO SOMETHING ELSE\n" * 300)
    page.browser.wait("document.querySelectorAll('#advice li').length > 1")
    tally.equal("the pieces of advice that are listed", page.browser.evaluate(
        "[document.querySelectorAll('#advice button').length, "
        "document.querySelector('#advice li:last-child').textContent].join()"), "200,… and 102 more")


LARGE = "".join(f"{'DO' if at % 4 else 'PLEASE'} .{at % 50 + 1} <- '.2$#{at}'~#21845\n" for at in range(5000))
# How long the page takes for a key, in the best of some tries: the machine may do other things too. The browser lays
# its own field out before that.
KEYS = """
  const field = document.getElementById('source');
  answer = Infinity;
  for (let key = 0; key < 80 && answer >= 16; key += 1) {
    const place = editor.starts[2500] + 3 + key;
    field.setRangeText('X', place, place, 'end');
    field.scrollHeight;
    const began = performance.now();
    field.dispatchEvent(new Event('input', { bubbles: true }));
    field.getBoundingClientRect();
    answer = Math.min(answer, performance.now() - began);
    await new Promise((done) => setTimeout(done, 20));
  }
"""
# Random changes of a program, after each of which its groups are those of the program as a whole.
CHANGED = """
  const pieces = ['DO', 'PLEASE', 'NOT', "N'T", ' ', '\\n', '%50', '(12)', 'FROM', 'READ', 'OUT', 'WRIT', 'ING IN', 'D',
    'O', 'REA', 'UT', 'P', 'LEASE', '.1', '#', '"', '5', 'READOUT', 'G', 'IVE UP', '(', ')'];
  let seed = 1, text = START, wrong = '';
  const drawnOf = (count) => { seed = (seed * 48271) % 2147483647; return seed % count; };
  const stretches = new Stretches();
  for (let change = 0; change < 200 && !wrong; change += 1) {
    const place = drawnOf(text.length + 1), cut = drawnOf(3) ? 0 : drawnOf(12);
    const added = Array.from({ length: drawnOf(4) }, () => pieces[drawnOf(pieces.length)]).join('');
    text = text.slice(0, place) + added + text.slice(place + cut);
    stretches.update(text);
    if (JSON.stringify(stretches.found) !== JSON.stringify(groupsIn(text))) wrong = text;
  }
  answer = wrong;
"""


def typing(tally, page):
    """A key takes less than 16 ms in 5,000 statements. The colours after changes are those of the whole."""
    type_source(page, LARGE)
    least = page.inject(KEYS)
    tally.check(least < 16, f"a key takes {least:.1f} ms in 5,000 statements")
    line = "document.getElementById('shown').textContent.includes('X')"
    page.inject("editor.reveal(2501); answer = 0;")
    page.browser.wait(line)
    for name in ("quiet", "calculator", "comments"):
        start = read(f"{TOP}/examples/{name}.i").decode()
        wrong = page.inject(CHANGED.replace("START", json.dumps(start)))
        tally.equal(f"a text from {name} whose colours are wrong", wrong, "")


def same_advice(tally, page):
    """The page's advice is that of ick-advice."""
    sys.path[:0] = [f"{TOP}/tests/tools", f"{TOP}/tools"]
    import advice
    import common
    import lines
    import programs
    chance = random.Random(51)
    texts = [row[0] for row in advice.ROWS]
    texts += [common.content(path).decode() for path in common.EXAMPLES + common.LIBRARY]
    texts += [text for text in (lines.random_text(chance).decode("latin-1") for _ in range(100)) if text.isascii()]
    texts += [programs.source_of(programs.Maker(random.Random(seed)).program()).decode() for seed in range(60)]
    for text in texts:
        found = page.inject(f"const source = {json.dumps(text)}, found = advice.of(source, await reading.linesOf(source));"
                            "answer = found.map(({ line, text }) => `${line}: ${text}\n`).join('');")
        told = subprocess.run([f"{TOP}/tools/ick-advice", "--brief"], input=text.encode(), capture_output=True, check=False).stdout
        wanted = re.sub(r"^-:(\d+):\d+:", r"\1:", told.decode(), flags=re.MULTILINE)
        tally.equal(f"the advice on {text!r}", found, wanted)


def same_colours(tally, page):
    """The page colours programs as the syntax file for vim does."""
    sys.path[:0] = [f"{TOP}/tests/tools", f"{TOP}/tools"]
    import vim
    with tempfile.TemporaryDirectory() as folder:
        for name, source in vim.sources():
            page_groups = page.browser.evaluate(f"groupsIn({json.dumps(source.decode('latin-1'))})"
                                                ".map(({ text, group }) => `${group} ${text}`).join('\\0')")
            with open(f"{folder}/tried.i", "wb") as file:
                file.write(source)
            vim_groups = vim.groups_of([f"{folder}/tried.i"])[0]
            wanted = ["ick" + group for group, text in (it.split(" ", 1) for it in page_groups.split("\0") if it)
                      for letter in text if not letter.isspace()]
            found = [group for byte, group in zip(source, vim_groups) if not bytes([byte]).isspace()]
            tally.equal(f"vim's groups in {name}", found, wanted)


def files(tally, page):
    """A program is opened from a file and saved as one."""
    page.open()
    page.browser.evaluate("openFile(new File(['DO GIVE UP\\n'], 'x.i'))")
    page.browser.wait("document.getElementById('source').value === 'DO GIVE UP\\n'")
    page.browser.evaluate("""
        HTMLAnchorElement.prototype.click = function () { window.saved = this.download; };
        URL.createObjectURL = (blob) => { window.blob = blob; return 'blob:x'; }; 0""")
    page.press("#save")
    tally.equal("the file that is saved",
                page.browser.evaluate("window.blob.text().then((text) => `${window.saved} ${text}`)"),
                "program.i DO GIVE UP\n")


def links(tally, page):
    """A link holds the whole form, and a spoiled link says so."""
    fields = {"source": "DO READ OUT #7\nPLEASE GIVE UP\nDO é\n", "input": "ONE\n", "choices": "01", "seed": "5",
              "limit": "60", "count": "9"}
    page.set(**fields)
    page.browser.evaluate("document.querySelector('#library input').checked = true")
    page.browser.evaluate("document.getElementById('link').click()")
    page.browser.wait("document.getElementById('status').textContent.startsWith('The link is')")
    fragment = page.browser.evaluate("location.hash")
    page.open(fragment)
    tally.equal("the form of a link", {name: page.value(name) for name in fields}, fields)
    ticked = page.browser.evaluate("document.querySelector('#library input').checked")
    tally.equal("the library of a link", ticked, True)
    tally.equal("the example of a link", page.value("example"), "")
    page.open(fragment[:-9])
    tally.check("can’t be read" in page.status(), f"the status {page.status()!r} of a spoiled link")
    page.open("#status")
    tally.equal("the first example", page.value("example"), "quiet")


def failures(tally, page):
    """Refusals, wrong options, and memory that runs out have their status and their message."""
    page.set(source="DO READ OUT #70000\n", seed="", choices="")
    page.job("check")
    tally.check("is refused" in page.status() and page.text("errors").startswith("ICL017I"), "a refusal isn't shown")
    page.set(seed="x")
    page.job("run")
    tally.check("status 64" in page.status() and "--seed" in page.text("errors"), "a wrong option isn't shown")
    page.choose("hello")
    page.set(source=GREEDY)
    page.job("run")
    tally.equal("memory that runs out", ("status 4" in page.status(), page.text("errors")), (True, "OUT OF MEMORY\n"))
    page.choose("hello")
    page.job("run")
    tally.equal("a run after memory ran out", page.text("output"), "Hello, world!\n")
    page.set(source=LONG, limit="3000000", seed="", choices="")
    page.job("run")
    tally.check("200,000 characters of 3,000,000." in page.text("output"), "a long output isn't cut")


def alone(tally, page):
    """The page can neither load nor send, and fits a narrow screen. Each control has a name."""
    refused = page.browser.evaluate("""new Promise((done) => {
        document.addEventListener('securitypolicyviolation', (event) => done(event.effectiveDirective));
        fetch('http://127.0.0.1:9/').catch(() => 0);
    })""")
    tally.equal("what keeps the page from sending", refused, "connect-src")
    for width in (320, 375, 1280):
        page.browser.resize(width, 800)
        page.choose("guess")
        for job in ("run", "runs", "outcomes", "list", "stages"):
            page.job(job)
            tally.check(page.browser.evaluate("document.documentElement.scrollWidth <= innerWidth"),
                        f"the page is wider than {width} pixels after {job}")
    nodes = page.browser.call("Accessibility.getFullAXTree")["nodes"]
    controls = [it for it in nodes if not it["ignored"] and it["role"]["value"] in
                {"button", "textbox", "combobox", "checkbox", "link", "group", "form", "region"}]
    nameless = [it["role"]["value"] for it in controls if not it.get("name", {}).get("value")]
    tally.equal("controls without a name", (len(controls) > 20, nameless), (True, []))


# The lowest contrast of a text with what is behind it, and the text.
CONTRAST = """(() => {
  const part = (it) => (it <= .03928 ? it / 12.92 : ((it + .055) / 1.055) ** 2.4);
  const light = (colour) => {
    const [red, green, blue] = colour.match(/[\\d.]+/g).map((it) => part(it / 255));
    return .2126 * red + .7152 * green + .0722 * blue;
  };
  const behind = (it) => {
    const box = it.matches('.node text:not(.number)') && it.parentElement.querySelector('rect');
    if (box) return getComputedStyle(box).fill;
    const colour = getComputedStyle(it).backgroundColor;
    return colour.endsWith(', 0)') && it.parentElement ? behind(it.parentElement) : colour;
  };
  const texts = [...document.querySelectorAll('body *:not(script, style, [aria-disabled=true])')].filter((it) =>
    it.checkVisibility() && [...it.childNodes].some((node) => node.nodeType === 3 && node.data.trim()));
  return texts.map((it) => {
    const style = getComputedStyle(it), colour = it.closest('svg') ? style.fill : style.color;
    const [low, high] = [light(colour), light(behind(it))].sort((one, other) => one - other);
    return [(high + .05) / (low + .05), it.textContent.slice(0, 30)];
  }).sort((one, other) => one[0] - other[0])[0];
})()"""


def check_contrast(tally, page, scheme):
    lowest, text = page.browser.evaluate(CONTRAST)
    tally.check(lowest >= 4.5, f"the contrast of {text!r} is {lowest:.2f} by {scheme} colours")


def contrast(tally, page):
    """Each text has a contrast of 4.5 with what is behind it, in both schemes of colours."""
    for scheme in ("dark", "light"):
        page.browser.colours(scheme)
        page.choose("doors")
        page.job("runs")
        page.press_leaf(0)
        check_contrast(tally, page, scheme)
        page.choose("die")
        page.job("outcomes")
        page.press("#bars button")
        check_contrast(tally, page, scheme)
        page.choose("die")
        page.job("step")
        page.press("[data-step=step]")
        check_contrast(tally, page, scheme)
        page.job("stages")
        page.press("#chooser [data-statement='6']")
        for number in range(1, 4):
            page.browser.evaluate(f"document.querySelector('[data-stage=tree] [data-numbers=\"{number}\"] rect')"
                                  ".dispatchEvent(new MouseEvent('mouseover', { bubbles: true }))")
            check_contrast(tally, page, scheme)


def unable(tally, page):
    """A browser without WebAssembly is told that the page needs it."""
    page.browser.before_page("delete globalThis.WebAssembly;")
    page.open()
    tally.check("needs WebAssembly" in page.text("notice"), "the page doesn't say what it needs")
    page.job("run")
    tally.equal("an answer without a module", page.text("output"), None)


def full_stack(tally, page):
    """A stack that is full is status 4, and the next call is answered too."""
    page.open()
    for _ in range(2):
        page.job("run")
        tally.equal("a full stack", ("status 4" in page.status(), page.text("errors")), (True, "OUT OF STACK\n"))
