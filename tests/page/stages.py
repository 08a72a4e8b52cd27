"""The stages of the compiler, as the page shows them: what is marked by the pointer and by keys, advice, and traces."""
import glob
import json
import random
import re
import subprocess
import sys

from compared import TOP, read
from keys import tab_to
from shown import KEYS, LARGE, type_source

XOR = "DO WRITE IN .1 + .2\nDO .1 <- '?.1$.2'~'#0$#65535'\nPLEASE READ OUT .1\nDO GIVE UP\n"
LISTS = "DO READ OUT .1{}\nPLEASE GIVE UP\n".format(" + #2" * 20000)
LEFT = ".1 = Xor .1 .2 by 8 and 9"
# Of each operation of the XOR: the part of the text, the node of the tree, the instruction, and the rule.
PARTS = [
    (".1", ".1", "", "read in place"), (".2", ".2", "", "read in place"), (".1$.2", "$", "", "no check"),
    ("'?.1$.2'", "?", "", "as it is"), ("#0", "#0", "", "constant"), ("#65535", "#65535", "", "constant"),
    ("#0$#65535", "$", "", "fold a mingle"), ("'?.1$.2'~'#0$#65535'", "~", LEFT, "half of a unary of a mingle"),
    (".1 <- '?.1$.2'~'#0$#65535'", "Store .1", LEFT, "calculate into the scalar"),
]
ROW, NODE = "[data-stage=operations] [data-numbers='{}']", "[data-stage=tree] [data-numbers='{}'] rect"
PIECE = "[data-stage=text] span:is([data-numbers='{0}'], [data-numbers^='{0} '])"


def place(page, selector):
    """Scrolls to an element and returns where it is in the window."""
    return page.inject(f"""
        const found = document.querySelector({json.dumps(selector)});
        found.scrollIntoView({{ block: 'center' }});
        const {{ left, top, width, height }} = found.getClientRects()[0];
        answer = [left + Math.min(width / 2, 30), top + height / 2];
    """)


def point_at(page, selector):
    """Moves the pointer to an element. A browser tells no move to where the pointer already is."""
    there = place(page, selector)
    page.browser.point(1, 1)
    page.browser.point(*there)


def marked(page, stage):
    """Returns the text of what is marked in a stage."""
    return page.browser.evaluate(f"[...document.querySelectorAll('[data-stage={stage}] .on')].map((it) => "
                                 "(it.querySelector('text, th') ?? it).textContent).join('')")


def check_marks(tally, page, number, how):
    """Checks that an operation of the XOR is marked in all stages, and nothing else."""
    found = (*[marked(page, stage) for stage in ("text", "tree", "operations", "instructions")],
             page.texts(".equation .rule").split(",")[0], page.texts("#numbers .here"))
    text, node, instruction, rule = PARTS[number - 1]
    tally.equal(f"what is marked by operation {number} {how}", found, (text, node, str(number), instruction, rule, "2"))


def show(page, source, statement=None):
    type_source(page, source)
    page.job("stages")
    if statement:
        page.press(f"#chooser [data-statement='{statement}']")


def stages_by_pointer(tally, page):
    """Pointing at a row, a node or a piece of the text of the XOR marks the others, and the editor's line."""
    show(page, XOR, 2)
    tally.equal("the statements", page.texts("#chooser .many"), "2 → 2,9 → 1,2 → 1,1 → 1")
    tally.equal("the status of stages", page.status().partition(", status")[0], "4 statements14 operations, 5 instructions")
    tally.equal("the head of the XOR", page.text("sum"),
                "Statement 2, line 2: 9 operations, 1 instruction, 1 folded, 2 dropped")
    dots = "[...document.querySelectorAll('[data-stage=operations] .stack')].map((it) => it.textContent.length).join('')"
    tally.equal("the stack behind each operation", page.browser.evaluate(dots), "121123210")
    for kind in (ROW, NODE, PIECE):
        for number in range(1, len(PARTS) + 1):
            point_at(page, kind.format(number))
            page.browser.wait(f"document.querySelector({ROW.format(number)!r}).classList.contains('on')", 10)
            check_marks(tally, page, number, f"by {kind}")
    point_at(page, "[data-stage=instructions] li")
    page.browser.wait("document.querySelectorAll('[data-stage=operations] .on').length === 2", 10)
    tally.equal("the operations of an instruction", marked(page, "operations"), "89")


def stages_by_keys(tally, page):
    """The arrow keys go from operation to operation in the text and in the table, and up and down in the tree."""
    show(page, XOR, 2)
    browser = page.browser
    browser.evaluate("document.querySelector('[data-job=stages]').focus()")
    tally.check(tab_to(browser, "[data-save^=stages]"), "Tab doesn't reach the buttons of stages")
    tally.check(tab_to(browser, "#chooser"), "Tab doesn't reach the statements")
    browser.press_all("ArrowUp", "ArrowDown", "End", "Home", "ArrowDown")
    tally.equal("the statement by keys", page.text("sum").partition(",")[0], "Statement 2")
    for stage, onward in (("text", "ArrowRight"), ("operations", "ArrowDown")):
        tally.check(tab_to(browser, f"[data-stage={stage}]"), f"Tab doesn't reach the stage {stage}")
        browser.press("Home")
        for number in range(1, len(PARTS) + 1):
            check_marks(tally, page, number, f"by keys in {stage}")
            browser.press(onward)
        browser.press("ArrowUp")
        check_marks(tally, page, 8, f"by a key back in {stage}")
        if stage == "text":
            in_tree(tally, page)
    tally.check(tab_to(browser, "[data-stage=instructions]"), "Tab doesn't reach the instructions")
    browser.press("Home")
    tally.equal("the operations of an instruction by keys", marked(page, "operations"), "89")


def in_tree(tally, page):
    tally.check(tab_to(page.browser, "[data-stage=tree]"), "Tab doesn't reach the tree")
    page.browser.press("End")
    for key, number in (("Down", 8), ("Down", 4), ("Down", 3), ("Down", 1), ("Down", 1), ("Right", 2), ("Up", 3), ("Up", 4),
                        ("Up", 8), ("Left", 7), ("Down", 5), ("Right", 6), ("Up", 7), ("Up", 8), ("Up", 9), ("Up", 9)):
        page.browser.press(f"Arrow{key}")
        check_marks(tally, page, number, f"by {key} in the tree")


# A trace through four statements, and a statement of two lines.
LOOP = """PLEASE ,1 <- #8
DO .1 <- #1
(10) PLEASE FORGET #1
DO ,1SUB.1
  <- .1
PLEASE READ OUT ,1SUB.1
DO .1 <- '.1$#0'~'#32767$#1'
DO (20) NEXT
DO GIVE UP
(20) DO (30) NEXT
DO FORGET #1
DO (10) NEXT
(30) DO RESUME '?".1~#8"$#1'~#3
"""
CARRY = """DO .1 <- 'V.1$"'&.2$"'.1$#0'~'#32767$#1'"'~'#0$#65535'"'~'#0$#65535'\nPLEASE GIVE UP\n"""


def stages_of_statements(tally, page):
    """Traces lead to other statements. A part in a later line marks that line. What isn't recognised has its advice."""
    show(page, LOOP, 6)
    steps = page.texts(".traces li button")
    tally.equal("the steps of a trace", steps, "6,7,9,12")
    page.press(".traces li:last-child button")
    tally.equal("where a step leads", page.text("sum"), "Statement 12, line 13: 9 operations, 2 instructions, 3 dropped")
    tally.equal("the trace through a statement", page.texts(".traces .hint"), "In the traces that begin at 6")
    page.press("#chooser [data-statement='4']")
    for number, line in ((1, "5"), (2, "4")):
        point_at(page, ROW.format(number))
        page.browser.wait(f"document.querySelector('#numbers .here')?.textContent === '{line}'", 10)
        tally.equal(f"the line of part {number}", page.texts("#numbers .here"), line)
    page.browser.evaluate("((it) => { it.setSelectionRange(75, 75); it.click(); })(document.getElementById('source'))")
    tally.equal("the statement that is clicked at", page.text("sum").partition(":")[0], "Statement 5, line 6")
    show(page, CARRY, 1)
    tally.equal("a carry", page.texts("#chooser .many"), "22 → 1,1 → 1")
    point_at(page, ROW.format(15))
    page.browser.wait("document.querySelectorAll('.equation .rule').length === 2", 10)
    tally.equal("the rules of a carry", page.texts(".equation .rule"), "shift the right operand,carry")
    show(page, "DO .1 <- #1 + #2\nPLEASE NOTE A COMMENT\nDO GIVE UP\n", 1)
    page.browser.wait("document.querySelector('.unread').textContent.includes('joins lists')", 10)
    tally.equal("the tree of no statement", page.text("nodes"), None)
    page.press("#chooser [data-statement='2']")
    tally.check(page.texts(".unread").startswith("A comment"), "a comment isn't said to be one")
    type_source(page, "DO .1 <- #1\n")
    tally.equal("the line of stages of another program", page.texts("#numbers .here"), "")
    page.set(source="DO (5) NEXT\n")
    page.job("stages")
    tally.check("is refused" in page.status() and page.text("sum") is None, "a refusal has stages")


def stages_of_large(tally, page):
    """Of a large program the page asks for one statement at a time, and a key stays as fast as before."""
    show(page, LARGE)
    tally.equal("a large program", (page.text("of-statements"), page.text("chooser")), ("of 5,000", None))
    page.press("[data-statement='+']")
    tally.check(page.text("sum").startswith("Statement 2, line 2: "), f"the next statement {page.text('sum')!r}")
    page.set(statement="4321")
    page.browser.evaluate("document.getElementById('statement').dispatchEvent(new Event('change'))")
    page.idle()
    tally.check(page.text("sum").startswith("Statement 4321, line 4321: "),
                f"the statement {page.text('sum')!r} by its number")
    tally.equal("its line", page.texts("#numbers .here"), "4321")
    least = page.inject(KEYS)
    tally.check(least < 16, f"a key takes {least:.1f} ms beside the stages of a large program")


def stages_of_lists(tally, page):
    """Of a statement with very many operations the first ones are shown, soon."""
    show(page, LISTS)
    page.browser.wait("document.querySelectorAll('[data-stage=operations] tbody tr').length === 1000", 20)
    tally.equal("the head of a list", page.text("sum"), "Statement 1, line 1: 40,002 operations, 20,001 instructions")
    rest = "#staged .most:not([hidden])"
    tally.equal("what is said of the rest", page.texts(rest), "A statement shows its first 1,000 operations and instructions.")
    show(page, LISTS.replace("\n", " + #3" * 40000 + "\n", 1), None)
    tally.equal("a statement with too many lines", (page.text("sum"), page.text("nodes")),
                ("Statement 1 has more than 4 MiB of lines", None))
    page.press("[data-statement='+']")
    tally.equal("the statement behind it", page.text("sum"), "Statement 2, line 2: 1 operation, 1 instruction")
    show(page, XOR, 2)
    tally.equal("what is said without a rest", page.texts(rest), "")


def saved_stages(tally, page):
    """The stages are saved as ick-stages prints them, and as ick-json has them."""
    from shown import saved
    show(page, XOR, 2)
    name, text = saved(page, "stages txt")
    is_right = name.endswith("-stages.txt") and text.startswith("1 1:1 - DO ") and text.endswith("\nDONE\n")
    tally.check(is_right, f"saved stages {name}")
    told = subprocess.run([f"{TOP}/tools/ick-json"], input=text.encode(), capture_output=True, check=True).stdout
    name, found = saved(page, "stages json")
    tally.equal(f"stages as JSON in {name}", [json.loads(line) for line in found.splitlines()],
                [json.loads(line) for line in told.splitlines()])
    name, text = saved(page, "stages svg")
    is_right = name.endswith("-stages.svg") and "Store .1" in text and "var(" not in text
    tally.check(is_right, f"the saved tree of a statement {name}")


# Each part of an expression, compiled by itself, has the operations of its node of the tree. A part with a wow can't stand
# by itself, and a variable or a mesh under an operator has the place of both. The script answers how many parts were
# tried, the statements without places, and the parts that are wrong.
TRY_PARTS = """
  const lacking = [], wrong = [], tried = [];
  const below = ({ operation, operands }) => [...operands.flatMap(below), operation];
  const nodesIn = (node) => [node, ...node.operands.flatMap(nodesIn)];
  const named = (operations) => operations.map(({ operation, names }) => `${operation} ${names}`).join();
  for (const statement of staged.statements) {
    const places = placesOf(statement);
    if (places.length !== statement.operations.length) lacking.push(statement.letters);
    else for (const node of nodesOf(statement.operations).flatMap(nodesIn)) {
      const { from, to } = places[node.operation.number - 1], part = statement.letters.slice(from, to);
      const isUnder = !node.operands.length && /^[.:#]\\s*[&V?]/.test(part);
      if (GIVING.has(node.operation.operation) && !isUnder && !part.includes('!')) tried.push([part, named(below(node))]);
    }
  }
  const file = tried.map(([part], at) => `${at % 4 === 3 ? 'PLEASE' : 'DO'} :1 <- ${part}\\n`).join('');
  const { output } = await callFor({ job: 'stages', file, input: '' });
  readStages(new TextDecoder().decode(output)).forEach(({ operations }, at) => {
    if (named(operations.slice(0, -1)) !== tried[at][1]) wrong.push(tried[at][0]);
  });
  answer = [tried.length, lacking, wrong];
"""


def all_parts(tally, page):
    """Each operation of the examples and of random programs has its part in the text. Each rule has its equation."""
    sys.path[:0] = [f"{TOP}/tests/fuzz"]
    import programs
    sources = [read(path).decode() for path in sorted(glob.glob(f"{TOP}/examples/*.i"))]
    sources += [programs.source_of(programs.Maker(random.Random(seed)).program()).decode("latin-1") for seed in range(60)]
    count = 0
    for source in sources:
        page.set(source=source)
        page.job("stages")
        if page.text("sum") is None:
            tally.check("is refused" in page.status(), f"there are no stages of {source!r}")
            continue
        tried, lacking, wrong = page.inject(TRY_PARTS)
        count += tried
        tally.equal(f"statements without places in {source!r}", lacking, [])
        tally.equal(f"parts that aren't those of their operations in {source!r}", wrong, [])
    tally.check(count > 1000, f"only {count} parts were tried")
    source = read(f"{TOP}/crates/ick_stages/src/rule.rt").decode()
    rules = {name for names in re.findall(r'b"([a-z0-9~+-]+)"', source) for name in names.split("+") if name}
    known = set(page.inject("answer = Object.keys(stagesView.equations)"))
    tally.equal("rules without an equation", rules - known, set())


IN_EACH = stages_by_pointer, stages_by_keys, stages_of_statements, stages_of_large, stages_of_lists, saved_stages
