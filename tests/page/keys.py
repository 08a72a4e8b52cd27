"""The page by the keyboard alone, in any browser."""

FOCUSED = "document.activeElement.matches({!r})"


def tab_to(browser, selector, most=40):
    """Presses Tab until the focus is on an element that the selector names."""
    for _ in range(most):
        browser.press("Tab")
        if browser.evaluate(FOCUSED.format(selector)):
            return True
    return False


def by_keyboard(tally, page):
    """Chooses an example, lists and runs it, writes a program, answers its questions, steps, and stops a run."""
    browser, name = page.browser, type(page.browser).__name__
    page.open()

    def reach(selector):
        tally.check(tab_to(browser, selector), f"{name}: Tab doesn't reach {selector}")

    browser.press("Tab")
    browser.press("Enter")
    tally.equal(f"{name}: where the first link leads", browser.evaluate("document.activeElement.id"), "status")
    page.open()
    reach("#example")
    for _ in range(60):
        if page.value("example") != "liars":
            browser.press("ArrowUp")
    tally.equal(f"{name}: the example by the arrow keys", page.value("example"), "liars")
    reach("[data-job=runs]")
    browser.press("Enter")
    browser.wait("document.getElementById('status').textContent.startsWith('8 runs')")
    reach(".leaf")
    browser.press_all("ArrowDown", "ArrowDown", "ArrowDown", "ArrowUp", "Enter")
    browser.wait("document.getElementById('status').textContent.startsWith('The program gave up')")
    tally.equal(f"{name}: an end by its key", (page.value("choices"), page.text("output")), ("010", "Believe Joe\n"))
    tally.equal(f"{name}: the focus after an end", browser.evaluate(FOCUSED.format(".leaf[aria-current]")), True)
    browser.press_all("End", "Enter")
    browser.wait("document.getElementById('choices').value === '111'")
    page.idle()

    page.open()
    reach("#source")
    browser.press("a", control=True)
    browser.write("DO %50 READ OUT #5\nDO %50 READ OUT #1\nPLEASE GIVE UP\n")
    browser.press("Enter", control=True)
    browser.wait("document.activeElement.matches('[data-choice=\"0\"]')")
    browser.press_all("Tab", " ")
    browser.wait("document.getElementById('choices').value === '1'")
    page.idle()
    tally.equal(f"{name}: the focus after a choice", browser.evaluate(FOCUSED.format("[data-choice='1']")), True)
    browser.press("Enter")
    browser.wait("document.getElementById('status').textContent.startsWith('The program gave up')")
    tally.equal(f"{name}: the run by two choices", page.text("output"), "\nV\n\nI\n")
    tally.equal(f"{name}: the focus behind the last choice", browser.evaluate("document.activeElement.id"), "status")

    page.open()
    reach("[data-job=step]")
    browser.press("Enter")
    browser.wait("document.getElementById('status').textContent.startsWith('The run asks for a choice')")
    reach("[data-choice='1']")
    browser.press("Enter")
    browser.wait("document.getElementById('output').textContent.includes('V')")
    page.idle()
    browser.press("Enter")
    browser.wait("document.activeElement.matches('[data-step=step]')")
    tally.check(page.status().startswith("Statement 3 is met next"), f"{name}: the status {page.status()!r} of a step")

    page.open()
    reach("#source")
    browser.press("a", control=True)
    browser.write("(1) DO FORGET #1\nPLEASE DO (1) NEXT\n")
    reach("#limit")
    browser.write("4294967295")
    browser.press("Enter")
    browser.wait("document.getElementById('status').textContent.startsWith('Running')")
    browser.press("Escape")
    page.idle()
    tally.check(page.status().startswith("Stopped"), f"{name}: Escape doesn't stop a run")


def all_keys(tally, page):
    """Steps by the keys that `?` lists, from the editor and outside it. A letter in a field is text."""
    browser, name = page.browser, type(page.browser).__name__

    def press(key, said, **how):
        browser.press(key, **how)
        browser.wait(f"document.getElementById('status').textContent.startsWith({said!r})")
        page.idle()

    page.open()
    tab_to(browser, "#source")
    browser.press("s")
    tally.check("s" in page.value("source") and page.text("told") is None, f"{name}: a letter in the editor is no text")
    page.choose("quiet")
    press("F8", "The run asks for a choice")
    tally.equal(f"{name}: the focus after F8", browser.evaluate("document.activeElement.id"), "source")
    tab_to(browser, "[data-job=run]")
    press("1", "The run asks for a choice")
    press("0", "Statement 3 is met next")
    press("s", "Statement 4 is met next")
    press("b", "Statement 3 is met next")
    press("F8", "Statement 4 is met next")
    press("F8", "Statement 3 is met next", shift=True)
    press("r", "The program gave up")
    tally.equal(f"{name}: the output of a session by keys", page.text("output"), "\nV\n\nI\n")
    browser.press("?")
    browser.wait("document.getElementById('help').open")
    listed = page.text("keys-table")
    tally.check("Shift + F8Take a step back" in listed, f"{name}: the keys {listed!r}")
    browser.press("Escape")
    browser.wait("!document.getElementById('help').open")
    page.choose("hello")
    tab_to(browser, "[data-job=step]")
    press("Enter", "Statement 1 is met next")
    tally.equal(f"{name}: the focus of a new session", browser.evaluate(FOCUSED.format("[data-step=step]")), True)
