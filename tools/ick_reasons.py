"""Says why ick can't read a statement."""
import difflib
import re

import ick_source

SHOWN = 40  # characters in front of the place where reading stopped
ELSEWHERE = "is C-INTERCAL's, and not in this language"
COME_FROM = f"COME FROM {ELSEWHERE}: ick-convert --come-from rewrites it"
OTHER_COME_FROM = f"COME FROM {ELSEWHERE}: ick-convert --all rewrites it if it begins with its label or expression"
WORDS = ("FORGET RESUME STASH RETRIEVE IGNORE REMEMBER ABSTAIN REINSTATE GIVE WRITE READ NEXT FROM OUT IN UP "
         "CALCULATING NEXTING FORGETTING RESUMING STASHING RETRIEVING IGNORING REMEMBERING ABSTAINING REINSTATING "
         "WRITING READING").split()
BEGINS = re.compile("|".join(WORDS[:13] + WORDS[16:]))
SMALL = re.compile(r"\b(do|please|forget|resume|stash|retrieve|ignore|remember|abstain|reinstate|give|write|read"
                   r"|next)\b")

# what a statement of C-INTERCAL is in front of the label that ends it, and its name
FRONTS = (
    (r"COME\s*FROM", "COME FROM"),
    (r"NEXT\s*FROM", "NEXT FROM, which is C-INTERCAL's,"),
    (r"ABSTAIN\s*[#.:,;'\"!].*FROM", "ABSTAIN with a count, which is C-INTERCAL's,"),
)

# how a body begins, and what is wrong with it
BODIES = (
    (r"COME\s*FROM\s*(\(\s*\d+\s*\)\s*|[.:,;#'\"!][^A-Z]*(SUB[^A-Z]*)*)?$", COME_FROM),
    (r"COME\s*FROM", OTHER_COME_FROM),
    (r"(\(\s*\d+\s*\)\s*)?NEXT\s*FROM", f"NEXT FROM {ELSEWHERE}"),
    (r"TRY\s*AGAIN", f"TRY AGAIN {ELSEWHERE}: ick-convert --again rewrites it"),
    (r"GO\s*(BACK|AHEAD)", f"backtracking {ELSEWHERE}"),
    (r"CREATE", f"CREATE {ELSEWHERE}"),
    (r"PIN\s*[.:]", f"PIN {ELSEWHERE}"),
    (r"NOT|N'T|%\s*0*(\d\d?|100)\b", "NOT and a chance stand once each"),
    (r"\d+\s*%|%\s*([^\d\s]|$)", "a chance has one %, in front of its number, as %50"),
    (r"%", "a chance goes from 0 to 100"),
    (r"$", "nothing stands between this identifier and the next one"),
)

# what stands in front of the place where reading stopped, what stands there, and what is wrong with it
STOPS = (
    (r"", r"(ONCE|AGAIN)\b", "ONCE and AGAIN are C-INTERCAL's: ick-convert --once rewrites them"),
    (r"", r"MAYBE\b", f"MAYBE {ELSEWHERE}"),
    (r"^ABSTAIN\s*$", r"[#.:,;'\"!]", f"ABSTAIN with a count {ELSEWHERE}: ick-convert --abstain rewrites it"),
    (r"", r"COME\s*FROM", OTHER_COME_FROM),
    (r"", r"WHILE\b", f"WHILE {ELSEWHERE}"),
    (r"", r".?\x08", "overstruck marks aren't read: ick-convert rewrites them"),
    (r"", r"[\xa2\xa3\xa4\xa5]|\xc2[\xa2-\xa5]", "the mark is an old spelling: ick-convert rewrites it"),
    (r"", r"\d", "a number is written with a mesh, as #5"),
    (r"^[.:,;][^<]*$", r"=", "a calculation is written with <-"),
    (r"^[.:,;][^<]*$", r"/", f"operand overloading {ELSEWHERE}"),
    (r"<-.*$", r"\+", "+ joins lists, and is no sum: call (1000) of library/arithmetic.i"),
    (r"<-.*$", r"-", "there is no minus: call (1010) of library/arithmetic.i"),
    (r"<-.*$", r"\*", "there is no product: call (1030) of library/arithmetic.i"),
    (r"<-.*$", r"[@^|]", f"this operator {ELSEWHERE}"),
    (r"[,;]\s*$", r"[&V?]", "no unary operator stands behind the mark of an array: ick-convert --tails rewrites an element"),
    (r"[&V?]\s*$", r"[&V?]", "an operand has one unary operator: put a group round the inner one"),
    (r"(-|[~$'\"])\s*$", r"[&V?]", "a unary operator stands behind the first mark of its operand, as in #&77"),
    (r"^READ\s*OUT.*$", r"[\"']?\s*([A-Za-z]{2}|[A-UW-Za-z])", "READ OUT takes no text: ick-say makes statements that print one"),
    (r"^READ\s*OUT.*$", r"[\"'~$&V?]", "READ OUT takes no expression: calculate a variable first"),
    (r"^(READ\s*OUT|WRITE\s*IN).*;.*$", r"", "a hybrid can't be read or written whole: name an element, or use a tail"),
    (r"^(READ\s*OUT|WRITE\s*IN|STASH|RETRIEVE|IGNORE|REMEMBER|ABSTAIN\s*FROM|REINSTATE).*$", r",", "a list is written with +"),
    (r"^(ABSTAIN\s*FROM|REINSTATE)", r"[A-Z]", "no gerund begins so"),
)

# What C-INTERCAL reads as something that no tool rewrites. A comment isn't looked through for the last ones.
NEVER = (
    (r"\AMAYBE(?![A-Z])|(?<![A-Z])MAYBE(?=\s*\Z|\s+[A-Z]+\s*FROM\b)", "MAYBE makes a choice for GO BACK"),
    (r"\AGO\s*(BACK|AHEAD)(?![A-Z])", "GO BACK and GO AHEAD go back to choices"),
    (r"\ACREATE\s*[(.:]", "CREATE makes a new form of statement"),
    (r"\A(\(\s*\d+\s*\)\s*)?NEXT\s*FROM(?!\s*[A-Z])", "NEXT FROM is a NEXT from another statement"),
    (r"\APIN\s*[.:]", "PIN reads and writes the pins of a chip"),
    (r"\ACOME\s*FROM\s*[^\s].*?(ONCE|AGAIN)\s*\Z", "COME FROM with ONCE or AGAIN needs --once too"),
)
NEVER_IN_EXPRESSIONS = (
    (r"\bWHILE\b", "WHILE makes threads"),
    (r"[.:,;]\s*\d+\s*/\s*[.:,;#'\"]", "/ overloads an operand"),
)


def elsewhere(source, statement):
    """Yields each part of an unrecognised statement that only C-INTERCAL has: its place, and what it does there."""
    body = source[statement.body:statement.end].decode("latin-1")
    known = re.match(r"[.:,;(]|[A-Z]+\s*FROM", body)
    for pattern, reason in NEVER + NEVER_IN_EXPRESSIONS * bool(known):
        for found in re.finditer(pattern, body, re.DOTALL):
            yield statement.body + found.start(), reason


def why(statement):
    """The place where an unrecognised statement goes wrong, and what is wrong there."""
    source, stop = statement.source, statement.stop
    body = source[statement.body:statement.end].decode("latin-1")
    if SMALL.search(body) and not re.search(r"[A-Z]{2}", body):
        return statement.start, "small letters are no letters of the language: write capitals, or use ick-convert"
    rest = source[statement.body if stop is None else stop:statement.end].decode("latin-1")
    if (stop is None or statement.expected == ick_source.END) and re.fullmatch(r"\d+", rest):
        return statement.end - len(rest), f"a label is written in parentheses, as ({rest})"
    if stop is None:
        return statement.start, "what stands in front of the first DO or PLEASE is a statement of its own"
    if stop == statement.body:
        for pattern, reason in BODIES:
            if re.match(pattern, body):
                return stop, reason
        for word in re.findall(r"[A-Z]+", body)[:1]:
            near = difflib.get_close_matches(word, WORDS, 1, 0.7)
            if near and near[0] != word:
                return stop, f"{word} is no word of this language; {near[0]} is"
        if statement.expected == ick_source.BODY:
            return stop, "no statement of this language begins so"
    before = source[statement.body:stop].decode("latin-1")
    return stop, next((reason for behind, here, reason in STOPS
                       if re.match(here, rest) and re.search(behind, before, re.DOTALL)), missing(statement))


def missing(statement):
    """What was expected where reading stopped, and behind which text."""
    before = statement.source[statement.start:statement.stop].decode("utf-8", "replace")
    text = " ".join(re.sub("[^ -~]+", " ", before).split())
    wanted, colon, more = statement.expected.partition(":")
    return f"after `{'..' * (len(text) > SHOWN)}{text[-SHOWN:]}` {wanted} was expected{colon}{more}"
