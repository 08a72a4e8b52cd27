"""Tries ick-lsp by messages: what it answers, and what it does with requests that it doesn't know and with mistakes."""
import json
import os
import random
import re
import subprocess
import sys

from common import EXAMPLES, TOOLS, content
from tally import SECONDS

import ick_library
import ick_source

URI = "file:///tried.i"
NO_EXIT = b"ick-lsp: the input ends before the message exit\n"
END = {"id": 99, "method": "shutdown"}, {"method": "exit"}


def headed(body):
    return b"Content-Length: %d\r\n\r\n%s" % (len(body), body)


def body_of(message):
    return json.dumps({"jsonrpc": "2.0", **message}).encode()


def framed(*given):
    return b"".join(headed(body_of(message)) for message in given)


def messages(out):
    found = []
    while out:
        head, _, out = out.partition(b"\r\n\r\n")
        length = int(re.fullmatch(rb"Content-Length: (\d+)", head)[1])
        found.append(json.loads(out[:length]))
        out = out[length:]
    return found


def talk(tally, *asked, ends=True):
    """The status and the messages of a server that gets these methods and parameters: requests, but for didNAME."""
    given = b""
    for number, (method, parameters) in enumerate(asked):
        request = {} if method.startswith("textDocument/did") else {"id": number}
        given += framed({"method": method, "params": parameters, **request})
    status, out, err = tally.tool("ick-lsp", given=given + (framed(*END) if ends else b""))
    tally.equal("ick-lsp's standard error", err, b"" if ends else NO_EXIT)
    return status, messages(out)


def opened(text):
    return "textDocument/didOpen", {"textDocument": {"uri": URI, "languageId": "ick", "version": 1, "text": text}}


def at(method, line, character, **more):
    return f"textDocument/{method}", {"textDocument": {"uri": URI}, "position": {"line": line, "character": character},
                                      **more}


def acted(line):
    place = {"line": line, "character": 4}
    return "textDocument/codeAction", {"textDocument": {"uri": URI}, "range": {"start": place, "end": place},
                                       "context": {"diagnostics": []}}


def results(found):
    return {one["id"]: one.get("result", one.get("error")) for one in found if "id" in one}


def diagnostics(found):
    return [one["params"]["diagnostics"] for one in found if one.get("method") == "textDocument/publishDiagnostics"]


def try_diagnostics(tally):
    """The advice comes once when a program has changed. Places count UTF-16 units."""
    text = "PLEASE NOTE \U0001f648 \u00e9 DO .1 <- 5\nDO GIVE UP\n"
    _, found = talk(tally, ("initialize", {}), opened(text))
    tally.equal("the advice on a program with wide letters",
                [[(one["range"]["start"], one["severity"]) for one in told] for told in diagnostics(found)],
                [[({"line": 0, "character": text.index("DO") + 1}, 2)]])
    change = "textDocument/didChange", {"textDocument": {"uri": URI}, "contentChanges": [{"text": "DO GIVE UP\n"}]}
    status, found = talk(tally, ("initialize", {}), opened(text), change)
    tally.equal("the advice after a change", (status, diagnostics(found)), (0, [[]]))
    for path in EXAMPLES:
        source = content(path)
        _, found = talk(tally, opened(source.decode("latin-1")))
        told = [line.split(b": ", 1) for line in tally.tool("ick-advice", "--brief", given=source)[1].splitlines()]
        wanted = [(int(place.split(b":")[1]) - 1, int(place.split(b":")[2]) - 1, text.decode()) for place, text in told]
        tally.equal(f"the advice on {path}", [(one["range"]["start"]["line"], one["range"]["start"]["character"],
                                              one["message"].split("\n")[0]) for one in diagnostics(found)[0]], wanted)


def try_answers(tally):
    text = ("(1) DO NOTE WHAT E436 IS\nDO %50 (1) NEXT\nPLEASE DO RETRIEVE .1\nDO (1610) NEXT\nDO ABSTAIN FROM (1)\n"
            "DO GIVE UP\n")
    place = {"start": {"line": 0, "character": 0}, "end": {"line": 0, "character": 3}}
    _, found = talk(tally, opened(text), at("hover", 0, 18), at("hover", 1, 3), at("hover", 2, 12), at("hover", 3, 6),
                    at("definition", 1, 8), at("definition", 3, 5), at("definition", 5, 4),
                    at("references", 0, 1, context={"includeDeclaration": True}),
                    ("textDocument/documentSymbol", {"textDocument": {"uri": URI}}), at("hover", 99, 0))
    found = results(found)
    for number, wanted in ((1, "**E436**: RETRIEVE has nothing"), (2, "Its chance is 50%"), (3, "**E436**"),
                           (4, "(1610): writes the byte `.1`")):
        tally.check(wanted in found[number]["contents"]["value"], f"hover: {found[number]!r} has no {wanted!r}")
    tally.equal("the definition of (1)", found[5], {"uri": URI, "range": place})
    library = found[6] or {"uri": "", "range": {"start": {"line": 0}}}
    line = content(library["uri"].replace("file://", "")).splitlines()[library["range"]["start"]["line"]]
    tally.check(library["uri"].endswith("/text.i") and line.startswith(b"(1610)"), f"(1610) in the library: {library!r}")
    tally.equal("no definition", (found[7], found[10]), (None, None))
    tally.equal("the uses of (1)", sorted(one["range"]["start"]["line"] for one in found[8]), [0, 1, 4])
    tally.equal("the symbols", [one["name"] for one in found[9]], ["(1)"])


def applied(text, edits):
    for edit in sorted(edits, key=lambda it: (it["range"]["start"]["line"], it["range"]["start"]["character"]), reverse=True):
        start, end = edit["range"]["start"], edit["range"]["end"]
        lines = text.split("\n")
        line = lines[start["line"]]
        lines[start["line"]] = line[:start["character"]] + edit["newText"] + line[end["character"]:]
        text = "\n".join(lines)
    return text


def try_politeness(tally):
    """Programs that are refused for their manners are accepted after one action, and a statement can be changed."""
    for name, text in (("no PLEASE", "DO READ OUT #1\n" * 20 + "(1) DO GIVE UP\n"),
                       ("nothing but PLEASE", "PLEASE READ OUT #1\nPLEASE DO READ OUT #2\n" * 10 + "PLEASE GIVE UP\n")):
        _, found = talk(tally, opened(text), acted(20))
        many, one = results(found)[1]
        changed = applied(text, many["edit"]["changes"][URI])
        tally.check("Say PLEASE in" in many["title"] and many["isPreferred"], f"the action for {name}: {many['title']}")
        tally.equal(f"the refusals of {name}", ick_source.Source(changed.encode()).refusals, [])
        tally.equal(f"ick check of {name}", tally.ick("check", given=changed.encode())[0], 0)
        word = "PLEASE" if name == "no PLEASE" else "DO"
        tally.check(f"{word} GIVE UP" in applied(text, one["edit"]["changes"][URI]), f"one statement of {name}")
    _, found = talk(tally, opened("HELLO\nDO GIVE UP\n"), acted(0))
    tally.equal("actions on what is no statement", results(found)[1], [])


def try_pasting(tally):
    """What a program lacks of the library is information, and one action pastes it. No action makes a label stand twice."""
    for above, printed in (("DO .2 <- #2\nPLEASE (1000) NEXT\nDO READ OUT .3\nDO GIVE UP", b"\nII\n"),
                           ("DO .1 <- #65\nPLEASE (1610) NEXT\nDO (1630) NEXT\nDO GIVE UP\n", b"A\n")):
        for text in (above, f"{above}\n\n{ick_library.LINE.decode()}\n(1030) DO RESUME #1\n"):
            _, found = talk(tally, opened(text), acted(1))
            tally.equal(f"the advice on {text!r}", [(one["severity"], one["message"][:15]) for one in diagnostics(found)[0]],
                        [(3, "the library has")])
            *_, action = results(found)[1]
            tally.equal("the title of the action", action["title"], "Paste the library's routines that are called")
            edit, = action["edit"]["changes"][URI]
            start, end = edit["range"]["start"], edit["range"]["end"]
            lines = text.split("\n")
            tally.equal("the end of the edit", (end["line"], end["character"]), (len(lines) - 1, len(lines[-1])))
            kept = "\n".join([*lines[:start["line"]], lines[start["line"]][:start["character"]]])
            tally.equal(f"ick run after {action['title']}", tally.ick("run", given=(kept + edit["newText"]).encode()),
                        (0, printed, b""))
            _, found = talk(tally, opened(kept + edit["newText"]), acted(1))
            tally.equal("after the action", (diagnostics(found), len(results(found)[1])), ([[]], 1))
    for text in ("PLEASE (1010) NEXT\nDO GIVE UP\n(1700) DO RESUME #1\n", "PLEASE (1234) NEXT\nDO GIVE UP\n"):
        _, found = talk(tally, opened(text), acted(0))
        tally.equal(f"the severities of {text!r}", [one["severity"] for one in diagnostics(found)[0]], [1])
        tally.equal(f"the actions on {text!r}", [one["title"] for one in results(found)[1]], ["Say DO without PLEASE"])


def try_mistakes(tally):
    status, found = talk(tally, ("initialize", {}), ("no/such", {}), at("hover", 0, 0))
    tally.equal("answers to mistakes", (status, [one.get("error", {}).get("code") for one in found]),
                (0, [None, -32601, -32602, None]))
    tally.equal("the status without shutdown", talk(tally, ("initialize", {}), ends=False)[0], 1)
    for options, wanted, text in ((["--help"], 0, b"Exit status"), (["--version"], 0, b"ick-lsp "), (["--x"], 2, b"")):
        status, out, _ = tally.tool("ick-lsp", *options)
        tally.check(status == wanted and text in out, f"ick-lsp {options}: {status} {out!r}")


def codes(out):
    """The id and the error code of each answer, with None for a result."""
    return [(one["id"], one.get("error", {}).get("code")) for one in messages(out) if "id" in one]


def hover(number, **more):
    return {"id": number, "method": "textDocument/hover", "params": {
        "textDocument": {"uri": URI}, "position": {"line": 0, "character": 3}, **more}}


def notified(method, **given):
    return {"method": f"textDocument/{method}", "params": given}


def program(text, uri=URI):
    return notified("didOpen", textDocument={"uri": uri, "languageId": "ick", "version": 1, "text": text})


def changed(*changes):
    return notified("didChange", textDocument={"uri": URI, "version": 2}, contentChanges=list(changes))


def replaced(start, end, text):
    (line, character), (last, last_character) = start, end
    return {"range": {"start": {"line": line, "character": character},
                      "end": {"line": last, "character": last_character}}, "text": text}


def cancelled(number):
    return {"method": "$/cancelRequest", "params": {"id": number}}


def try_errors(tally):
    """Each message that is wrong has its error, and the next one its answer."""
    place = {"textDocument": {"uri": URI}, "position": {"line": 0, "character": 0}}
    rows = (
            (b"{abc}", None, -32700), (b"", None, -32700), (b"\xff\xfe", None, -32700), (b'"\xc3"', None, -32700),
            (b'{"jsonrpc": "2.0", "id": NaN, "method": "x"}', None, -32700), (b"[" * 100_000, None, -32700),
            (b"1" * 5000, None, -32700), (b"{}{}", None, -32700),
            (b"[]", None, -32600), (b"null", None, -32600), (b"1", None, -32600), (b"{}", None, -32600),
            (b'[{"jsonrpc": "2.0", "id": 1, "method": "shutdown"}]', None, -32600),
            (b'{"jsonrpc": "2.0", "method": 1}', None, -32600), (b'{"jsonrpc": "2.0", "id": 4}', 4, -32600),
            (b'{"id": 4, "method": "shutdown"}', 4, -32600), (b'{"jsonrpc": "1.0", "id": 4, "method": "x"}', 4, -32600),
            (b'{"jsonrpc": "2.0", "id": 4, "method": "x", "params": "y"}', 4, -32600),
            *((b'{"jsonrpc": "2.0", "id": %s, "method": "shutdown"}' % wrong, None, -32600)
              for wrong in (b"null", b"true", b"1.5", b"1e999", b"[]", b"{}")),
            (body_of({"id": 4, "method": "no/such"}), 4, -32601), (body_of({"id": 4, "method": ""}), 4, -32601),
            (body_of({"id": "\ud800", "method": "\ud800"}), "\ud800", -32601),
            (body_of({"id": 4, "method": "$/cancelRequest", "params": {"id": 4}}), 4, -32601),
            *((body_of({"id": 4, "method": "textDocument/hover", "params": given}), 4, -32602) for given in (
                [], [1], {}, None, {**place, "textDocument": URI}, {**place, "textDocument": {"uri": 1}},
                {**place, "textDocument": {"uri": "file:///other"}}, {**place, "position": 1},
                *({**place, "position": {"line": 0, "character": wrong}} for wrong in (-1, 0.5, True, None, "0", [])))),
            (body_of({"id": 4, "method": "textDocument/references", "params": place}), 4, -32602),
            (body_of({"id": 4, "method": "textDocument/codeAction", "params": place}), 4, -32602))
    status, out, err = tally.tool("ick-lsp", given=framed(program("DO GIVE UP")) + b"".join(
        headed(body) + framed(hover(5)) for body, *_ in rows) + framed(*END))
    tally.equal("the end behind messages that are wrong", (status, err), (0, b""))
    found = codes(out)
    tally.equal("the number of answers", len(found), 2 * len(rows) + 1)
    for at, (body, number, code) in enumerate(rows):
        tally.equal(f"the answers to {body[:80]!r} and a hover", found[2 * at:2 * at + 2], [(number, code), (5, None)])
    for message in ({"method": "no/such"}, {"method": "textDocument/hover"}, {"id": 4, "result": None},
                    {"id": 4, "error": {}}, notified("didOpen", textDocument={"uri": URI}), changed(1), changed({}),
                    changed({"range": {}, "text": "x"}), notified("didChange", textDocument={"uri": "x"}),
                    notified("didClose"), cancelled(7), cancelled([7]), {"method": "$/cancelRequest", "params": [7]}):
        status, out, err = tally.tool("ick-lsp", given=framed(program("DO GIVE UP"), message, hover(5), *END))
        tally.equal(f"no answer to {message}", (status, codes(out), err), (0, [(5, None), (99, None)], b""))


def try_input(tally):
    """What can't be cut into messages ends the server in one line, when it has answered what came in front."""
    for given, said in (
            *((head + b"\r\n\r\n{}", "a message has no Content-Length of at most eight digits") for head in (
                b"", b"Content-Type: x", b"{}", *(b"Content-Length: " + length for length in (
                    b"xyz", b"-5", b"", b"1.5", b"5 5", b"9" * 9, b"9" * 4000, b"\xff")))),
            (b"x" * 5000, "the head of a message has more than 4096 bytes"),
            (b"Content-Length: 99999999\r\n\r\n{}", "the input ends inside a message"),
            (b"Content-Length: 99999\r\n\r\n" + b"x" * 9000, "the input ends inside a message"),
            (b"Content-Length: 5\r\n", "the input ends inside a message"), (b"C", "the input ends inside a message"),
            (b"", "the input ends before the message exit")):
        status, out, err = tally.tool("ick-lsp", given=framed({"id": 1, "method": "initialize"}) + given)
        tally.check((status, codes(out)) == (1, [(1, None)]) and err.decode().startswith(f"ick-lsp: {said}")
                    and err.count(b"\n") == 1, f"the end by {given[:60]!r}: {status} {out!r} {err!r}")
    for redirected, wanted in (("<&-", (1, b"ick-lsp: the input can't be read: Bad file descriptor\n")),
                               ("</dev/null", (1, NO_EXIT)),
                               ("<&- 2>&-", (1, b"")),
                               (">&-", (4, b"ick-lsp: a read or a write failed: Bad file descriptor\n")),
                               (">/dev/full", (4, b"ick-lsp: a read or a write failed: No space left on device\n"))):
        words = ["sh", "-c", f'exec "$@" {redirected}', "sh", sys.executable, os.path.join(TOOLS, "ick-lsp")]
        done = subprocess.run(words, input=framed({"id": 1, "method": "initialize"}), capture_output=True,
                              timeout=SECONDS, check=False)
        tally.equal(f"ick-lsp {redirected}", (done.returncode, done.stderr), wanted)
    body = body_of({"id": 1, "method": "shutdown"})
    for head in (b"Content-Length: %d\r\nContent-Type: x\r\n\r\n", b"content-length:%d\n\n",
                 b"A: b\r\nCONTENT-LENGTH : %d \r\n\r\n"):
        status, _, err = tally.tool("ick-lsp", given=head % len(body) + body + framed(END[1]))
        tally.equal(f"the head {head!r}", (status, err), (0, b""))


def try_end(tally):
    """The status is 0 only behind shutdown, after which no request is answered any more."""
    shutdown, leave = END
    for given, wanted in (((shutdown, leave), 0), ((leave,), 1), ((leave, shutdown), 1), ((shutdown,), 0),
                          ((shutdown, leave, {"id": 1, "method": "initialize"}), 0)):
        status, out, err = tally.tool("ick-lsp", given=framed(*given))
        tally.equal(f"the end by {[one['method'] for one in given]}", (status, codes(out), err),
                    (wanted, [(99, None)] if given[0] is shutdown else [], b""))
    tally.equal("a request behind shutdown", codes(tally.tool("ick-lsp", given=framed(shutdown, hover(1), leave))[1]),
                [(99, None), (1, -32600)])


def try_cancelling(tally):
    """A request that waits is answered as cancelled, once. One that is answered isn't."""
    given = framed(program("DO GIVE UP"), hover(1), hover("1"), hover(2), cancelled("1"), cancelled(2), cancelled(2),
                   *END)
    status, out, err = tally.tool("ick-lsp", given=given)
    tally.equal("cancelled requests", (status, sorted(codes(out), key=str), err),
                (0, [("1", -32800), (1, None), (2, -32800), (99, None)], b""))


def try_changes(tally):
    """Changes come in order, each by places of the text that those in front of it made. A lone CR ends a line."""
    calls = "DO (1) NEXT\rDO (1) NEXT\r\n\U0001f648(1) DO GIVE UP\n"
    for text, changes, wanted in (
            ("(1) DO GIVE UP", [], ["0 (1) DO GIVE UP"]),
            (calls, [], ["2 (1) DO GIVE UP"]),
            (calls, [replaced((0, 11), (1, 0), "\n\r")], ["3 (1) DO GIVE UP"]),
            (calls, [replaced((2, 3), (2, 4), "23")], ["2 (23) DO GIVE UP"]),
            (calls, [replaced((2, 2), (2, 99), "(4) DO X"), replaced((99, 0), (99, 9), "\r(5) PLEASE DO Y")],
             ["2 (4) DO X", "4 (5) PLEASE DO Y"]),
            (calls, [replaced((2, 1), (2, 2), "")], ["2 (1) DO GIVE UP"]),
            (calls, [{"text": "DO X\n(7) DO Y"}, replaced((1, 1), (1, 2), "8"), replaced((0, 0), (0, 0), "(6)")],
             ["0 (6)DO X", "1 (8) DO Y"]),
            (calls, [replaced((2, 9), (0, 0), "NOT ")], ["2 (1) DO NOT GIVE UP"])):
        _, out, _ = tally.tool("ick-lsp", given=framed(program(text), hover(0), changed(*changes), {
            "id": 1, "method": "textDocument/documentSymbol", "params": {"textDocument": {"uri": URI}}}, *END))
        tally.equal(f"the symbols of {text!r} after {changes}", [
            f"{one['selectionRange']['start']['line']} {one['detail']}" for one in results(messages(out))[1]], wanted)
    found = messages(tally.tool("ick-lsp", given=framed(program("DO X"), program("DO Y", "file:///other.i"), notified(
        "didClose", textDocument={"uri": URI}), hover(1), *END))[1])
    told = [(one["params"]["uri"], bool(one["params"]["diagnostics"])) for one in found if "params" in one]
    tally.equal("the diagnostics of closed and open programs", told, [(URI, False), ("file:///other.i", True)])
    tally.equal("a hover on a closed program", results(found)[1]["code"], -32602)


def bodies(drawn, count):
    """Bodies of messages, most of them damaged: none of them ends the server."""
    words = [None, True, -1, 0, 3, 2 ** 70, 1.5, "", URI, "\ud800", [], {}, [[]], {"line": 0},
             "DO .1 <- #1\rPLEASE (1) NEXT", replaced((0, 1), (0, 4), "(1) DO X\n"),
             replaced((0, 0), (9, 0), "DO READOUT .1\n(2) DO (1) NEXT")]
    methods = ["initialize", "$/cancelRequest", "no/such", *(f"textDocument/{name}" for name in (
        "didOpen", "didChange", "didClose", "hover", "definition", "references", "documentSymbol", "codeAction", "completion",
        "prepareRename", "rename"))]
    for number in range(count):
        where = {"line": drawn.randrange(4), "character": drawn.randrange(20)}
        given = {"textDocument": {"uri": URI, "text": "DO (1) NEXT\n(1) DO READ OUT !1\nPLEASE GIVE UP"},
                 "position": where, "range": {"start": where, "end": where}, "context": {"includeDeclaration": True},
                 "contentChanges": drawn.choices(words[-2:], k=2), "id": number - 1, "newName": drawn.choice(("3", ".4", "(5)"))}
        message = {"jsonrpc": "2.0", "id": number, "method": drawn.choice(methods), "params": given}
        if drawn.random() < 0.3 and "did" in message["method"]:
            del message["id"]
        part = drawn.choice((message, given, given["textDocument"], where, {}))
        if part and drawn.random() < 0.7:
            part[drawn.choice(list(part))] = drawn.choice(words)
        body = bytearray(json.dumps(message).encode())
        for _ in range(drawn.choice((0, 0, 0, 1, 2, 9))):
            body[drawn.randrange(len(body))] = drawn.randrange(256)
        yield bytes(body if drawn.random() < 0.9 else body[:drawn.randrange(len(body))])


def is_json(body):
    try:
        json.loads(body.decode())
    except ValueError:
        return False
    return True


def try_random(tally):
    """Ten thousand messages. Those that can be told apart are answered, up to the end. What can't be is one line."""
    for seed in range(5):
        given = list(bodies(random.Random(seed), 1900))
        status, out, err = tally.tool("ick-lsp", given=b"".join(map(headed, given)) + framed(*END))
        found = codes(out)
        tally.equal(f"the end of random messages {seed}", (status, found[-1:], err), (0, [(99, None)], b""))
        codes_found = [code for _, code in found]
        tally.equal(f"parse errors {seed}", codes_found.count(-32700), sum(not is_json(one) for one in given))
        tally.equal(f"internal errors {seed}", codes_found.count(-32603), 0)
    for seed in range(25):
        drawn = random.Random(seed)
        given = bytearray(b"".join(map(headed, bodies(drawn, 20))))
        for _ in range(5):
            at = drawn.randrange(len(given))
            given[at:at + drawn.randrange(3)] = drawn.randbytes(drawn.randrange(3))
        status, out, err = tally.tool("ick-lsp", given=bytes(given))
        tally.check(status == 1 and err.startswith(b"ick-lsp: ") and err.count(b"\n") == 1,
                    f"damaged heads {seed}: {status} {err!r}")
        tally.check(all("jsonrpc" in one for one in messages(out)), f"the answers to damaged heads {seed}: {out!r}")


def try_all(tally):
    try_diagnostics(tally)
    try_answers(tally)
    try_politeness(tally)
    try_pasting(tally)
    try_mistakes(tally)
    try_errors(tally)
    try_input(tally)
    try_end(tally)
    try_cancelling(tally)
    try_changes(tally)
    try_random(tally)
