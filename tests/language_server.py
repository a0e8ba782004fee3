#!/usr/bin/env python3
"""Speaks the Language Server Protocol with wrapper/sedck-lsp: python3 tests/language_server.py build/sedck-explain

What is published, shown, formatted and offered of texts in several spellings: with characters of two UTF-16 units, with CRLF, empty, with
bytes that aren't UTF-8, changed while they are judged; of calls in shell scripts and makefiles; where labels are; headers without a length;
and the order of initialize, shutdown and exit. Positions were counted by hand. The status is 0 only where all is as it is due.
"""
import json
import os
import queue
import re
import subprocess
import sys
import tempfile
import threading
import time
from pathlib import Path

TOP = Path(__file__).resolve().parent.parent
SERVER = TOP / "wrapper" / "sedck-lsp"
wrong = []


def expect(seen, due, what):
    if seen != due:
        wrong.append(what)
        print("language_server: %s: %r, and %r is due" % (what, seen, due))


class Editor:
    """An editor with a server of its own."""
    def __init__(self, explain, begins=True):
        self.server = subprocess.Popen([SERVER], stdin=subprocess.PIPE, stdout=subprocess.PIPE, env={**os.environ, "SEDCK_EXPLAIN": explain})
        self.messages, self.number = queue.Queue(), 0
        threading.Thread(target=self.listen, daemon=True).start()
        if begins:
            self.ask("initialize", {"processId": None, "rootUri": None, "capabilities": {}})
            self.tell("initialized", {})

    def listen(self):
        while (head := self.server.stdout.readline()):
            assert head.startswith(b"Content-Length: ") and self.server.stdout.readline() == b"\r\n"
            self.messages.put(json.loads(self.server.stdout.read(int(head[16:]))))
        self.messages.put(None)

    def raw(self, text):
        self.server.stdin.write(b"Content-Length: %d\r\n\r\n" % len(text) + text)
        self.server.stdin.flush()

    def tell(self, method, params):
        self.raw(json.dumps({"jsonrpc": "2.0", "method": method, "params": params}).encode())

    def next(self):
        return self.messages.get(timeout=60)

    def ask(self, method, params):
        """The answer to a request; what is published meanwhile is put behind it."""
        self.number += 1
        self.raw(json.dumps({"jsonrpc": "2.0", "id": self.number, "method": method, "params": params}).encode())
        others = []
        while True:
            message = self.next()
            if message is None or message.get("id") == self.number:
                for other in others:
                    self.messages.put(other)
                return message
            others.append(message)

    def open(self, uri, text, version=1, language="sed"):
        self.tell("textDocument/didOpen", {"textDocument": {"uri": uri, "languageId": language, "version": version, "text": text}})

    def findings(self, uri, text, language="sed"):
        """What is published of a text that is opened."""
        self.open(uri, text, language=language)
        message = self.next()
        expect((message["method"], message["params"]["uri"], message["params"]["version"]), ("textDocument/publishDiagnostics", uri, 1), "what is published")
        return message["params"]["diagnostics"]

    def end(self):
        self.tell("exit", {})
        return self.server.wait(60)


def span(first, start, last, end):
    return {"start": {"line": first, "character": start}, "end": {"line": last, "character": end}}


def about(uri, **more):
    return {"textDocument": {"uri": uri}, **more}


def check_findings(editor):
    """A loop has its commands as related places, in UTF-16; a fault has its byte."""
    found = editor.findings("file:///none/loop.sed", "# 𝄞\n:a;s/x/𝄞/;b a\n")
    expect([(one["code"], one["severity"], one["source"]) for one in found if one["severity"] == 1], [("loop-idle", 1, "sedck")], "the code of a loop")
    related = found[0]["relatedInformation"]
    expect(len(related) >= 2 and {place["location"]["uri"] for place in related}, {"file:///none/loop.sed"}, "the places of a loop")
    # `b` is behind `:a;s/x/`, two units, and `/;`.
    expect([place["location"]["range"]["start"] for place in related if place["message"].startswith("branches")][:1], [{"line": 1, "character": 11}],
           "the branch of a loop")
    found = editor.findings("file:///none/fault.sed", "p\n# 𝄞 é\ns/𝄞é\\+/x/\n")
    expect([(one["code"], one["range"]["start"]) for one in found], [("bad-escape", {"line": 2, "character": 5})], "a fault behind two characters")
    found = editor.findings("file:///none/unclosed.sed", "s/[/x/")
    expect([one["code"] for one in found], ["unclosed-bracket"], "a fault of the last line")
    expect(editor.findings("file:///none/empty.sed", ""), [], "an empty text")
    expect(editor.findings("untitled:Untitled-1", "p"), [], "a text without a file")
    found = editor.findings("file:///none/-n.sed", "s/[/x/")
    expect([one["code"] for one in found], ["unclosed-bracket"], "a name that begins with a hyphen")


def check_hints(editor):
    """A diagnostic has the message and the hint that README shows of the same script, and the hint of `\\+` what POSIX has for it."""
    page = (TOP / "README.md").read_text()
    shown = re.search(r"^examples/join-all-loop\.sed:1:1: error: (.*) \[loop-idle\]$(?:\n.*)*?\n     = hint: (.*)$", page, re.M)
    found = editor.findings("file:///none/join-all-loop.sed", (TOP / "examples/join-all-loop.sed").read_text())
    expect([one["message"] for one in found if one["severity"] == 1], [shown[1] + "\nhint: " + shown[2]], "the message of a loop")
    found = editor.findings("file:///none/plus.sed", "s/a\\+/b/")
    expect([("\nhint: " in one["message"], "\\{1,\\}" in one["message"].partition("\nhint: ")[2]) for one in found], [(True, True)], "the hint of \\+")
    found = editor.findings("file:///none/one.sed", "s/a/b/")
    expect([one["message"] for one in found if "hint" in one["message"]], [], "a hint of nothing")


def check_ends_of_lines(editor):
    """CRLF ends one line, and a finding at its CR stays there; a CR alone ends a line for the editor, and none for sed."""
    found = editor.findings("file:///none/crlf.sed", "p\r\np\r\n")
    expect([(one["code"], one["range"]["start"]) for one in found if one["severity"] == 1], [("extra-text", {"line": 0, "character": 1})], "a fault at CRLF")
    found = editor.findings("file:///none/cr.sed", "# a\rs/[/x/\n")
    expect([one["range"]["start"]["line"] for one in found if one["severity"] == 1][:1], [0], "a CR inside of a comment")
    # An edit that takes a CR away from its LF has no place in the editor, which divides neither.
    fixes = editor.ask("textDocument/codeAction", about("file:///none/crlf.sed", range=span(0, 0, 0, 0), context={"diagnostics": []}))["result"]
    expect(fixes, [], "the fixes of CRLF")


def check_bytes(editor, folder):
    """Bytes that aren't UTF-8 are judged as they are in the file, and not edited."""
    file = Path(folder) / "latin 1.sed"
    file.write_bytes(b"# \xe9\ns/\xe9*x\\+/y/;p;p\n")
    uri = file.as_uri()
    found = editor.findings(uri, file.read_bytes().decode(errors="replace"))
    expect([(one["code"], one["range"]["start"]) for one in found if one["severity"] == 1], [("bad-escape", {"line": 1, "character": 5})], "bytes that aren't UTF-8")
    expect(editor.ask("textDocument/codeAction", about(uri, range=span(1, 0, 1, 9), context={"diagnostics": []}))["result"], [], "a fix in bytes that aren't UTF-8")
    file.write_bytes(b"# \xe9\np;p\n")
    expect([one["severity"] for one in editor.findings(uri, file.read_bytes().decode(errors="replace")) if one["severity"] == 1], [], "Latin 1 that is accepted")
    expect(editor.ask("textDocument/formatting", about(uri, options={}))["result"], None, "the spelling of bytes that aren't UTF-8")
    # The editor has another text than the file: then its own counts.
    expect([one["code"] for one in editor.findings(uri, "# \ufffd\ns/[/x/\n") if one["severity"] == 1], ["unclosed-bracket"], "a text that has changed")
    expect([one["severity"] for one in editor.findings("file:///none/lone.sed", "# \udc80\np\n") if one["severity"] == 1], [], "half of a character")


def check_requests(editor):
    uri = "file:///none/join.sed"
    text = ":a;$!{N;ba};s/\\n/ /g;w out é\n"
    editor.findings(uri, text)
    shown = editor.ask("textDocument/hover", about(uri, position={"line": 0, "character": 0}))["result"]["contents"]
    expect(shown["kind"], "markdown", "the kind of what is shown")
    for line in ("**sedck**: accepted", "writes: `out \\xc3\\xa9`", "reads: no file", "memory: at most 1 a byte + 1 a line"):
        expect(line in shown["value"].split("\n\n"), True, "%r in what is shown, which is %r" % (line, shown["value"]))
    expect([line for line in shown["value"].split("\n\n") if line.startswith("steps: at most ")] != [], True, "the limit on steps")
    edits = editor.ask("textDocument/formatting", about(uri, options={"tabSize": 2}))["result"]
    expect(edits, [{"range": span(0, 0, 1, 0), "newText": ":a\n$!{\n  N\n  b a\n}\ns/\\n/ /g\nw out é\n"}], "the plain spelling")
    editor.findings(uri, "p # behind\n")
    expect(editor.ask("textDocument/formatting", about(uri, options={}))["result"], [{"range": span(0, 0, 1, 0), "newText": "p; # behind\n"}], "a comment behind a command")
    editor.findings(uri, edits[0]["newText"])
    expect(editor.ask("textDocument/formatting", about(uri, options={}))["result"], None, "the spelling of a plain text")
    editor.findings(uri, "s/[/x/")
    expect(editor.ask("textDocument/formatting", about(uri, options={}))["result"], None, "the spelling of what is refused")
    editor.findings(uri, "# 𝄞\ns/𝄞a\\+/x/\n")
    actions = editor.ask("textDocument/codeAction", about(uri, range=span(1, 0, 1, 0), context={"diagnostics": []}))["result"]
    expect([action["edit"]["changes"][uri] for action in actions], [[{"range": span(1, 5, 1, 7), "newText": "\\{1,\\}"}]], "a fix behind two units")
    expect([(action["kind"], len(action["diagnostics"])) for action in actions], [("quickfix", 1)], "the kind of a fix")
    expect(editor.ask("textDocument/codeAction", about(uri, range=span(0, 0, 0, 0), context={"diagnostics": []}))["result"], [], "no fix in another line")
    shown = editor.ask("textDocument/hover", about(uri, position={"line": 0, "character": 0}))["result"]["contents"]["value"]
    expect(shown, "**sedck**: script-refused", "what is shown of a script that isn't read")
    for method in ("hover", "definition", "formatting", "codeAction"):
        error = editor.ask("textDocument/" + method, about("file:///none/other.sed", position={"line": 0, "character": 0}, range=span(0, 0, 0, 0)))["error"]
        expect((error["code"], "file:///none/other.sed" in error["message"]), (-32602, True), "a text that isn't open, for " + method)
    expect(editor.ask("textDocument/rename", about(uri))["error"]["code"], -32601, "an unknown request")
    expect(editor.ask("textDocument/hover", {})["error"]["code"], -32602, "a request without a parameter")
    editor.tell("$/setTrace", {"value": "off"})
    editor.raw(b"{")
    expect(editor.next()["error"]["code"], -32700, "what is no JSON")
    editor.tell("textDocument/didClose", about(uri))
    message = editor.next()["params"]
    expect((message["uri"], message["diagnostics"]), (uri, []), "a text that is closed")


# A shell script with a fault, a loop and an accepted call. Its lines are counted in UTF-16.
CALLS = "echo '𝄞'; sed 's/a\\+/b/' f\nsed -n ':x;/q/bx;p' f\n\nsed 'b e;p;:e;w out' $f\n"
MAKEFILE = 'SED = sed\nall:\n\t@$(SED) -e "s/$$x/y/" -e ":a" -e "s/$(Y)/z/;ta" in\n'


def starts(found):
    """The codes of errors, with where each begins and ends."""
    return [(one["code"], one["range"]) for one in found if one["severity"] == 1]


def check_calls(editor):
    """Calls in a shell script and a makefile have their findings, labels and what is shown at their places."""
    uri = "file:///none/calls"
    found = editor.findings(uri, CALLS, "shellscript")
    expect(starts(found), [("bad-escape", span(0, 19, 0, 21)), ("loop-idle", span(1, 8, 1, 10))], "the errors of calls")
    related = [one["relatedInformation"] for one in found if one["code"] == "loop-idle"][0]
    expect([place["location"]["range"]["start"] for place in related], [{"line": 1, "character": at} for at in (8, 14, 8)], "the steps of a loop in a call")
    expect([one["range"] for one in found if one["code"] == "open-hole"], [span(3, 21, 3, 23)], "a hole of a call")
    for line, due in ((0, ["**sedck**: script-refused"]), (1, ["**sedck**: loop", "reads: no file", "writes: no file"]), (2, None), (3, ["**sedck**: accepted-if", "writes: `out`"]), (4, None)):
        shown = editor.ask("textDocument/hover", about(uri, position={"line": line, "character": 1}))["result"]
        parts = shown and shown["contents"]["value"].split("\n\n")
        expect(parts if line < 3 else parts and [part for part in parts if part in (due or parts)], due, "what is shown of line %d, which is %s" % (line, parts))
    expect(editor.ask("textDocument/formatting", about(uri, options={}))["result"], None, "the spelling of a shell script")
    expect(editor.ask("textDocument/codeAction", about(uri, range=span(0, 0, 9, 0), context={"diagnostics": []}))["result"], [], "the fixes of calls")
    for line, at, due in ((1, 14, span(1, 9, 1, 10)), (1, 16, span(1, 9, 1, 10)), (1, 17, None), (3, 5, span(3, 12, 3, 13)), (3, 9, None), (0, 17, None)):
        check_label(editor, uri, line, at, due)
    # A change keeps the language.
    editor.tell("textDocument/didChange", {"textDocument": {"uri": uri, "version": 2}, "contentChanges": [{"text": "\n" + CALLS}]})
    expect(starts(editor.next()["params"]["diagnostics"])[1], ("loop-idle", span(2, 8, 2, 10)), "a changed shell script")
    for uri, language in (("file:///none/Makefile", ""), ("file:///none/rules", "makefile")):
        expect(starts(editor.findings(uri, MAKEFILE, language)), [("loop-growing", span(2, 35, 2, 44))], "a makefile %s %s" % (uri, language))
        check_label(editor, uri, 2, 46, span(2, 28, 2, 29))
    expect([one["code"] for one in editor.findings("file:///none/open.sh", "echo 'a\n", "sh")], ["not-understood"], "a shell script that isn't closed")
    expect(editor.findings("file:///none/none.sh", "echo a\n", "sh"), [], "a shell script without a call")


def check_label(editor, uri, line, at, due):
    """The definition of what is at this place."""
    found = editor.ask("textDocument/definition", about(uri, position={"line": line, "character": at}))["result"]
    expect(found or None, due and [{"uri": uri, "range": due}], "the label of %d:%d in %s" % (line, at, uri))


def check_labels(editor):
    """A branch leads to its label, and a label to itself; texts and comments have none."""
    uri = "file:///none/labels.sed"
    editor.findings(uri, "# b one\n:one\n𝄞a\n".replace("𝄞a", "s/𝄞/x/;t  two # b one") + "$!{N;b one\n}\n: two\na\\\nb one\nb\n")
    for line, at, due in ((0, 2, None), (1, 0, span(1, 1, 1, 4)), (1, 4, span(1, 1, 1, 4)), (2, 7, None), (2, 8, span(5, 2, 5, 5)), (2, 14, span(5, 2, 5, 5)), (2, 15, None), (2, 19, None),
                          (3, 4, None), (3, 5, span(1, 1, 1, 4)), (5, 3, span(5, 2, 5, 5)), (7, 2, None), (8, 0, None)):
        check_label(editor, uri, line, at, due)
    editor.findings(uri, ":a\nb a\ns/[/x/\n")
    check_label(editor, uri, 1, 0, None)


def check_kinds(editor):
    """Which texts are scripts of sed, and which have calls: by the first line, the language that the editor names, and the name."""
    text, tag = "echo; sed ':a;ba' f\n", "file:///none/"
    for uri, language, first, code in ((tag + "a", "shellscript", "", "loop-idle"), (tag + "a", "sh", "", "loop-idle"), (tag + "a.sh", "", "", "loop-idle"), (tag + "configure", "", "", "loop-idle"),
                                       (tag + "a.sed", "sed", "", "unknown-command"), (tag + "a.sh", "sed", "", "unknown-command"), (tag + "a", "", "", "unknown-command"),
                                       (tag + "a.sed", "sed", "#!/bin/sh\n", "loop-idle"), (tag + "a", "", "#!/usr/bin/env -S A=1 bash\n", "loop-idle"),
                                       (tag + "a.sh", "shellscript", "#!/bin/sed -f\n", "unknown-command"), (tag + "a", "", "# /bin/sh\n", "unknown-command")):
        found = editor.findings(uri, first + text, language)
        expect([one["code"] for one in found if one["severity"] == 1], [code], "the kind of %s as %r with %r" % (uri, language, first))
    found = editor.findings(tag + "ci.yml", "jobs:\n  a:\n    steps:\n      - run: sed ':a;ba' f\n", "yaml")
    expect(starts(found), [("loop-idle", span(3, 18, 3, 20))], "a call in YAML")
    found = editor.findings(tag + "Dockerfile", "FROM x\nRUN sed ':a;ba' f\n", "dockerfile")
    expect(starts(found), [("loop-idle", span(1, 9, 1, 11))], "a call in a Dockerfile")


def check_headers(explain):
    """A header without a length that can be read is an error, and what follows is read."""
    for number in (b"1" * 5000, b"9" * 9, b"-1", b"x", b"", b"1 2", b"0x5"):
        editor = Editor(explain)
        editor.server.stdin.write(b"Content-Length: %s\r\n\r\n{}" % number)
        editor.server.stdin.flush()
        expect(editor.next()["error"]["code"], -32700, "the error after a length of %r" % number[:20])
        expect("contents" in str(opened_hover(editor)), True, "what follows a length of %r" % number[:20])
        editor.ask("shutdown", None)
        expect(editor.end(), 0, "the end after a length of %r" % number[:20])
    editor = Editor(explain)
    editor.server.stdin.write(b"Content-Type: x\r\n\r\n{}\n\n\n{}\r\n\r\n")
    editor.server.stdin.flush()
    expect(editor.next()["error"]["code"], -32700, "the error of a header without a length")
    expect("contents" in str(opened_hover(editor)), True, "what follows a header without a length")
    editor.server.stdin.write(b"content-length:  17 \r\nX-Other: 5\r\n\r\n" + b'{"method":"exit"}')
    editor.server.stdin.flush()
    expect(editor.server.wait(60), 1, "another spelling of a header")


def opened_hover(editor):
    """What is shown of a text that is opened."""
    editor.open("file:///none/a.sed", "p\n")
    return editor.ask("textDocument/hover", about("file:///none/a.sed", position={"line": 0, "character": 0}))


def check_ends(folder):
    """The server ends with its input, also while it is judging, and answers before that what was asked."""
    sleeps = Path(folder) / "sleeps"
    sleeps.write_text('#!/bin/sh\ncat > /dev/null\necho $$ >> "%s/pids"\nexec sleep 600\n' % folder)
    sleeps.chmod(0o755)
    editor = Editor(str(sleeps))
    editor.open("file:///none/a.sed", "p\n")
    editor.raw(json.dumps({"id": 9, "method": "textDocument/hover", "params": about("file:///none/a.sed", position={"line": 0, "character": 0})}).encode())
    editor.server.stdin.close()
    try:
        status = editor.server.wait(60)
    except subprocess.TimeoutExpired:
        editor.server.kill()
        status = None
    expect(status, 1, "the status where what is asked takes for ever")
    pids = [int(line) for line in (Path(folder) / "pids").read_text().split()]
    for _ in range(100):
        left = [pid for pid in pids if Path("/proc/%d" % pid).exists()]
        if not left:
            break
        time.sleep(0.1)
    expect((len(pids), left), (2, []), "what it was judging")
    for pid in left:
        os.kill(pid, 9)


def check_cut(explain, folder):
    """A report that isn't whole is none, and so is a text that is another one."""
    for name, text in (("cut", 'cat > "%s/cut-in"; "%s" "$@" < "%s/cut-in" | head -n 1' % (folder, explain, folder)), ("other", "cat > /dev/null; echo '[]'"), ("empty", "cat > /dev/null")):
        stub = Path(folder) / name
        stub.write_text("#!/bin/sh\n%s\n" % text)
        stub.chmod(0o755)
        editor = Editor(str(stub))
        editor.open("file:///none/a.sh", "sed p f\nsed ':a;ba' f\n", language="sh")
        said = editor.next()
        expect((said["method"], said["params"].get("type")), ("window/showMessage", 1), "a report that is " + name)
        expect(editor.next()["params"]["diagnostics"], [], "what is published of a report that is " + name)
        expect("error" in editor.ask("textDocument/hover", about("file:///none/a.sh", position={"line": 0, "character": 0})), True, "hovering over a report that is " + name)
        editor.end()


def check_changes(explain, folder):
    """Of a text that changes while it is judged only what is said of the last version is published."""
    slow = Path(folder) / "slow"
    slow.write_text('#!/bin/sh\ncat > "%s/in.$$"\nif grep -q slow "%s/in.$$"; then sleep 2; fi\nexec "%s" "$@" < "%s/in.$$"\n' % (folder, folder, explain, folder))
    slow.chmod(0o755)
    editor, uri = Editor(str(slow)), "file:///none/changing.sed"
    editor.open(uri, "# slow\ns/[/x/\n")
    editor.tell("textDocument/didChange", {"textDocument": {"uri": uri, "version": 2}, "contentChanges": [{"text": "# slow\nb a\n"}]})
    editor.tell("textDocument/didChange", {"textDocument": {"uri": uri, "version": 3}, "contentChanges": [{"text": "p\n:b\nb b\n"}]})
    message = editor.next()["params"]
    expect((message["version"], [one["code"] for one in message["diagnostics"]]), (3, ["loop-idle"]), "the version that is published")
    editor.ask("shutdown", None)
    expect(editor.end(), 0, "the end after changes")
    expect(list(iter(editor.next, None)), [], "what is published of old versions")


# Messages that aren't of the protocol, each with the code of the error that is due, or None where nobody waits for an answer.
MALFORMED = [
    (b"5", -32600), (b"null", -32600), (b"[]", -32600), (b'{"method": 7}', -32600), (b"[" * 100000, -32700), (b'{}', None),
    (b'{"id": 0, "method": "textDocument/hover", "params": [1]}', -32602), (b'{"method": "textDocument/didOpen", "params": [1]}', None),
    (b'{"method": "textDocument/didChange", "params": {"textDocument": {"uri": "file:///none/a.sed", "version": 1}}}', None),
    (b'{"method": "textDocument/didOpen", "params": {"textDocument": {"uri": "file://[x/a.sed", "version": 1, "text": "p"}}}', None),
]


def check_malformed(editor):
    """After a message that isn't of the protocol the server still answers."""
    for text, due in MALFORMED:
        editor.raw(text)
        if due:
            expect(editor.next()["error"]["code"], due, "the error of %r" % text[:60])
        expect(editor.ask("textDocument/hover", about("file:///none/none.sed"))["error"]["code"], -32602, "what follows %r" % text[:60])


def check_life(explain):
    """The order of initialize, shutdown and exit."""
    editor = Editor(explain, begins=False)
    expect(editor.ask("textDocument/hover", about("file:///none/a.sed"))["error"]["code"], -32002, "a request before initialize")
    able = editor.ask("initialize", {"capabilities": {}})["result"]["capabilities"]
    expect((able["positionEncoding"], able["textDocumentSync"]["change"]), ("utf-16", 1), "what the server can do")
    expect("result" in editor.ask("shutdown", None), True, "shutdown")
    expect(editor.ask("textDocument/hover", about("file:///none/a.sed"))["error"]["code"], -32600, "a request after shutdown")
    expect(editor.end(), 0, "the status after shutdown")
    expect(Editor(explain).end(), 1, "the status without shutdown")
    editor = Editor(explain)
    editor.server.stdin.close()
    expect(editor.server.wait(60), 1, "the status where the editor is gone")
    for text in (b"", b"Content-Length: 5", b"Content-Length: 5\r\n\r\n{}", b"Content-Length: x\r\n\r\n"):
        editor = Editor(explain)
        editor.server.stdin.write(text)
        editor.server.stdin.close()
        expect(editor.server.wait(60), 1, "the status where the input ends behind %r" % text)
    editor = Editor("/nowhere/sedck-explain")
    editor.open("file:///none/a.sed", "p\n")
    expect(editor.next()["method"], "window/showMessage", "a program that is missing")
    expect("error" in editor.ask("textDocument/hover", about("file:///none/a.sed", position={"line": 0, "character": 0})), True, "hovering without a program")
    for words, due in ((["--help"], 0), (["--stdi"], 3)):
        expect(subprocess.run([SERVER, *words], stdin=subprocess.DEVNULL, capture_output=True).returncode, due, "the status of %s" % words)


def main():
    explain = os.path.abspath(sys.argv[1])
    with tempfile.TemporaryDirectory(prefix="sedck-lsp-") as folder:
        editor = Editor(explain)
        check_findings(editor)
        check_hints(editor)
        check_ends_of_lines(editor)
        check_bytes(editor, folder)
        check_requests(editor)
        check_calls(editor)
        check_labels(editor)
        check_kinds(editor)
        check_malformed(editor)
        expect("result" in editor.ask("shutdown", None) and editor.end(), 0, "the end")
        check_headers(explain)
        check_ends(folder)
        check_cut(explain, folder)
        check_changes(explain, folder)
        check_life(explain)
    if not wrong:
        print("language_server: findings, hovering, formatting and fixes are where the editor has them")
    return 1 if wrong else 0


if __name__ == "__main__":
    sys.exit(main())
