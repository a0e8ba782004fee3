"""Logs in SARIF 2.1.0: the fields that its schema wants, and the same findings as in JSON, with columns that count characters."""
import concurrent.futures
import json
import os
import urllib.parse

from explain_json import drawn_scripts, example_scripts, reports
from explain_pages import SCRIPTS
from explain_texts import WITH_CERTIFICATE
from explain_tools import VERSION, Tools, letters, page_due

SCHEMA = "https://json.schemastore.org/sarif-2.1.0.json"
REGION = ["startLine", "startColumn", "endLine", "endColumn", "byteOffset", "byteLength"]


def column_due(script, offset, is_end):
    """The column of the character that has the byte at the offset; of an end the column behind all characters that begin before it. A byte that is
    part of no character counts as one."""
    start, column = script.rfind(b"\n", 0, offset) + 1, 1
    for part in letters(script[start:].split(b"\n")[0]):
        if start >= offset or (not is_end and start + len(part) > offset):
            break
        start, column = start + len(part), column + 1
    return column


def region_due(script, start, end):
    """The region between the positions; without an end it is the byte at the start, if there is one in its line."""
    length = end["offset"] - start["offset"] if end else int(script[start["offset"]:start["offset"] + 1] not in (b"", b"\n"))
    last = end["line"] if end else start["line"]
    return dict(zip(REGION, (start["line"], column_due(script, start["offset"], False), last, column_due(script, start["offset"] + length, True),
                             start["offset"], length)))


def location_due(script, uri, start, end):
    """A physical location; without a position it is the script as a whole."""
    region = {"region": region_due(script, start, end)} if start else {}
    return {"artifactLocation": {"uri": uri}, **region}


def result_due(script, uri, rules, finding):
    """The result for a finding in JSON."""
    message = finding["message"] + ("; hint: " + finding["hint"] if finding["hint"] else "")
    due = {"ruleId": finding["code"], "ruleIndex": rules.index(finding["code"]), "level": finding["level"], "message": {"text": message},
           "locations": [{"physicalLocation": location_due(script, uri, finding["position"], finding["end"])}]}
    if finding["steps"]:
        steps = [{"location": {"physicalLocation": location_due(script, uri, step["position"], None), "message": {"text": step["message"]}}}
                 for step in finding["steps"]]
        due["codeFlows"] = [{"threadFlows": [{"locations": steps}]}]
    if finding["fix"]:
        fix = finding["fix"]
        change = {"deletedRegion": region_due(script, fix["start"], fix["end"]), "insertedContent": {"text": fix["text"]}}
        due["fixes"] = [{"artifactChanges": [{"artifactLocation": {"uri": uri}, "replacements": [change]}]}]
    return due


def hold_rule(tools, rule, page):
    """What a rule means, and where it is explained: in texts of one sentence, of which the longer one begins with the shorter one."""
    what = rule["id"]
    tools.same("fields of the rule %s" % what, list(rule), ["id", "shortDescription", "fullDescription", "help"])
    short, full = (rule.get(key, {}).get("text", "?") for key in ("shortDescription", "fullDescription"))
    tools.holds("meaning of %s" % what, 10 < len(short) <= 100 and short[0].isupper() and short[-1] not in ".:" and full.startswith(short + ". "))
    due = page_due(what) if what not in ("no-bound", "no-space-bound") else page
    tools.same("help of %s" % what, rule["help"], {"text": "See docs/" + due, "markdown": "See `docs/%s`" % due})
    tools.holds("page of %s" % what, "docs/" + due in full)


def hold_log(tools, what, script, log, report, uri):
    """A log against the report in JSON."""
    rules = list(dict.fromkeys(finding["code"] for finding in report["findings"]))
    pages = {finding["code"]: finding["page"] for finding in report["findings"]}
    tools.same("version %s" % what, (log["$schema"], log["version"], len(log["runs"])), (SCHEMA, "2.1.0", 1))
    run, = log["runs"]
    driver = run["tool"]["driver"]
    tools.same("driver %s" % what, (driver["name"], driver["version"]), ("sedck-explain", VERSION))
    tools.same("kind of columns %s" % what, run.get("columnKind"), "unicodeCodePoints")
    tools.same("rules %s" % what, [rule["id"] for rule in driver["rules"]], rules)
    for rule in driver["rules"]:
        hold_rule(tools, rule, pages[rule["id"]])
    tools.same("results %s" % what, run["results"], [result_due(script, uri, rules, finding) for finding in report["findings"]])


def log_of(tools, what, words, status):
    """The log, which is one line in ASCII."""
    seen, text, errors = tools.explain("--format", "sarif", *words)
    tools.same("sarif %s" % what, (seen, errors), (status, b""))
    tools.holds("ASCII alone %s" % what, all(32 <= byte < 127 for byte in text[:-1]) and text[-1:] == b"\n")
    return json.loads(text)


def hold_script(tools, name, script, report):
    hold_log(tools, name, script, log_of(tools, name, [name], report["status"]), report, name)


def check_certificates(tools):
    """Findings without a position, and the edges that are rejected."""
    for script, text, *_ in WITH_CERTIFICATE:
        tools.write("s.sed", script)
        tools.write("s.cert", text.encode())
        words = ["--cert", "s.cert", "s.sed"]
        report, = reports(tools, words)
        hold_log(tools, "%r" % text, script, log_of(tools, "%r" % text, words, report["status"]), report, "s.sed")


def check_addresses(tools):
    """Paths are escaped as addresses want it; one that begins with a slash has the scheme `file`."""
    for name in ("a b.sed", "\u00e9%41.sed", "x:1#?&+,;=@[]^`{|}'\".sed", "a\x1b\n\x7f.sed", "-_.~Az09.sed"):
        tools.write(name, b"b z\n")
        report, = reports(tools, ["--", name])
        uri = urllib.parse.quote(name, safe="-._~/")
        hold_log(tools, repr(name), b"b z\n", log_of(tools, repr(name), ["--", name], 2), report, uri)
    path = tools.path("a b.sed")
    report, = reports(tools, [path])
    hold_log(tools, path, b"b z\n", log_of(tools, path, [path], 2), report, "file://" + urllib.parse.quote(path))


# A script, and the columns of its findings: where each begins and ends. They are counted by hand.
COLUMNS = [
    ("p é\n".encode(), [(3, 4)]),
    ("y/ä/üö/;s/ä*//;b é\n".encode(), [(1, 2)]),
    ("s/äöü/[z-a]/;s/☃[z-a]/x/\n".encode(), [(18, 21)]),
    ("s/😀\\+/x/\n".encode(), [(4, 6)]),
    # what is no character is one for each byte
    (b"s/\xff\xc3\\+/x/\n", [(5, 7)]),
    (b"s/\xed\xa0\x80\\+/x/\n", [(6, 8)]),
    (b"# \xc3\ns/\xa4\\+/x/\n", [(4, 6)]),
]


def check_columns(tools):
    """Columns count characters, and offsets bytes."""
    for script, due in COLUMNS:
        tools.write("c.sed", script)
        log = log_of(tools, "%r" % script, ["c.sed"], 2)
        regions = [result["locations"][0]["physicalLocation"]["region"] for result in log["runs"][0]["results"]]
        tools.same("columns of %r" % script, [(region["startColumn"], region["endColumn"]) for region in regions], due)


def check_unreadable(tools):
    """A script that can't be read has a run without results, and a notification that says why."""
    for words, uri, message in ((["gone.sed"], "gone.sed", "cannot read gone.sed: no such file"),
                                ([b"u\xe9\xff %.sed"], "u%E9%FF%20%25.sed", "cannot read u?E9?FF %.sed: its name is not UTF-8; give the file as standard input"),
                                (["--cert", "gone.cert", "c.sed"], "c.sed", "cannot read gone.cert: no such file"),
                                (["--sed", "--", "-f", "gone.sed"], "sed", "cannot read gone.sed: no such file")):
        status, text, errors = tools.explain("--format", "sarif", *words)
        tools.same("status of %r" % words, (status, errors.decode()), (4, "sedck-explain: %s\n" % message))
        (run,) = json.loads(text or b'{"runs":[{"invocations":[],"results":[],"tool":{"driver":{"rules":[]}}}]}')["runs"]
        notice = {"descriptor": {"id": "unreadable"}, "level": "error", "message": {"text": message},
                  "locations": [{"physicalLocation": {"artifactLocation": {"uri": uri}}}]}
        tools.same("run of %r" % words, (run["invocations"], run["results"]),
                   ([{"executionSuccessful": False, "toolExecutionNotifications": [notice]}], []))
        tools.same("rules of %r" % words, run["tool"]["driver"]["rules"], [])


def check(tools: Tools, count: int) -> None:
    """Compares the logs of chosen scripts, of the examples and of drawn ones."""
    scripts = SCRIPTS + list(example_scripts()) + drawn_scripts(count)
    names = [tools.write("sarif-%d.sed" % at, script) for at, script in enumerate(scripts)]
    found = reports(tools, names)
    with concurrent.futures.ThreadPoolExecutor(os.cpu_count()) as pool:
        for job in [pool.submit(hold_script, tools, *case) for case in zip(names, scripts, found)]:
            job.result()
    check_certificates(tools)
    check_addresses(tools)
    check_columns(tools)
    check_unreadable(tools)
