#!/usr/bin/env python3
"""Tests of the program `sedck-explain`: python3 tests/explain.py build/sedck-explain build/sedck [--scripts N]

Its contracts have the exit status, the answer and the places of the commands; texts and formats are tested here. What is expected
was worked out by hand from the rules of docs/FORMATS.md, or comes from `sedck`. N scripts are drawn by tests/seds/seds.py. The status is
0 only where everything is as expected.
"""
import argparse
import sys
import tempfile

import explain_denied
import explain_findings
import explain_itself
import explain_json
import explain_listed
import explain_mends
import explain_pages
import explain_plain
import explain_refused
import explain_sarif
import explain_streams
import explain_texts
import explain_words
from explain_tools import Tools


def main():
    words = argparse.ArgumentParser()
    words.add_argument("explain")
    words.add_argument("sedck")
    words.add_argument("--scripts", type=int, default=1000)
    asked = words.parse_args()
    with tempfile.TemporaryDirectory(prefix="sedck-explain-") as folder:
        tools = Tools(asked.explain, asked.sedck, folder)
        explain_refused.check(tools)
        explain_texts.check(tools)
        explain_json.check(tools, asked.scripts)
        explain_words.check(tools)
        explain_denied.check(tools)
        explain_findings.check(tools)
        explain_itself.check(tools)
        explain_listed.check(tools)
        explain_plain.check(tools, asked.scripts)
        explain_mends.check(tools)
        explain_streams.check(tools)
        explain_sarif.check(tools, 100)
        explain_pages.check(tools)
    for failure in tools.failures:
        print("FAILED: " + failure)
    print("sedck-explain: %d comparisons, %d failures" % (tools.compared, len(tools.failures)))
    return 1 if tools.failures else 0


if __name__ == "__main__":
    sys.exit(main())
