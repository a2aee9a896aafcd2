"""Drives the page in a browser, and compares what it answers with what the programs write.

    page_examples.py PAGE JPQ JPGREP FEW

FEW is 1 where the machine is small: then five queries are asked of one file, and no time is taken.
"""
import os
import pathlib
import signal
import sys
import tempfile

from page_data import CONDITIONS, FAULTS, QUERIES, TABLES, stated_faults, write_orders
from page_trial import TOP, Trial
from webdriver import Browser


def run_whole(trial, url):
    trial.refused()
    for query in QUERIES:
        trial.question(query)
    for query in ("$..price", "$", "$.message", "$..*"):
        trial.forms(query)
        trial.values(query)
    for where, query in CONDITIONS:
        trial.question(query, where)
        trial.forms(query, where)
    for where, columns in TABLES:
        trial.table(where, columns)
    trial.commands()
    trial.patterns()
    trial.paths()
    trial.paths(CONDITIONS[1][0])
    trial.chosen()
    trial.folded()
    trial.documents()
    trial.load(TOP / "examples/log.jsonl")
    for which, text in FAULTS:
        trial.fault(which, text)
    for which, name in (("query", "places.examples"), ("where", "conditions.examples")):
        for text, place in stated_faults(name)[::8]:
            trial.fault(which, text, place)
    trial.other_ways()
    trial.keyboard()
    large = pathlib.Path(trial.room, "orders.jsonl")
    write_orders(large, 5_000_000)
    trial.load(large)
    for query in QUERIES:
        trial.question(query)
    for where, query in CONDITIONS:
        trial.question(query, where)
    trial.table("@.order.total > 200", ["$.order.id", "$.order.user.name", "$.order.items"])
    trial.survey("")
    trial.survey(CONDITIONS[5][0])
    trial.deep()
    trial.trap()
    trial.foreign()
    trial.scroll(1_000_000)
    trial.typing()
    trial.silence(url)
    trial.unable()
    trial.downloads(url)


def main(page, jpq, jpgrep, few):
    # So that the browser ends where this is told to.
    signal.signal(signal.SIGTERM, lambda number, _: sys.exit(128 + number))
    with tempfile.TemporaryDirectory(prefix="page-") as room, Browser(room) as browser:
        trial, url = Trial(browser, room, jpq, jpgrep), f"file://{page}"
        try:
            browser.go(url)
            trial.done("isReady")
            trial.load(TOP / "examples/log.jsonl")
            if few:
                for query in QUERIES[:5]:
                    trial.question(query)
                trial.patterns()
                trial.survey("")
                trial.silence(url)
            else:
                run_whole(trial, url)
        except RuntimeError as error:
            trial.check("the page goes on", str(error), "")
        print(f"page: Chromium {browser.version}")
        print(f"page: {trial.passed} passed, {trial.failed} failed, 0 skipped")
        return 1 if trial.failed else 0


if __name__ == "__main__":
    sys.exit(main(*map(os.path.realpath, sys.argv[1:4]), sys.argv[4] == "1"))
