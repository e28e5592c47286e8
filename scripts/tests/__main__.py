#!/usr/bin/env python3
"""Runs tests of what was built, several at a time.

At the top of the repository. A TEST is a file scripts/tests/test_TEST.py, or a folder with such files; all files here if none is named. The environment names
what is tested: BAO_GATHER (out/bao_gather if left out) and BERYLWOOL_LIBRARY (out/libberylwool.so). `python3 -m unittest discover -s scripts/tests -k NAME`
runs the same tests one after another. Prints what was wrong, a line for each class at its end, and last 'N passed, M failed', where each run of a test that makes
several counts. The exit status is 1 if one failed or none passed.
"""
import collections
import multiprocessing
import os
import sys
import traceback
import unittest

sys.dont_write_bytecode = True
import cases
import script


# So many failures of a task are told.
MANY = 20


class Told(unittest.TestResult):
    """How many runs passed and failed, and what to say of those that failed."""

    def __init__(self):
        super().__init__()
        self.passed, self.failed, self.said, self.is_one = 0, 0, [], True

    def startTest(self, test):
        super().startTest(test)
        self.is_one = True

    def addSuccess(self, test):
        self.passed += self.is_one

    def addSubTest(self, test, subtest, err):
        self.is_one = False
        if err:
            self.addError(subtest, err)
        else:
            self.passed += 1

    def addError(self, test, err):
        self.failed += 1
        told = str(err[1]) if issubclass(err[0], cases.Wrong) else "".join(traceback.format_exception(*err))
        if self.failed <= MANY:
            self.said.append(f"{test.id().removesuffix(' (<subtest>)')}: {told}")

    addFailure = addError

    def addSkip(self, test, reason):
        self.said.append(f"{test.id()}: left out: {reason}")


def flat(suite):
    for it in suite:
        yield from flat(it) if isinstance(it, unittest.TestSuite) else [it]


def tasks_of(tests):
    """Splits tests into tasks, the longest first: a class that sets something up for all its tests is one task, and so is each other test."""
    whole, single = {}, []
    for it in tests:
        made = type(it)
        if "setUpClass" in vars(made):
            whole.setdefault(made, []).append(it)
        else:
            single.append((name_of(made), [it]))
    return [(name_of(made), its) for made, its in whole.items()] + single


def name_of(made):
    return f"{made.__module__.removeprefix('test_')}.{made.__qualname__}"


def run(number):
    name, tests = TASKS[number]
    told = Told()
    unittest.TestSuite(tests).run(told)
    sys.stdout.flush()
    return name, told.passed, told.failed, told.said


def main(*tests, k=(), lanes=os.cpu_count()):
    """-k NAME picks the tests whose name contains or matches NAME, and may be repeated. lanes is how many run at a time: one a processor, if left out."""
    loader = unittest.TestLoader()
    loader.testNamePatterns = [it if "*" in it else f"*{it}*" for it in k] if k else None
    for it in tests:
        if not os.path.isdir(it) and not os.path.exists(f"{cases.HERE}/test_{it}.py"):
            sys.exit(f"scripts/tests: there is no test {it}")
    given = [loader.discover(it) if os.path.isdir(it) else loader.discover(cases.HERE, f"test_{it}.py") for it in tests or ["*"]]
    TASKS.extend(tasks_of(flat(given)))
    left, passed, failed = collections.Counter(name for name, _ in TASKS), collections.Counter(), collections.Counter()
    with multiprocessing.get_context("fork").Pool(lanes) as pool:
        for name, right, wrong, told in pool.imap_unordered(run, range(len(TASKS))):
            left[name], passed[name], failed[name] = left[name] - 1, passed[name] + right, failed[name] + wrong
            told += [] if left[name] else [f"{name}: {passed[name]} passed, {failed[name]} failed"]
            if told:
                print("\n".join(told), flush=True)
    print(f"{passed.total()} passed, {failed.total()} failed")
    return 1 if failed.total() or not passed.total() else 0


TASKS = []

if __name__ == "__main__":
    script.run(main)
