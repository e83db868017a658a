#!/usr/bin/env python3
"""Acceptance tests of the program. The last line is 'N passed, M failed'.

    tests/run.py [--unproved] [WORD ..]        tries the cases and tests in whose names one of the words is; all, where there is no word
    tests/run.py --unpack CASE FOLDER          makes the folder, with the files of a case and its commands, to try by hand

The cases are the transcripts in tests/cases/, THEME/CASE each (tests/README.md), and the runs that examples/README.md shows, shown/WORDS. They are tried side by side. A
difference is shown by the lines of the transcript that are others: `-` is what it says, `+` what came. No expected value is ever written here.

The tests are in outside/, random/, programs/ and repository/, each a Python file whose first lines say what it tries, NAME/TEST each. They are tried one after another.
With --unproved the program is one that was built without a proof: that takes minutes less, and shows developers what a change does before its proof.

What the system does not let be tested is skipped: each such test is reported with the reason in a line, and is counted neither as passed nor as failed.
"""

import concurrent.futures
import importlib
import os
import shlex
import sys
import traceback
import unittest
from pathlib import Path

import folders
import sessions
import settings
import shown
import transcripts
from built import UNPROVED, built_program


def chosen(words):
    """The cases in whose names one of the words is."""
    cases = transcripts.every_case() + shown.every_run()
    return [case for case in cases if not words or any(word in case.name for word in words)]


def tried(case):
    """How the case differs; what went wrong, if it could not be tried."""
    try:
        return sessions.differences(case)
    except Exception:
        return [traceback.format_exc()]


def try_cases(cases):
    """Tries cases side by side, shows what differs, and gives how many passed and how many failed."""
    # Whatever is not built yet is built before they begin.
    for case in cases:
        for run in case.runs:
            built_program(run.words)
    failed = 0
    with concurrent.futures.ProcessPoolExecutor(os.cpu_count()) as workers:
        for case, found in zip(cases, workers.map(tried, cases)):
            if found:
                failed += 1
                print(f"failed: {case.name}\n{case.about.data.decode()}", *found, sep="\n", flush=True)
    return len(cases) - failed, failed


def try_tests(words):
    """Tries the tests that are Python, and gives how many passed, how many failed, and why others were skipped."""
    tests = unittest.TestSuite()
    for file in sorted(file for folder in folders.OF_SCRIPTS for file in folder.glob("*.py")):
        if hasattr(script := importlib.import_module(file.stem), "suite"):
            tests.addTests(script.suite(built_program, words))
    if not tests.countTestCases():
        return 0, 0, {}
    result = unittest.TextTestRunner(stream=sys.stdout, verbosity=1).run(tests)
    failed, skipped = len(result.failures) + len(result.errors), {test.id().partition(" ")[2]: reason for test, reason in result.skipped}
    return result.testsRun - failed - len(skipped), failed, skipped


def unpack(name, folder):
    """Makes a folder with the files of a case, and a script with its commands."""
    case = next((case for case in chosen([]) if case.name == name), None)
    if case is None:
        print(f"no case is called {name}")
        return 2
    place = Path(folder)
    place.mkdir()
    sessions.put_files(case, place)
    lines = ["#!/bin/sh", f"# {name}, {case.where(case.place)}. What a line with @ says is yours to make so: tests/README.md.", 'cd "$(dirname "$0")" || exit']
    for number, run in enumerate(case.runs):
        lines += [f"# @ {line}" for _, line in run.settings]
        given = ""
        if run.given.data:
            (place / f"input{number}").write_bytes(run.given.data)
            given = f" < input{number}"
        lines.append(f"{shlex.join([str(folders.ROOT / 'bip_run'), *run.words])}{given}")
    for _, line in case.runs[0].settings:
        settings.make_file(place, line)
    (place / "session").write_text("".join(f"{line}\n" for line in lines))
    (place / "session").chmod(0o755)
    return 0


def main(words):
    if words[:1] == ["--unpack"]:
        return unpack(*words[1:])
    words = [word for word in words if word != UNPROVED]
    try:
        cases = chosen(words)
    except transcripts.Misread as mistake:
        print(f"{mistake}\n0 passed, 1 failed")
        return 1
    reasons = {case.name: reason for case in cases if (reason := sessions.why_skipped(case))}
    passed, failed = try_cases([case for case in cases if case.name not in reasons])
    more, fewer, skipped = try_tests(words)
    for name, reason in {**reasons, **skipped}.items():
        print(f"skipped, neither passed nor failed: {name}: {reason}")
    print(f"{passed + more} passed, {failed + fewer} failed")
    return 0 if passed + more + failed + fewer and not failed + fewer else 1


if __name__ == "__main__":
    sys.exit(main(sys.argv[1:]))
