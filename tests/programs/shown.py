"""The runs that examples/README.md shows, as cases: a block with the command, what `printf` gives it if it does, an empty line, and what is printed. A block with
`--never` alone has a run that never comes to that, whatever it prints."""

import re
import shlex

from folders import ROOT
from transcripts import Case, Run, Text

PAGE = ROOT / "examples" / "README.md"
RUN = re.compile(r"^```\n(?:printf '(.+)' \| )?\./bip_run (.+)\n\n((?:.+\n)*)```$", re.M)
WATCHED = re.compile(r"^```\n\./bip_run (.+ --never .+)\n```$", re.M)


def text_of(page, start, shown):
    """What stands on the page from a place on, with its lines."""
    first = page.count("\n", 0, start) + 1
    return Text(first, [(first + number, line.encode()) for number, line in enumerate(shown.splitlines())])


def case_of(page, found, words, **run):
    place = page.count("\n", 0, found.start()) + 2
    return Case(PAGE, place, "shown", words, runs=[Run(shlex.split(words), place, **run)])


def every_run():
    page = PAGE.read_text()
    runs = []
    for found in RUN.finditer(page):
        given = text_of(page, found.start(), (found[1] or "").replace("\\n", "\n"))
        runs.append(case_of(page, found, found[2], given=given, printed=text_of(page, found.start(3), found[3])))
    return runs + [case_of(page, found, found[1], is_ignored=True) for found in WATCHED.finditer(page)]
