"""Reads the transcripts of tests/cases/, one file a theme, to their cases. tests/README.md has the format.

A transcript is printable ASCII and tabs. A line that begins with a sign says what kind it is; every other line goes on with the sentence, the standard output or the
file that stands before it. Blank lines at the end of these are none of them.
"""

import re
import shlex
from dataclasses import dataclass, field
from pathlib import Path

from folders import ROOT, TESTS

CASES = TESTS / "cases"
PLAIN = re.compile(r"[\t -~]*")
SIGN = re.compile(r"(==|@|\$=?|<=?|~|=|![~=]?|\?|--|\+\+)(?: (.*))?")
# A file: what it is, if its lines do not say it all.
FILE = re.compile(r"(\S+)(?: = (\S+)( and)?| (unchanged|absent))?")
IGNORED = " > ignored"
# After the last line of what has no line feed there.
NO_LINE_FEED = "\\ no line feed"
BYTE = re.compile(rb"\\(?:x([0-9a-f]{2})|(\\))")
# A word of a command in which bytes are written by their numbers, as shells write it.
WORD_WITH_BYTES = re.compile(r"\$('(?:[^'\\]|\\.)*')")


def lines_in(data):
    """The lines of some bytes, each with its line feed."""
    return re.findall(rb"[^\n]*\n|[^\n]+", data)


class Misread(Exception):
    """A line of a transcript that says nothing: the file, the line and what is wrong."""


def content_of(line):
    """The bytes that a line shows. After a `\\` each \\xHH is a byte, and \\\\ is a backslash; that leaves the line to begin with anything."""
    if not line.startswith("\\"):
        return line.encode("ascii")
    return BYTE.sub(lambda it: bytes.fromhex(it[1].decode()) if it[1] else it[2], line[1:].encode("ascii"))


def words_of(command):
    """The words of a command, which is quoted as the shell wants it."""
    held = []

    def hold(found):
        held.append(content_of("\\" + found[1][1:-1]).decode())
        return f"\0{len(held) - 1}\0"

    words = shlex.split(WORD_WITH_BYTES.sub(hold, command))
    return [re.sub("\0(\\d+)\0", lambda it: held[int(it[1])], word) for word in words]


@dataclass
class Text:
    """What a transcript shows of a stream or a file: its lines with their places, after the bytes of a file beside, if it names one."""

    place: int = 0
    lines: list = field(default_factory=list)
    before: bytes = b""
    is_ended: bool = True

    def add(self, place, line):
        self.lines.append((place, content_of(line)))

    def begin_with(self, path):
        self.before = (ROOT / path).read_bytes()

    def place_of(self, number):
        """On which line of the transcript the line with this number is; that of the whole for one that stands beside."""
        number -= len(lines_in(self.before))
        return self.lines[number][0] if 0 <= number < len(self.lines) else self.place

    @property
    def data(self):
        data = self.before + b"".join(line + b"\n" for _, line in self.lines)
        return data if self.is_ended else data[:-1]


@dataclass
class Run:
    """A command of a session, what holds while it runs, and what it must answer."""

    words: list
    place: int
    is_ignored: bool = False
    settings: list = field(default_factory=list)
    given: Text = field(default_factory=Text)
    printed: Text = field(default_factory=Text)
    told: Text = field(default_factory=Text)
    # Parts of lines, in place of all that is printed or told.
    parts_printed: list = field(default_factory=list)
    parts_told: list = field(default_factory=list)
    status: int = 0


@dataclass
class Case:
    """A session: the runs in their order, the files that are there before, and those after them, None for one that must not be there."""

    file: Path
    place: int
    theme: str
    title: str
    about: Text = field(default_factory=Text)
    runs: list = field(default_factory=list)
    files: dict = field(default_factory=dict)
    left: dict = field(default_factory=dict)

    @property
    def name(self):
        return f"{self.theme}/{self.title}"

    @property
    def settings(self):
        return [setting for run in self.runs for setting in run.settings]

    def where(self, place):
        """A line of the transcript, as tools for programmers write it."""
        return f"{self.file.relative_to(ROOT)}:{place}"


class Reader:
    """Reads a transcript line by line."""

    def __init__(self, file):
        self.file, self.cases, self.place = file, [], 0
        # The text that a line without a sign goes on with, the blank lines that it may hold if another one comes, and the one that was last added to.
        self.open = self.latest = None
        self.blanks = []
        self.settings = []

    def read(self):
        for self.place, line in enumerate(self.file.read_bytes().decode("latin-1").split("\n"), 1):
            try:
                self.read_line(line)
            except (ValueError, LookupError, AttributeError, OSError) as error:
                raise Misread(f"{self.file.relative_to(ROOT)}:{self.place}: {line}: {error}") from error
        self.end_case()
        return self.cases

    def read_line(self, line):
        if not PLAIN.fullmatch(line):
            raise ValueError("a byte is neither printable ASCII nor a tab")
        if sign := SIGN.fullmatch(line):
            self.read_sign(sign[1], sign[2] or "")
        elif self.cases:
            # What is before the first case is of the theme.
            self.go_on(line)

    @property
    def case(self):
        return self.cases[-1]

    @property
    def run(self):
        return self.case.runs[-1]

    def end_case(self):
        if self.cases and (mistake := self.mistake()):
            raise Misread(f"{self.case.where(self.case.place)}: {self.case.name}: {mistake}")

    def mistake(self):
        """What is wrong with the case as a whole."""
        if all(run.is_ignored for run in self.case.runs):
            return "no run shows what it prints"
        if self.settings:
            return "a setting is of no run"
        if any(run.printed.data and (run.is_ignored or run.parts_printed) or run.told.data and run.parts_told for run in self.case.runs):
            return "a run has its output both whole and not"
        return None

    def go_on(self, line):
        """A line without a sign."""
        if line == NO_LINE_FEED:
            self.latest.is_ended = False
        elif line:
            for place in self.blanks:
                self.open.add(place, "")
            self.put(self.open, line)
        else:
            self.blanks.append(self.place)

    def put(self, text, line):
        text.add(self.place, line)
        self.latest = text
        self.blanks = []

    def go_on_with(self, text):
        self.open = self.latest = text
        self.blanks = []

    def read_sign(self, sign, rest):
        self.blanks = []
        if sign == "==":
            self.begin_case(rest)
        elif sign == "@":
            self.settings.append((self.place, rest))
        elif sign in ("$", "$="):
            self.begin_run(sign, rest)
        elif sign in ("--", "++"):
            self.begin_file(sign, *FILE.fullmatch(rest).groups())
        elif sign == "?":
            self.run.status = int(rest)
        elif sign in ("~", "!~"):
            (self.run.parts_printed if sign == "~" else self.run.parts_told).append((self.place, content_of(rest)))
        else:
            text = {"<": self.run.given, "=": self.run.printed, "!": self.run.told}[sign[0]]
            text.begin_with(rest) if sign.endswith("=") else self.put(text, rest)

    def begin_case(self, title):
        self.end_case()
        if not re.fullmatch(r"\S+", title) or any(case.title == title for case in self.cases):
            raise ValueError("no name, or one that stands twice")
        self.cases.append(Case(self.file, self.place, self.file.stem, title))
        self.go_on_with(self.case.about)

    def begin_run(self, sign, command):
        is_ignored = command.endswith(IGNORED)
        command = command.removesuffix(IGNORED)
        words = (ROOT / command).read_text().splitlines() if sign == "$=" else words_of(command)
        self.case.runs.append(Run(words, self.place, is_ignored, self.settings))
        self.settings = []
        self.go_on_with(self.run.printed)

    def begin_file(self, sign, name, beside, is_first_part, state):
        text = self.case.files[name] if state == "unchanged" else Text(place=self.place)
        if beside:
            text.begin_with(beside)
        if sign == "--":
            self.case.files[name] = text
        else:
            self.case.left[name] = None if state == "absent" else text
        self.go_on_with(None if state or beside and not is_first_part else text)


def every_case():
    """The cases of all themes, in the order of their files."""
    return [case for file in sorted(CASES.glob("*.t")) for case in Reader(file).read()]
