"""Runs the sessions of transcripts: each in a folder of its own, in which `examples` leads to the plants of examples/, and on a small stack.

What is printed and told is held to the transcript, byte by byte, and so are the status of each run and the files that it leaves. A difference is shown as the lines of the
transcript that are others.
"""

import contextlib
import difflib
import os
import subprocess
import tempfile
from pathlib import Path

import limits
import settings
import terminals
from built import IS_UNPROVED, built_program
from folders import ROOT
from transcripts import lines_in

SECONDS = 60
# The stack of each run, in KiB. No plant and no script makes the program nest deeper than others do. A build without a proof puts functions into their
# callers that the proved one keeps apart, and takes more.
STACK = 1024 if IS_UNPROVED else 512
# Lines that are alike are shown up to so many from one that is not.
AROUND = 2


def why_skipped(case):
    """Why the system does not let the case be tested; None if it does."""
    return limits.why_rights_bind_nothing() if any(settings.is_of_rights(line) for _, line in case.settings) else None


def put_files(case, place):
    """Fills the folder that a case runs in."""
    os.symlink(ROOT / "examples", place / "examples")
    for name, text in case.files.items():
        (place / name).write_bytes(text.data)


def run_in(place, run):
    """Makes a run of a session, and gives its status, its standard output and its standard error."""
    lines = [line for _, line in run.settings]
    for line in lines:
        settings.make_file(place, line)
    shell = settings.limited(f'ulimit -s {STACK} && exec "$0" "$@"', lines)
    command = ["sh", "-c", shell, str(built_program(run.words)), *run.words]
    how = {"cwd": place, "timeout": SECONDS, "preexec_fn": limits.obey_rights if any(map(settings.is_of_rights, lines)) else None}
    with contextlib.ExitStack() as held:
        for line in lines:
            settings.hold_file(held, place, line)
        return terminals.way_of(lines)(command, run.given.data, how)


def bytes_in(file):
    """What a file holds; None where it is not there."""
    return file.read_bytes() if file.exists() else None


def differences(case):
    """What is other than the transcript says, each a text of some lines; none where the case passes."""
    found = []
    with tempfile.TemporaryDirectory() as folder:
        place = Path(folder)
        put_files(case, place)
        for run in case.runs:
            found += of_run(case, run, *run_in(place, run))
        for name, text in case.left.items():
            found += of_file(case, name, text, bytes_in(place / name))
    return found


def of_run(case, run, status, printed, told):
    """How a run differs."""
    found = of_stream(case, run, "!", run.parts_told, run.told, told)
    if not run.is_ignored:
        found += of_stream(case, run, "", run.parts_printed, run.printed, printed)
    if status != run.status:
        found.append(f"{case.where(run.place)}: status\n- ? {run.status}\n+ ? {status}\n")
    return found


def of_stream(case, run, sign, parts, text, data):
    """How a stream differs."""
    what = "standard error" if sign else "standard output"
    if parts:
        return [f"{case.where(place)}: no line of the {what} has this in it\n- {sign}~ {part.decode()}\n{shown('+', sign, data)}" for place, part in parts if part not in data]
    return of_text(case, text, what, sign, run.place, data)


def of_file(case, name, text, data):
    """How a file that is left differs."""
    if text is None or data is None:
        is_alike = text is None and data is None
        return [] if is_alike else [f"{case.where(case.place)}: the file {name} is {'not there' if data is None else 'there'}\n"]
    return of_text(case, text, f"the file {name}", "", text.place, data)


def shown(mark, sign, data):
    """The lines of some bytes, each after the marks."""
    before = f"{mark} {sign} " if sign else f"{mark} "
    lines = [line.decode(errors="backslashreplace") for line in lines_in(data)]
    return "".join(f"{before}{line}" if line.endswith("\n") else f"{before}{line}\n\\ no line feed\n" for line in lines)


def of_text(case, text, what, sign, place, data):
    """How a text differs: the lines that do, and some around, by their places in the transcript."""
    if data == text.data:
        return []
    ours, theirs = lines_in(text.data), lines_in(data)
    found = []
    for group in difflib.SequenceMatcher(None, ours, theirs, autojunk=False).get_grouped_opcodes(AROUND):
        where = text.place_of(next(first for kind, first, *_ in group if kind != "equal")) or place
        lines = [f"{case.where(where)}: {what}\n"]
        for kind, first, last, other_first, other_last in group:
            if kind == "equal":
                lines.append(shown(" ", sign, b"".join(ours[first:last])))
            else:
                lines += [shown("-", sign, b"".join(ours[first:last])), shown("+", sign, b"".join(theirs[other_first:other_last]))]
        found.append("".join(lines))
    return found
