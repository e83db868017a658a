"""What else is so while a program runs, by the lines of a transcript that begin with `@`. tests/README.md has the list."""

import fcntl
import os
import re

from folders import ROOT

# Where a setting leads a standard stream.
STREAMS = {
    "standard input closed": "<&-",
    "standard output closed": ">&-",
    "standard output full": ">/dev/full",
    # The end to read is opened first, since the other is not opened without, and then closed.
    "standard output of no reader": "3<>pipe 1>pipe 3>&-",
    "standard error closed": "2>&-",
    "standard error full": "2>/dev/full",
}
# The settings that give the program a terminal.
TERMINAL = "standard error on a terminal"
TYPED = "standard input and output on a terminal"
TYPED_UNSEEN = "standard input on a terminal"
MEMORY = re.compile(r"memory of (\d+) KiB")
IN_USE = re.compile(r"(\S+) is in use")
RIGHTS = re.compile(r"(\S+) has the rights ([0-7]{3})")
# What a setting may grow a file by.
BYTES = {"line feeds": b"\n", "spaces": b" ", "zeros": b"\0"}


def grow(file, end, count, what):
    """Puts more bytes before what the file holds, or after it."""
    own, more = file.read_bytes() if file.exists() else b"", int(count) * BYTES[what]
    file.write_bytes(more + own if end == "begins" else own + more)


def write_without(file, example, line):
    """Writes an example without its one line that reads so."""
    lines = (ROOT / example).read_text().splitlines(keepends=True)
    kept = [each for each in lines if each.rstrip() != line]
    if len(kept) != len(lines) - 1:
        raise ValueError(f"not one line reads: {line}")
    file.write_text("".join(kept))


def patch(file, new, place):
    """Writes new bytes, given to the base 16, over those of a file from a place on."""
    with open(file, "r+b") as opened:
        opened.seek(int(place))
        opened.write(bytes.fromhex(new))


# What each setting does to the file that it begins with.
MADE = {
    re.compile(r"(\S+) (begins|ends) with (\d+) (line feeds|spaces|zeros)"): grow,
    re.compile(r"(\S+) is (examples/\S+) without (.+)"): write_without,
    re.compile(r"(\S+) has ([0-9a-f]+) at (\d+)"): patch,
    re.compile(r"(\S+) is (\d+) bytes long"): lambda file, size: os.truncate(file, int(size)),
    re.compile(r"(\S+) is a pipe"): os.mkfifo,
    re.compile(r"(\S+) is a folder"): os.mkdir,
    re.compile(r"(\S+) leads to (\S+)"): lambda file, path: file.symlink_to(path),
}
OTHERS = [MEMORY, IN_USE, RIGHTS, *(re.compile(re.escape(line)) for line in (*STREAMS, TERMINAL, TYPED, TYPED_UNSEEN))]


def make_file(place, line):
    """Makes or changes the file in the folder that the setting is about, if it is about one."""
    for form, make in MADE.items():
        if found := form.fullmatch(line):
            return make(place / found[1], *found.groups()[1:])
    if not any(form.fullmatch(line) for form in OTHERS):
        raise ValueError(f"no such setting: {line}")


def limited(shell, lines):
    """The command of the shell, in which the streams and the memory are as the settings say."""
    for line in lines:
        if given := MEMORY.fullmatch(line):
            shell = f"ulimit -d {given[1]} && {shell}"
        elif line in STREAMS:
            shell = f"{shell} {STREAMS[line]}"
    return shell


def is_of_rights(line):
    """The setting is about the rights of a file."""
    return RIGHTS.fullmatch(line) is not None


def hold_file(held, place, line):
    """Opens and locks a file, or gives it other rights, as long as the program runs, if the setting says so."""
    if used := IN_USE.fullmatch(line):
        fcntl.flock(held.enter_context(open(place / used[1], "rb")), fcntl.LOCK_EX)
    elif rights := RIGHTS.fullmatch(line):
        file = place / rights[1]
        held.callback(file.chmod, file.stat().st_mode)
        file.chmod(int(rights[2], 8))
