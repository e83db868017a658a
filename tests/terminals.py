"""Runs a command with a terminal for some of its streams, or with none. Each way gives the status, the standard output and the standard error."""

import contextlib
import os
import pty
import select
import subprocess
import tty

import settings


@contextlib.contextmanager
def terminal():
    """A terminal: what the test holds of it, and what the program gets."""
    ours, theirs = pty.openpty()
    # A terminal turns line feeds into something else, and shows what is typed, unless it is told not to.
    tty.setraw(theirs)
    try:
        yield ours, theirs
    finally:
        os.close(theirs)
        os.close(ours)


def shown_on(ours):
    """What stands on a terminal that nobody writes to any more. The system may hand it on piece by piece, so the end is where nothing comes for a while."""
    shown = b""
    while select.select([ours], [], [], 0.5)[0]:
        shown += os.read(ours, 1 << 16)
    return shown


def run(command, given, how):
    """With pipes alone."""
    ran = subprocess.run(command, input=given, stdout=subprocess.PIPE, stderr=subprocess.PIPE, **how)
    return ran.returncode, ran.stdout, ran.stderr


def run_told(command, given, how):
    """With a terminal as its standard error."""
    with terminal() as (ours, theirs):
        ran = subprocess.run(command, input=given, stdout=subprocess.PIPE, stderr=theirs, **how)
        return ran.returncode, ran.stdout, shown_on(ours)


def run_typed(command, given, how):
    """With a terminal on which the standard input is typed, and which shows the standard output."""
    with terminal() as (ours, theirs):
        os.write(ours, given)
        ran = subprocess.run(command, stdin=theirs, stdout=theirs, stderr=subprocess.PIPE, **how)
        return ran.returncode, shown_on(ours), ran.stderr


def run_typed_unseen(command, given, how):
    """The same, of one whose standard output goes elsewhere."""
    with terminal() as (ours, theirs):
        os.write(ours, given)
        ran = subprocess.run(command, stdin=theirs, stdout=subprocess.PIPE, stderr=subprocess.PIPE, **how)
        return ran.returncode, ran.stdout, ran.stderr


def way_of(lines):
    """The way to run a command under these settings."""
    ways = {settings.TERMINAL: run_told, settings.TYPED: run_typed, settings.TYPED_UNSEEN: run_typed_unseen}
    return next((ways[line] for line in lines if line in ways), run)
