"""The programs under test: as the gate has proved and built them; or, with --unproved among the words, as they are built without a proof."""

import functools
import re
import subprocess
import sys
from pathlib import Path

from folders import ROOT

UNPROVED = "--unproved"
IS_UNPROVED = UNPROVED in sys.argv
# The words with which the launcher runs bip_image, and not bip_run.
IMAGE_TASKS = re.search(r"^ +(.+)\) chosen=bip_image ;;$", (ROOT / "bip_run").read_text(), re.M)[1].split(" | ")


def built_program(words):
    """The program for the words."""
    return program_of("bip_image" if words[:1] and words[0] in IMAGE_TASKS else "bip_run")


@functools.cache
def program_of(name):
    """The program of this name. It is built here where it is not there yet."""
    kind, build = ("unproved", ROOT / "tools" / "unproved") if IS_UNPROVED else ("proved", ROOT / "prove")
    ask = ["bash", "-c", 'source "$0" && kept "$1" "$2"', ROOT / "tools" / "programs.sh", kind, name]
    if subprocess.run(ask, stdout=subprocess.DEVNULL).returncode:
        subprocess.run([build, name], check=True)
    return Path(subprocess.run(ask, stdout=subprocess.PIPE, text=True, check=True).stdout.strip())
