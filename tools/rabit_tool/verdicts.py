"""What a command prints first where it has a verdict, and how the program is asked whether it takes the words."""
import os
import re
import subprocess
import tempfile

from .files import USAGE, Refusal
from .program import ask

SECONDS = 10
SAID = {
    "include": {0: "included{}", 1: "not included{}", 2: r"limit \d+"},
    "cross": {0: "included by simulation", 10: "no cross relation"},
    "solve": dict.fromkeys((0, 1, 2), ".+"),
}


def is_verdict(words, status, printed):
    """Whether the command of these words prints this line first where it ends with this status, as its verdict."""
    said = SAID[words[0]].get(status)
    finite = ", finite" if "--finite" in words else ""
    return said is not None and re.fullmatch(said.replace("{}", finite), printed) is not None


def has_certificate(status):
    """Whether a verdict of this status comes with a certificate."""
    return status in (0, 1, 2)


def test_words(program, words):
    """Refused with status 3 where the program has no such command, or does not take its options; nothing is asked."""
    if words == ["include"]:
        return
    with tempfile.TemporaryDirectory(prefix="rabit-many-") as folder:
        try:
            status, _ = ask(program, [*words, *[os.path.join(folder, name) for name in "abc"]], SECONDS)
        except subprocess.TimeoutExpired:
            return
    if status == USAGE:
        raise Refusal(f"--command: {program} does not take the words {' '.join(words)}", USAGE)
