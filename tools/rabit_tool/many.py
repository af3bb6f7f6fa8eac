"""`many LIST ..`: the questions of a list, side by side, by GNU parallel."""
import fcntl
import os
import re
import shlex
import signal
import sys

from .batch import CHECKS, STOPPING, Batch
from .files import READ, USAGE, WRITE, Refusal, read_file
from .nouns import counted
from .program import ready_program
from .results import GIVEN_UP, Results, read_list
from .verdicts import test_words


def command_words(text):
    """The words of --command: the command and its options. Refused with status 3."""
    try:
        words = shlex.split(text)
    except ValueError as error:
        raise Refusal(f"--command: {error}", USAGE) from None
    if not words or words[0] not in CHECKS:
        raise Refusal("--command: include or cross is due, with options, or solve where the program has it", USAGE)
    for before, word in zip(words, words[1:]):
        is_number = before in ("--look", "--limit", "--letters") and word.isdigit()
        if not is_number and not re.fullmatch(r"--(finite|progress|(look|limit|letters)(=[0-9]+)?)", word):
            raise Refusal(f"--command: {word} is no option; the names come from the list", USAGE)
    return words


def locked(folder):
    """An open file that no other run in the folder has at the same time. Refused with status 3 or 7."""
    try:
        os.makedirs(folder, exist_ok=True)
        file = open(os.path.join(folder, "lock"), "a")  # noqa: SIM115  (it stays open as long as the run)
    except OSError as error:
        raise Refusal(f"{folder}: {error.strerror}", WRITE) from None
    try:
        fcntl.flock(file, fcntl.LOCK_EX | fcntl.LOCK_NB)
    except OSError:
        raise Refusal(f"{folder}: another run is at work there", USAGE) from None
    return file


def add_words(parser):
    """Adds the command's words to its parser."""
    parser.add_argument("list", metavar="LIST", help="two names of automata in each line")
    parser.add_argument(
        "--jobs", type=int, metavar="N", help="questions at a time on each machine (as many as its processors)"
    )
    parser.add_argument(
        "--hosts", metavar="FILE", help="machines, one a line, as parallel's --sshloginfile; `:` is this one"
    )
    parser.add_argument("--ssh", metavar="COMMAND", help="what is called in place of ssh")
    parser.add_argument("--out", metavar="DIR", help="where the results go (LIST.results)")
    parser.add_argument(
        "--command", default="include", metavar="WORDS", help="'include --look 6' and the like, or cross"
    )
    parser.add_argument("--second", action="store_true", help="each certificate is checked by check_cert.py too")
    parser.add_argument("--timeout", type=float, metavar="SECONDS", help="how long a question may take")
    parser.add_argument(
        "--together", type=int, default=1, metavar="K", help="quick questions that one job takes in turn (1)"
    )
    parser.add_argument("--resume", action="store_true", help="go on with a run that was cut off")
    parser.add_argument(
        "--program", metavar="RABIT", help="the program; a host has it at the same place, or as rabit on its path"
    )


def run(args):
    """The command; its status is 0 where each question has a verdict whose certificate the checks accept, else 1, and
    130 where it was stopped. Refused with status 3, 4, 6, 7 or 9."""
    words, questions = command_words(args.command), read_list(args.list)
    numbers = [number for number in (args.jobs, args.together, args.timeout) if number is not None]
    if not all(0 < number < 1e6 for number in numbers):
        raise Refusal("--jobs, --together and --timeout take numbers above 0 and below a million", USAGE)
    if args.hosts and not read_file(args.hosts).strip():
        raise Refusal(f"{args.hosts}: no host", READ)
    results = Results(args.out or args.list + ".results")
    task = {"command": words, "second": args.second, "folder": os.getcwd(), "questions": questions}
    for number in STOPPING:
        if signal.getsignal(number) is not signal.SIG_IGN:
            signal.signal(number, signal.default_int_handler)
    try:
        with locked(results.folder):
            test_words(ready_program(args.program, wrapped=words[0] == "solve"), words)
            results.begin(task, args.resume)
            batch = Batch(args, words, questions, results)
            if batch.left:
                batch.run()
    except KeyboardInterrupt:
        left = len(results.left(len(questions)))
        print(f"rabit-tool: stopped; --resume goes on with the {left} that are left", file=sys.stderr)
        return 130
    except OSError as error:
        raise Refusal(f"{results.folder}: {error.strerror}", WRITE) from None
    return told_end(results, len(questions))


def told_end(results, count):
    """Tells what is left or was refused, and gives the status."""
    rows = sorted(results.rows.items())
    told = {
        "a certificate that a check refused": [n for n, row in rows if "refused" in row["check"] + row["second check"]],
        "a certificate that check_cert.py gave up": [n for n, row in rows if row["second check"] == GIVEN_UP],
        "no verdict": [number for number, row in rows if row["status"] not in ("0", "1", "2", "10")],
        "no answer": [number for number in range(1, count + 1) if number not in results.rows],
    }
    for what, numbers in told.items():
        if numbers:
            have, which = ("has", "number") if len(numbers) == 1 else ("have", "numbers")
            shown = ", ".join(map(str, numbers[:20])) + (" and more" if len(numbers) > 20 else "")
            asked = counted(len(numbers), "question")
            print(f"rabit-tool: {asked} {have} {what}: {which} {shown}", file=sys.stderr)
    return 1 if any(told.values()) else 0
