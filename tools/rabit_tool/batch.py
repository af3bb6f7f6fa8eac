"""The questions of `many`, given to GNU parallel, and their answers, put into the folder."""
import base64
import json
import os
import pathlib
import shlex
import shutil
import signal
import subprocess
import sys
import threading
import time
import zlib

from . import worker
from .files import MISSING, Refusal, read_file, replace_file
from .program import ready_program
from .results import GIVEN_UP, sizes_of
from .verdicts import SAID, has_certificate, is_verdict

# by command: the one that checks what it wrote, and the option of the second checker
CHECKS = {"include": ("check", []), "cross": ("cross-check", ["--cross"]), "solve": ("verify", ["--proof"])}
NOT_CHECKED = 15  # the status of the second checker where it gives up
STOPPING = (signal.SIGHUP, signal.SIGINT, signal.SIGTERM)
HERE = pathlib.Path(__file__).resolve().parent


def find_parallel():
    """The path of GNU parallel. Refused with status 9 where it is not there."""
    path = shutil.which("parallel")
    words = [path, "--version"]
    if not path or b"GNU parallel" not in subprocess.run(words, stdout=subprocess.PIPE, check=False).stdout:
        raise Refusal("GNU parallel is not there (Debian: apt-get install parallel)", MISSING)
    return path


def find_checker():
    """The text of the second checker. Refused with status 9 where it is not there."""
    for folder in (HERE.parent, HERE.parent.parent / "bin"):
        if (folder / "check_cert.py").is_file():
            return (folder / "check_cert.py").read_text(encoding="utf-8")
    raise Refusal("check_cert.py is not beside the tool", MISSING)


def worker_command(checker, python):
    """A command of the shell that carries out questions: the worker's text, and that of the second checker, are in
    it."""
    text = pathlib.Path(worker.__file__).read_text(encoding="utf-8") + f"\n\nmain({checker!r})\n"
    code = base64.b64encode(zlib.compress(text.encode(), 9)).decode("ascii")
    unpacked = f'__import__("zlib").decompress(__import__("base64").b64decode("{code}"))'
    return f"{shlex.quote(python)} -I -S -c 'exec({unpacked})'"


class Batch:
    """A run of `many`: the questions that are left, given to parallel, and the answers, put into the folder."""

    def __init__(self, args, words, questions, results):
        self.args, self.words, self.questions, self.results = args, words, questions, results
        self.left, self.counts, self.begun = results.left(len(questions)), {}, time.monotonic()
        self.answered, self.told, self.process, self.texts, self.lock = set(), 0.0, None, {}, threading.Lock()
        self.program = ready_program(args.program, wrapped=words[0] == "solve")

    def parallel_words(self):
        """The words that start parallel, a list. Refused with status 9."""
        words = [find_parallel(), "--will-cite", "--plain", "--pipe", "--line-buffer"]
        words += ["-N", str(self.args.together), "--recend", "\\n"]
        if self.args.jobs:
            words += ["--jobs", str(self.args.jobs)]
        if self.args.hosts:
            # what fails on one host is tried on another
            words += ["--retries", "3", "--sshloginfile", os.path.abspath(self.args.hosts)]
        if self.args.ssh:
            words += ["--ssh", self.args.ssh]
        python = "python3" if self.args.hosts else sys.executable
        return [*words, worker_command(find_checker() if self.args.second else None, python)]

    def packed(self, name):
        """The packed text of an automaton's file; those of the last few names are kept."""
        if name not in self.texts:
            if len(self.texts) > 64:
                self.texts.clear()
            self.texts[name] = worker.packed(read_file(os.path.join(os.getcwd(), name)))
        return self.texts[name]

    def feed(self):
        """Writes the questions to parallel, in a thread of its own."""
        check, second = CHECKS[self.words[0]]
        fixed = {
            "program": self.program, "words": self.words, "check": check, "second": second, "seconds": self.args.timeout
        }
        try:
            with self.process.stdin as pipe:
                for number in self.left:
                    first, other = self.questions[number - 1]
                    try:
                        texts = {"first": self.packed(first), "other": self.packed(other)}
                    except Refusal as refusal:
                        self.take({"number": number, "host": "-", "error": refusal.text})
                        continue
                    pipe.write(json.dumps({**fixed, "number": number, **texts}).encode("ascii") + b"\n")
        except OSError:
            pass  # parallel has ended; what has no answer is told in the end

    def take(self, found):
        """Puts one answer into the folder: the certificate first, and then the row. A second answer is passed over."""
        with self.lock:
            if found["number"] in self.answered:
                return
            row = self.row(found)
            self.results.add(row)
            kind = "error" if row["verdict"].startswith("error: ") else row["verdict"]
            self.counts[kind] = self.counts.get(kind, 0) + 1
            self.answered.add(found["number"])
            self.tell()

    def row(self, found):
        """The row of an answer, a dictionary by column, once its certificate is written. Raises OSError."""
        number = found["number"]
        first, other = self.questions[number - 1]
        row = {"number": number, "first": first, "second": other, "host": found.get("host", "-")}
        if "status" not in found:
            row["verdict"] = ("" if found.get("late") else "error: ") + found["error"]
            return row
        status, printed = found["status"], found["printed"]
        if status in SAID[self.words[0]] and not is_verdict(self.words, status, printed):
            # (a program that is none of ours may end with these statuses too)
            row["verdict"] = f"error: status {status} without a verdict" + (f": {printed}" if printed else "")
            return row
        row.update(status=status, seconds=found["seconds"], verdict=printed or f"status {status}")
        if found["certificate"] is None and has_certificate(status):
            row["check"] = "refused: no certificate"
        if found["certificate"] is not None:
            data = worker.unpacked(found["certificate"])
            replace_file(self.results.certificate(number), data)
            row.update(sizes_of(data))
            for column, key in (("check", "check"), ("second check", "second")):
                if found[key] is not None:
                    row[column] = said_by_check(found[key], [status, printed])
        return row

    def run(self):
        """Gives all questions to parallel and takes the answers. However it ends, parallel and its jobs are ended
        too."""
        self.process = subprocess.Popen(
            self.parallel_words(),
            stdin=subprocess.PIPE,
            stdout=subprocess.PIPE,
            stderr=subprocess.PIPE,
            start_new_session=True,
            env=plain_environment(),
        )
        feeder, numbers = threading.Thread(target=self.feed, daemon=True), set(self.left)
        listener = threading.Thread(target=tell_once, args=[self.process.stderr], daemon=True)
        feeder.start()
        listener.start()
        try:
            for line in self.process.stdout:
                found = answer_of(line)
                if found and found["number"] in numbers:
                    self.take(found)
            self.process.wait()
            feeder.join()
            listener.join(1)
        finally:
            stop(self.process)
        self.tell(last=True)

    def tell(self, last=False):
        """The progress line on standard error: at a terminal each half second over the one before, else each ten
        seconds."""
        now, is_terminal = time.monotonic(), sys.stderr.isatty()
        if not last and now - self.told < (0.5 if is_terminal else 10):
            return
        self.told, seconds = now, now - self.begun
        answered = len(self.answered)
        rate, rest = answered / seconds if seconds else 0, len(self.left) - answered
        kinds = ", ".join(
            f"{count} {verdict}" for verdict, count in sorted(self.counts.items(), key=lambda kind: -kind[1])[:5]
        )
        ahead = f"; {rest / rate:.0f} s left" if rate and rest else ""
        line = f"{answered} of {len(self.left)} in {seconds:.0f} s ({rate:.1f} a second{ahead}): {kinds or 'no answer'}"
        print(
            f"\r\033[K{line}" if is_terminal else line,
            file=sys.stderr,
            end="\n" if last or not is_terminal else "",
            flush=True,
        )


def said_by_check(said, wanted):
    """What the table says of a check: `said` are its status and its first line, `wanted` those of the verdict."""
    if said == wanted:
        return "accepted"
    if said[0] == NOT_CHECKED and said[1].startswith(GIVEN_UP):
        return GIVEN_UP
    return f"refused: {said[1] or said[0]}"


def answer_of(line):
    """The answer in a line of parallel's output, or None: a dying host cuts lines off, and a login may greet."""
    try:
        found = json.loads(line)
    except ValueError:
        return None
    return found if isinstance(found, dict) and {"number", "host"} <= set(found) else None


def tell_once(errors):
    """Passes on what parallel and the logins say, each line once, however often a host is tried."""
    told = set()
    for line in errors:
        text = line.decode("utf-8", "replace").strip()
        if text and text not in told:
            told.add(text)
            print(f"rabit-tool: {text}", file=sys.stderr, flush=True)


def plain_environment():
    """The environment with a shell that each host has."""
    return {**os.environ, "PARALLEL_SHELL": "/bin/sh"}


def stop(process):
    """Ends parallel, unless it has ended, and with it its jobs, which end in order. It is told so each second, since
    while it begins it passes over that; what this process is told meanwhile it passes over."""
    if process.poll() is not None:
        return
    for number in STOPPING:
        signal.signal(number, signal.SIG_IGN)
    for _ in range(60):
        process.send_signal(signal.SIGTERM)
        try:
            process.wait(1)
            return
        except subprocess.TimeoutExpired:
            pass
    process.kill()
    process.wait()
