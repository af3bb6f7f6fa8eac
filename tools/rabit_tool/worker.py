"""Carries out questions of `many`, on this machine or on a host; it stands alone, since its text is sent there.

It reads lines, each a question in JSON, and prints one for each, its answer. A question has `number`, `program`,
`words` (the command and its options), `check` (the command that checks, or None), `second` (words of the second
checker, or None), `seconds`, and `first` and `other`, the packed texts of both automata. An answer has `number`,
`host`, and either `error`, a text, or `status`, `printed`, `seconds`, `check` and `second` (each None, or a list of
the status and the first printed line) and `certificate`, packed or None.

Two processes do it. The one that is begun watches; the other, in a session of its own, works, and ends in order when
the first one ends, by whatever signal: so nothing stays that was begun, neither processes nor folders."""
import binascii
import json
import os
import select
import shutil
import signal
import socket
import subprocess
import sys
import tempfile
import time
import zlib


def packed(data):
    """The bytes as a text without ends of lines."""
    return binascii.b2a_base64(zlib.compress(data, 1), newline=False).decode("ascii")


def unpacked(text):
    """The bytes of a text that `packed` gave."""
    return zlib.decompress(binascii.a2b_base64(text))


def printed_by(process, seconds, watcher):
    """What the process prints, to its end. Raises subprocess.TimeoutExpired after so many seconds, and SystemExit when
    the watcher has ended."""
    until, parts = None if seconds is None else time.monotonic() + seconds, [b""]
    while True:
        rest = None if until is None else max(0, until - time.monotonic())
        ready = select.select([process.stdout, watcher], [], [], rest)[0]
        if watcher in ready:
            raise SystemExit(143)
        if not ready:
            raise subprocess.TimeoutExpired(process.args, seconds)
        parts.append(os.read(process.stdout.fileno(), 65536))
        if not parts[-1]:
            return b"".join(parts)


def asked(words, folder, seconds, watcher):
    """The status and the first line of what the words print. Whatever ends this early ends what was begun too.

    Raises as `printed_by` does."""
    process = subprocess.Popen(
        words,
        cwd=folder,
        stdin=subprocess.DEVNULL,
        stdout=subprocess.PIPE,
        stderr=subprocess.DEVNULL,
        start_new_session=True,
        env={**os.environ, "RABIT_NO_BUILD": "1"},
    )
    with process:
        try:
            printed = printed_by(process, seconds, watcher)
        except BaseException:
            os.killpg(process.pid, signal.SIGKILL)
            raise
    return [process.returncode, printed.decode("utf-8", "surrogateescape").split("\n", 1)[0]]


def answer(question, checker, watcher):
    """The answer to the question; `checker` is the text of the second checker, or None."""
    program = question["program"] if os.access(question["program"], os.X_OK) else shutil.which("rabit")
    if program is None:
        return {"error": "no program: " + question["program"]}
    seconds = question["seconds"]
    with tempfile.TemporaryDirectory(prefix="rabit-many-") as folder:
        for name in ("first", "other"):
            with open(os.path.join(folder, name), "wb") as file:
                file.write(unpacked(question[name]))
        names, certificate = ["first", "other", "certificate"], os.path.join(folder, "certificate")
        begun = time.monotonic()
        try:
            status, printed = asked([program, *question["words"], *names], folder, seconds, watcher)
        except subprocess.TimeoutExpired:
            return {"error": "more than %g seconds" % seconds, "late": True}
        found = {"status": status, "printed": printed, "seconds": round(time.monotonic() - begun, 3)}
        found.update(check=None, second=None, certificate=None)
        if status in (0, 1, 2) and os.path.exists(certificate):
            found["check"] = asked([program, question["check"], *names], folder, None, watcher)
            if checker is not None:
                path = os.path.join(folder, "check_cert.py")
                with open(path, "w", encoding="utf-8") as file:
                    file.write(checker)
                found["second"] = asked([sys.executable, path, *question["second"], *names], folder, None, watcher)
            with open(certificate, "rb") as file:
                found["certificate"] = packed(file.read())
        return found


def work(checker, watcher):
    """Answers the questions on standard input."""
    for line in sys.stdin:
        question = json.loads(line)
        try:
            found = answer(question, checker, watcher)
        except (OSError, MemoryError) as error:
            found = {"error": str(error)}
        print(json.dumps({"number": question["number"], "host": os.uname().nodename, **found}), flush=True)


def watch(child, worker):
    """Waits until the child has ended, and gives its status. It is told to end by a signal that this process gets, and
    when nobody reads its answers any more."""
    for number in (signal.SIGHUP, signal.SIGINT, signal.SIGTERM):
        signal.signal(number, lambda *_: worker.shutdown(socket.SHUT_WR))
    events = select.poll()
    events.register(worker, select.POLLIN)
    events.register(sys.stdout, 0)  # no event but that its other end has gone
    while worker.fileno() not in dict(events.poll()):
        worker.shutdown(socket.SHUT_WR)
        events.unregister(sys.stdout)
    status = os.waitpid(child, 0)[1]
    return status >> 8 or status & 127


def main(checker):
    """Answers the questions on standard input; `checker` is the text of the second checker, or None."""
    worker, watcher = socket.socketpair()
    child = os.fork()
    if child:
        watcher.close()
        sys.exit(watch(child, worker))
    worker.close()
    os.setsid()
    work(checker, watcher)
