"""What the tests share: where things are, the program, calls of the tool, random automata, and acceptance by its
definition."""
import contextlib
import io
import os
import pathlib
import shutil
import subprocess
import sys
import tempfile
import time
import unittest

TOP = pathlib.Path(__file__).resolve().parent.parent.parent
DATA, TOOL = TOP / "tests" / "tools" / "data", TOP / "tools" / "rabit-tool"
sys.dont_write_bytecode = True
sys.path.insert(0, str(TOP / "tools"))

import check_cert  # noqa: E402  (the path comes first)
from rabit_tool import automata, files, main  # noqa: E402


def program():
    """The path of the program that the tests use, or None."""
    named = os.environ.get("RABIT_PROGRAM") or str(TOP / "crates" / "rabit_cli" / "out" / "rabit_cli")
    return os.path.abspath(named) if os.access(named, os.X_OK) else None


def needs_program(test):
    return unittest.skipUnless(program(), "the program is not built; RABIT_PROGRAM names it")(test)


def needs(command, package=None):
    """Skips a test where a command is not installed, with the name of its package."""
    return unittest.skipUnless(shutil.which(command), f"{command} is not installed (Debian: {package or command})")


class Output(io.TextIOWrapper):
    """Stands for an output of the process."""

    def __init__(self):
        super().__init__(io.BytesIO(), encoding="utf-8", errors="surrogateescape")

    def text(self):
        self.flush()
        return self.buffer.getvalue().decode("utf-8", "surrogateescape")


def call(*words):
    """The status, the output and the standard error of the tool on these words, in this process."""
    kept, output, errors = (sys.stdout, sys.stderr), Output(), Output()
    sys.stdout, sys.stderr = output, errors
    try:
        try:
            status = main.main([str(word) for word in words])
        except SystemExit as ended:
            status = ended.code
    finally:
        sys.stdout, sys.stderr = kept
    return status, output.text(), errors.text()


def ask(*words, folder=None):
    """The status and the output of the program on these words."""
    done = subprocess.run(
        [program(), *map(str, words)], cwd=folder, stdout=subprocess.PIPE, text=True, timeout=60, check=False
    )
    return done.returncode, done.stdout


def second_check(*words):
    """The status and the output of the second checker on these words, in this process."""
    output = Output()
    with contextlib.redirect_stdout(output):
        status = check_cert.main([str(word) for word in words])
    return status, output.text()


class Case(unittest.TestCase):
    """A test with a folder of its own, `folder`, which goes when it ends."""

    def setUp(self):
        made = tempfile.TemporaryDirectory()
        self.addCleanup(made.cleanup)
        self.folder = pathlib.Path(made.name)

    def write(self, name, text):
        path = self.folder / name
        path.write_bytes(files.encoded(text))
        return path

    def read(self, path):
        return automata.read_ba(pathlib.Path(path).read_bytes())

    def equal(self, first, second):
        """What the program's `equal` prints first."""
        return ask("equal", first, second, self.folder / "1.cert", self.folder / "2.cert")[1].split("\n")[0]


def holds_in_time(condition):
    """Whether the condition comes to hold within sixty seconds: a busy machine takes its time."""
    until = time.monotonic() + 60
    while not condition():
        if time.monotonic() > until:
            return False
        time.sleep(0.05)
    return True


class Slow:
    """A program that a Case has in its folder, and that gives no answer: it tells its process and its folder, and
    sleeps."""

    def __init__(self, case):
        self.case, self.told, self.traces = case, case.folder / "told", []
        self.path = case.write("slow", f"#!/bin/sh\necho $$ $PWD >> {self.told}\nexec sleep 300\n")
        self.path.chmod(0o755)

    def wait_for(self, count):
        """Waits until it has begun so often, and each time its process and its folder are there."""
        self.case.assertTrue(holds_in_time(lambda: self.told.exists() and self.told.read_text().count("\n") == count))
        words = [line.split(" ", 1) for line in self.told.read_text().splitlines()]
        self.traces = [trace for process, folder in words for trace in (f"/proc/{process}", folder)]
        self.case.assertTrue(all(map(os.path.exists, self.traces)), self.traces)

    def check_gone(self):
        """Each of those processes has ended soon, and each of those folders has gone."""
        self.case.assertTrue(holds_in_time(lambda: not any(map(os.path.exists, self.traces))), self.traces)


def random_ba(rnd, states=6, labels="abc", names=None, dense=0):
    """The text of a random automaton; each state has about so many moves more as `dense` says."""
    count = rnd.randrange(1, states + 1)
    names = names or [f"[{state}]" for state in range(count)]
    several = rnd.randrange(3 * count) + dense * count
    moves = [(rnd.choice(labels), rnd.randrange(count), rnd.randrange(count)) for _ in range(several)]
    lines = [names[0]] + [f"{a},{names[p]}->{names[q]}" for a, p, q in moves]
    return "\n".join(lines + [name for name in names[:count] if rnd.random() < 0.4]) + "\n"


def accepts(edges, starts, wanted, prefix, loop):
    """Whether a run on prefix loop loop .. passes each wanted mark without end; an edge is (source, letter, target,
    marks).

    By the definition and nothing else: in the graph of states and places some closed walk through a reached node passes
    all the marks, so some set of nodes that reach one another has edges with each."""
    labels, size = prefix + loop, len(prefix)

    def after(place):
        return place + 1 if place + 1 < len(labels) else size

    steps = {}
    for source, letter, target, marks in edges:
        for place, label in enumerate(labels):
            if label == letter:
                steps.setdefault((source, place), []).append(((target, after(place)), frozenset(marks)))
    reach = {}
    for node in list(steps):
        seen, todo = set(), [node]
        while todo:
            for other, _ in steps.get(todo.pop(), ()):
                if other not in seen:
                    seen.add(other)
                    todo.append(other)
        reach[node] = seen
    begun = {(state, 0) for state in starts}
    met = begun.union(*(reach.get(node, ()) for node in begun))
    for node in met & set(steps):
        if node not in reach[node]:
            continue
        around = [other for other in reach[node] if node in reach.get(other, ())]
        passed = set()
        for other in around:
            for target, marks in steps[other]:
                if target in around:
                    passed |= marks
        if set(wanted) <= passed:
            return True
    return False


def ba_accepts(automaton, prefix, loop):
    """Whether the automata.Automaton accepts the lasso of labels, as texts."""
    edges = [(p, automaton.labels[a], q, {0} if q in automaton.accepting else ()) for p, a, q in automaton.transitions]
    return accepts(edges, [automaton.initial], [0], prefix, loop)
