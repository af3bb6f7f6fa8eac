"""What `many` leaves in its folder: `questions.json`, `table.tsv` and `certificates/NUMBER.cert`; writing and reading
it."""
import json
import os
import re

from .files import READ, TEXT, USAGE, Refusal, decoded, encoded, read_file, replace_file

COLUMNS = (
    "number", "first", "second", "verdict", "status", "seconds", "check", "second check",
    "first states", "second states", "labels", "elements", "bytes", "host",
)  # fmt: skip
# what the table says of a check where the second checker gives up
GIVEN_UP = "not checked"
TABLE, QUESTIONS, CERTIFICATES = "table.tsv", "questions.json", "certificates"


def read_list(name):
    """The questions of a list: pairs of names, two words in each line, or two texts with a tab between them.

    Blank lines and lines that begin with # are passed over. Refused with status 4 by line, or 6."""
    questions = []
    for at, line in enumerate(decoded(read_file(name)).split("\n"), 1):
        line = line.rstrip("\r")
        if not line.strip() or line.startswith("#"):
            continue
        words = line.split("\t") if "\t" in line else line.split()
        if len(words) != 2 or not all(words) or "\0" in line:
            raise Refusal(f"{name} line {at}: two names of automata are due, with a blank or a tab between them", TEXT)
        questions.append(words)
    if not questions:
        raise Refusal(f"{name}: no question", TEXT)
    return questions


class Results:
    """The folder of a run. `rows` are the rows of its table as dictionaries by column, of each question the last."""

    def __init__(self, folder):
        self.folder, self.rows = folder, {}

    def path(self, *names):
        """The path of what has these names below the folder."""
        return os.path.join(self.folder, *names)

    def certificate(self, number):
        """The path of a question's certificate."""
        return self.path(CERTIFICATES, f"{number}.cert")

    def begin(self, task, resume):
        """Makes the folder for the task, or goes on in one of the same task. Refused with status 3 where it is of
        another, or is there and is not to be gone on with."""
        if os.path.exists(self.path(QUESTIONS)):
            if not resume:
                raise Refusal(
                    f"{self.folder} has results: --resume goes on with them, --out names another folder", USAGE
                )
            was = self.task()
            if was["second"] != task["second"]:
                begun = "with --second" if was["second"] else "without --second"
                raise Refusal(f"{self.folder} was begun {begun}; --resume goes on in the same way", USAGE)
            if was != task:
                raise Refusal(f"{self.folder} is of another list, another command, or begun in another folder", USAGE)
            self.mend()
        else:
            os.makedirs(self.path(CERTIFICATES), exist_ok=True)
            replace_file(self.path(QUESTIONS), encoded(json.dumps(task, indent=1) + "\n"))
        if not self.rows and not os.path.exists(self.path(TABLE)):
            replace_file(self.path(TABLE), encoded("\t".join(COLUMNS) + "\n"))

    def task(self):
        """What was asked: a dictionary with `command`, `second`, `folder` and `questions`. Refused with status 4 or
        6."""
        try:
            task = json.loads(read_file(self.path(QUESTIONS)))
            if not {"command", "second", "folder", "questions"} <= set(task):
                raise ValueError
        except (ValueError, TypeError):
            raise Refusal(f"{self.path(QUESTIONS)}: not what many writes", TEXT) from None
        return task

    def load(self):
        """Reads the table, and takes a last line away that was not written whole. Refused with status 4 or 6."""
        data = read_file(self.path(TABLE)) if os.path.exists(self.path(TABLE)) else b""
        whole = data[: data.rfind(b"\n") + 1]
        lines = decoded(whole).split("\n")[:-1]
        if lines and lines[0] != "\t".join(COLUMNS):
            raise Refusal(f"{self.path(TABLE)}: not what many writes", TEXT)
        for at, line in enumerate(lines[1:], 2):
            cells = line.split("\t")
            if len(cells) != len(COLUMNS) or not cells[0].isdigit():
                raise Refusal(f"{self.path(TABLE)} line {at}: not what many writes", TEXT)
            self.rows[int(cells[0])] = dict(zip(COLUMNS, cells))
        return data != whole, whole

    def mend(self):
        """As `load`, and the table is then whole lines alone."""
        torn, whole = self.load()
        if torn or not whole:
            replace_file(self.path(TABLE), whole or encoded("\t".join(COLUMNS) + "\n"))

    def add(self, row):
        """Writes one row at the end of the table."""
        cells = [re.sub(r"[\t\n\r]", " ", str(row.get(column, "-"))) for column in COLUMNS]
        self.rows[int(cells[0])] = dict(zip(COLUMNS, cells))
        with open(self.path(TABLE), "ab") as file:
            file.write(encoded("\t".join(cells) + "\n"))

    def left(self, count):
        """The numbers of the questions that no row answers, from 1; one whose row tells an error is asked again."""
        return [n for n in range(1, count + 1) if n not in self.rows or self.rows[n]["verdict"].startswith("error")]


def loaded(folder):
    """The results in the folder, with what was asked. Refused with status 4 or 6."""
    results = Results(folder)
    if not os.path.isdir(folder):
        raise Refusal(f"{folder}: no folder", READ)
    if not os.path.exists(results.path(QUESTIONS)):
        raise Refusal(f"{folder}: no folder that `many` left, since {QUESTIONS} is not there", READ)
    task = results.task()
    results.load()
    return results, task


def sizes_of(data):
    """What a certificate tells of sizes, by column."""
    found = {"bytes": len(data)}
    sizes = re.search(rb"^sizes (\d+) (\d+) (\d+)$", data[:200], re.MULTILINE)
    if sizes:
        found.update(zip(("first states", "second states", "labels"), map(int, sizes.groups())))
    elements = re.search(rb"^elements (\d+)$", data, re.MULTILINE)
    if elements:
        found["elements"] = int(elements.group(1))
    return found
