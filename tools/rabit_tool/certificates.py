"""The texts of certificates and of cross files, read for telling what they say. Whether they are valid the program
says."""
from .files import CERTIFICATE, CERTIFICATE_BYTES, Refusal, read_file


class Lines:
    """The lines, taken one after another, as lists of words; `at` is the number of the one that was taken last."""

    def __init__(self, data, name):
        self.lines, self.at, self.name = data.split(b"\n"), 0, name

    def fault(self):
        """The refusal of the line that was taken last."""
        return Refusal(f"{self.name} line {self.at}: this is not the text of a certificate", CERTIFICATE)

    def words(self):
        """The next line as a list of words."""
        self.at += 1
        if self.at > len(self.lines):
            raise self.fault()
        return self.lines[self.at - 1].decode("latin-1").split(" ")

    def take(self, *begin):
        """The numbers behind these words of the next line."""
        words = self.words()
        if words[: len(begin)] != list(begin):
            raise self.fault()
        return self.numbers(words[len(begin) :])

    def one(self, *begin):
        """The one number behind these words of the next line."""
        numbers = self.take(*begin)
        if len(numbers) != 1:
            raise self.fault()
        return numbers[0]

    def numbers(self, words):
        """The words as a list of numbers."""
        if not all(word.isdigit() and len(word) <= 9 for word in words):
            raise self.fault()
        return list(map(int, words))


def load(name):
    """The certificate or cross file of that name; see `read`. Refused with status 5 or 6."""
    return read(read_file(name, CERTIFICATE_BYTES), name)


def read(data, name="certificate"):
    """What the text says, a dictionary. Refused with status 5 where it is none.

    Always `kind` (certificate or cross) and `sizes`, three numbers. A cross file has `look` and `rows`, a list of
    (state, states). A certificate has `version`, `mode` (buchi or finite) and `form` (yes, no or list); a no has
    `prefix` and `loop`, or `word`; the others have `first` and `second`, the logs, and `elements`, each as (mark,
    origin): a mark is None or the number of the live element above, an origin is (), (t,) or (p, t). A yes has
    `order`, `cover` and `steps`; a list has `limit`."""
    lines = Lines(data, name)
    header = lines.words()
    if header == ["rabit-cross", "1"]:
        found = {"kind": "cross", "sizes": lines.take("sizes"), "look": lines.one("look")}
        found["rows"] = read_rows(lines, 1)
    elif header[:-2] in (["rabit-cert", "1"], ["rabit-cert", "2"]) and header[2] in ("buchi", "finite"):
        found = {"kind": "certificate", "version": int(header[1]), "mode": header[2], "form": header[3]}
        found["sizes"] = lines.take("sizes")
        if header[3] not in READERS:
            raise lines.fault()
        READERS[header[3]](lines, found)
    else:
        raise lines.fault()
    lines.take("end")
    if len(found["sizes"]) != 3:
        raise lines.fault()
    return found


def read_no(lines, found):
    """Reads what a no has into the dictionary."""
    for word in ("prefix", "loop") if found["mode"] == "buchi" else ("word",):
        found[word] = lines.take(word)


def read_logs(lines, found):
    """Reads both logs into the dictionary."""
    found["first"] = [read_step(lines, found["version"], False) for _ in range(lines.one("log1"))]
    found["second"] = [read_step(lines, found["version"], True) for _ in range(lines.one("log2"))]


def read_yes(lines, found):
    """Reads what a yes has into the dictionary."""
    read_logs(lines, found)
    found["order"] = read_rows(lines, found["version"])
    read_elements(lines, found)
    found["cover"] = lines.take("cover")
    found["steps"] = [lines.take("step") for mark, _ in found["elements"] if mark is None]


def read_list(lines, found):
    """Reads what a list has into the dictionary."""
    read_logs(lines, found)
    found["limit"] = lines.one("limit")
    read_elements(lines, found)


READERS = {"no": read_no, "yes": read_yes, "list": read_list}


def read_elements(lines, found):
    """Reads the elements into the dictionary, each as (mark, origin)."""
    found["elements"] = []
    for _ in range(lines.one("elements")):
        words, mark = lines.words(), None
        if words[0] == "live":
            words = words[1:]
        elif words[0] == "under":
            mark, words = lines.numbers(words[1:2]), words[2:]
        numbers = lines.numbers(words[1:])
        if not words or len(numbers) != {"base": 1, "start": 0, "next": 2}.get(words[0]) or mark == []:
            raise lines.fault()
        found["elements"].append((mark[0] if mark else None, tuple(numbers)))


def read_rows(lines, version):
    """The rows of a block, each as (left state, right states)."""
    rows = []
    for _ in range(lines.one("rel")):
        left, *rights = lines.take("row") or [None]
        if not rights or version == 2 and len(rights) % 2:
            raise lines.fault()
        if version == 2:
            rights = [state for f, l in zip(rights[::2], rights[1::2]) for state in range(f, min(l, f + 2048) + 1)]
        rows.append((left, rights))
    return rows


def read_step(lines, version, is_second):
    """A step of a log: a dictionary with `step` (trim, merge or cut) and what it names."""
    words = lines.words()
    if words[0] == "trim":
        return {"step": "trim", "states": lines.numbers(words[1:])}
    if words[0] == "merge":
        step = {"step": "merge", "by": " ".join(words[1:]) or None, "classes": lines.take("classes")}
        if is_second and words[1:2] == ["delayed"]:
            for _ in range(lines.one("rel")):
                lines.take("row")
        elif is_second:
            read_rows(lines, version)
        return step
    if words[0] != "cut":
        raise lines.fault()
    gone = lines.take("gone")
    if is_second:
        return {"step": "cut", "gone": gone}
    numbers = lines.numbers(words[1:])
    if len(numbers) != 2 or not 1 <= numbers[0] <= 4 or len(gone) % 2:
        raise lines.fault()
    for _ in range(1 if numbers[0] < 3 else 2):
        read_rows(lines, version)
    return {"step": "cut", "pair": numbers[0], "look": numbers[1], "gone": gone[::2], "better": gone[1::2]}
