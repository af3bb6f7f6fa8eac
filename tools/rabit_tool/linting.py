"""`lint FILE..`: what a text means that looks like a slip."""
import os
import subprocess
import tempfile

from .automata import line_fault, lines_of, on_cycles, read_ba, transition_tokens
from .files import Refusal, decoded, encoded, read_file, write_file
from .importing import format_of
from .names import near
from .program import ask, find_built, find_program

SECONDS, SHOWN, LINES, ONCE, SECOND, FIRST, LABELS, TRANSITIONS = 10, 5, 50, 50, 512, 2048, 256, 65536
FAULTS = {
    "BadByte": "a control character",
    "EmptyToken": "a name or a label is missing",
    "TokenLong": "TokenLong: a name or a label of more than 255 bytes",
}


def told(names):
    """The names as one text, as far as five."""
    names = list(names)
    return ", ".join(names[:SHOWN]) + (f" and {len(names) - SHOWN} more" if len(names) > SHOWN else "")


OTHERS = ((b"rabit-cert ", "a certificate"), (b"rabit-cross ", "a cross file"), (b"digraph ", "a text for graphviz"))
FORMATS = {
    "HOA": "the HOA format",
    "never": "a never claim",
    "LBT": "LBT's format",
    "GFF": "GOAL's format",
}


def other_format(data):
    """The other format that the text seems to have, in words, or None."""
    kind = format_of(decoded(data))
    return FORMATS[kind] if kind else next((what for begin, what in OTHERS if data.lstrip().startswith(begin)), None)


class Text:
    """What stands in a text, line by line: `moves` are (line, label, source, target), `states` are (line, name), in
    order; `early` counts the state lines before the first transition, and `faults` are (line, warning)."""

    def __init__(self, data):
        self.moves, self.states, self.faults, self.early = [], [], [], 0
        self.lines = lines_of(data)
        for at, line in self.lines:
            kind = line_fault(line)
            if kind:
                shape = "a comma, but no label,source->target" if b"," in line else "an arrow without a comma"
                self.faults.append((at, FAULTS.get(kind, shape)))
            elif b"," in line:
                self.moves.append((at, *map(decoded, transition_tokens(line))))
            else:
                self.states.append((at, decoded(line)))
                self.early += not self.moves

    def is_prose(self):
        """Whether no line is meant as a transition, and half of them or more have blanks in them."""
        spaced = [line for _, line in self.lines if b" " in line]
        meant = any(b"," in line and b"->" in line for _, line in self.lines)
        return not meant and len(spaced) > 1 and 2 * len(spaced) >= len(self.lines)

    def uses(self):
        """How many times each state is named."""
        found = {}
        for name in [name for _, name in self.states] + [name for _, _, *ends in self.moves for name in ends]:
            found[name] = found.get(name, 0) + 1
        return found


def warnings(data):
    """What is wrong with the text, or accepts nothing: a list of (line or 0, text)."""
    text, found = Text(data), []
    if data.startswith((b"\xef\xbb\xbf", b"\xff\xfe", b"\xfe\xff")):
        found.append((1, "a byte order mark, which becomes part of the first name"))
    kind = other_format(data)
    if kind:
        hinted = "; `rabit-tool import` makes .ba of it" if kind in FORMATS.values() else ""
        found.append((1, f"this looks like {kind}, which is not read{hinted}"))
    if not text.lines:
        return [*found, (0, "no line at all")]
    if text.is_prose():
        return [*found, (0, "this is no automaton: no line is label,source->target")]
    found += text.faults + limits(text)
    if text.moves and text.early > 1:
        told_of = f"{text.early} state lines before the first transition, and one at most names the initial state"
        found.append((text.moves[0][0], told_of))
    if not text.moves:
        return [*found, (0, "no transition: no lasso is accepted")]
    named = dict.fromkeys(name for _, _, *ends in text.moves for name in ends)
    listed = text.states[1:] if text.early == 1 else text.states if not text.early else text.states[text.early :]
    for count, (at, name) in enumerate((at, name) for at, name in listed if name not in named):
        likely = hint(name, named) if count < ONCE else ""
        found.append((at, f"the accepting state {name} is in no transition{likely}"))
    if text.faults or text.early > 1:
        return found
    return found + nothing(read_ba(data), text)


def limits(text):
    """The warnings of what the program refuses in any file since it is too large, by its names."""
    counts = (
        ("TooManyStates", len(text.uses()), FIRST, f"states: a first file may have {FIRST}, a second one {SECOND}"),
        ("TooManyLabels", len({label for _, label, *_ in text.moves}), LABELS, f"labels: a file may have {LABELS}"),
        (
            "TooManyTransitions", len({tuple(move) for _, *move in text.moves}), TRANSITIONS,
            f"transitions: a file may have {TRANSITIONS}",
        ),
    )  # fmt: skip
    return [(0, f"{name}: {count} {what}") for name, count, most, what in counts if count > most]


def hint(name, others):
    """What a warning says of one of the others that looks like the name, or nothing."""
    likely = [other for other in others if near(name, other)]
    return f"; is {likely[0]} meant?" if likely else ""


def nothing(automaton, text):
    """The warning that no lasso is accepted, with why, or none."""
    initial, names = automaton.names[automaton.initial], automaton.names
    if not automaton.moves[automaton.initial]:
        sources = dict.fromkeys(source for _, _, source, _ in text.moves)
        return [(0, f"the initial state {initial} has no move: no lasso is accepted{hint(initial, sources)}")]
    met = automaton.reached() & automaton.accepting
    if not met:
        listed = told(names[state] for state in sorted(automaton.accepting))
        return [(0, f"no accepting state is reached from {initial}: no lasso is accepted (accepting: {listed})")]
    if not met & on_cycles(automaton):
        listed = told(names[state] for state in sorted(met))
        why = "no accepting state that is reached lies on a cycle: no lasso is accepted"
        return [(0, f"{why} (accepting and reached: {listed})")]
    return []


def notes(data, program=None):
    """What may be meant so: a list of (line or 0, text). The program, if any, is asked whether all is accepted."""
    text = Text(data)
    if text.faults or not text.moves or text.early > 1:
        return []
    automaton, found = read_ba(data), []
    found += twice([(at, move) for at, *move in text.moves], "the transition")
    found += twice([(at, [name]) for at, name in text.states[text.early == 1 :]], "the accepting state")
    uses = text.uses()
    for name in [name for name, count in uses.items() if count == 1][:ONCE]:
        likely = [other for other in uses if uses[other] > 1 and near(name, other)]
        if likely:
            found.append((0, f"the state {name} is named once; is {likely[0]} meant?"))
    reached = automaton.reached()
    missed = [name for state, name in enumerate(automaton.names) if state not in reached]
    if missed:
        found.append((0, f"never reached: {told(missed)}"))
    if accepts_all(automaton, data, program):
        found.append((0, "it accepts each lasso over its labels"))
    if SECOND < len(automaton.names) <= FIRST:
        found.append((0, second_limit(text)))
    return found


def second_limit(text):
    """What is told of a text that has too many states for a second file."""
    return f"TooManyStates as a second file: {len(text.uses())} states, and it may have {SECOND}"


def twice(lines, what):
    """The notes on what stands twice among (line, tokens), a list of (line, text)."""
    seen, found = set(), []
    for at, tokens in lines:
        if tuple(tokens) in seen:
            shown = tokens[0] if len(tokens) == 1 else "{},{}->{}".format(*tokens)
            found.append((at, f"{what} {shown} stands there twice"))
        seen.add(tuple(tokens))
    return found


def accepts_all(automaton, data, program):
    """Whether the program says so; where there is none, or it takes too long, whether it is seen at once."""
    every, states = set(range(len(automaton.labels))), automaton.reached()
    complete = {state: {label for label, _ in automaton.moves[state]} == every for state in states}
    if all(complete.values()) and states <= automaton.accepting:
        return True
    if program is None or len(automaton.names) > SECOND or not complete[automaton.initial]:
        return False
    with tempfile.TemporaryDirectory() as folder:
        names = [os.path.join(folder, name) for name in ("a.ba", "all.ba", "answer.cert")]
        write_file(names[0], data)
        try:
            return ask(program, ["universal", *names], SECONDS)[0] == 0
        except (Refusal, subprocess.TimeoutExpired):
            return False


def labels_apart(names, texts):
    """The notes on two files of which only one has a label: a list of (file, text)."""
    found, labels = [], [dict.fromkeys(label for _, label, _, _ in text.moves) for text in texts]
    for which in (0, 1):
        own = [label for label in labels[which] if label not in labels[1 - which]]
        if own and labels[1 - which]:
            hints = [f"{other} for {label}" for label in own for other in labels[1 - which] if near(label, other)]
            meant = f"; is {hints[0]} meant?" if hints else ""
            found.append((names[which], f"labels that {names[1 - which]} has not: {told(own)}{meant}"))
    return found


def printed(name, found, kind=""):
    """The lines that are printed of a file's warnings or notes: all about the file, and of those about a line fifty."""
    placed = [at for at, (line, _) in enumerate(found) if line]
    left_out = set(placed[LINES:])
    lines = [
        f"{name}:{line}: {kind}{text}" if line else f"{name}: {kind}{text}"
        for at, (line, text) in enumerate(found)
        if at not in left_out
    ]
    return lines + ([f"{name}: {kind}and {len(left_out)} more like these"] if left_out else [])


def lint(names, program=None):
    """The lines that are printed, and whether any is a warning. A note begins with `note:` behind the file."""
    lines, texts, status = [], [], 0
    for name in names:
        try:
            data = read_file(name)
        except Refusal as refusal:
            lines.append(refusal.text)
            status = 1
            continue
        texts.append(Text(data))
        warned = warnings(data)
        if len(names) == len(texts) == 2 and SECOND < len(texts[1].uses()) <= FIRST:
            warned.append((0, second_limit(texts[1])))
        status = 1 if warned else status
        noted = [note for note in notes(data, None if warned else program) if note not in warned]
        lines += printed(name, warned) + printed(name, noted, "note: ")
    if len(names) == len(texts) == 2:
        lines += [f"{name}: note: {text}" for name, text in labels_apart(names, texts)]
    return lines, status


def add_words(parser):
    """Adds the command's words to its parser."""
    parser.add_argument("files", metavar="FILE", nargs="+", help="automata, .ba; of two their labels are compared too")
    parser.add_argument(
        "--program", metavar="RABIT", help="the program, which is asked whether all is accepted where it is there"
    )


def run(args):
    """The command; its status is 1 where there is a warning, else 0; notes leave it alone. Refused with status 9."""
    lines, status = lint(args.files, find_program(args.program) if args.program else find_built())
    write_file(None, encoded("".join(line + "\n" for line in lines)))
    return status
