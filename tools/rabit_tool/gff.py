"""GOAL's format, GFF: automata with labels on transitions and Büchi or generalised Büchi acceptance on states.

What it does not know it refuses, and so a label that leaves a proposition out."""
import re
from xml.parsers import expat

from .automata import can_be_named
from .files import encoded
from .general import General
from .letters import PROPOSITIONS, every, refused

SYMBOLS, DEPTH = 256, 12
PASSED_OVER = ("name", "description", "formula", "properties", "x", "y")
TEXTS = {
    "structure/alphabet/proposition",
    "structure/alphabet/symbol",
    "structure/initialstateset/stateid",
    "structure/transitionset/transition/from",
    "structure/transitionset/transition/to",
    "structure/transitionset/transition/label",
    "structure/acc/stateid",
    "structure/acc/accset/stateid",
}
PARTS = {place.rsplit("/", depth)[0] for place in TEXTS for depth in (1, 2, 3) if "/" in place}
PARTS |= {"structure", "structure/stateset", "structure/stateset/state"}


def read(text):
    """The automaton of a GFF text, a General. Refused with status 4 by line and name."""
    reader = Reader()
    try:
        reader.parser.Parse(encoded(text), True)
    except expat.ExpatError as error:
        raise refused(error.lineno, "Shape", f"no XML: {expat.ErrorString(error.code)}") from None
    return reader.general()


def plain(name):
    """The word for an attribute's value, whatever its case and signs."""
    return re.sub(r"[^a-z]", "", name.lower())


class Reader:
    """What the elements have told so far: `letters`, `states`, `initial`, `moves` and `sets` of accepting states."""

    def __init__(self):
        self.parser = expat.ParserCreate("utf-8")
        self.parser.StartElementHandler, self.parser.EndElementHandler = self.start, self.end
        self.parser.CharacterDataHandler, self.parser.StartDoctypeDeclHandler = self.data, self.doctype
        self.places, self.text, self.passed = [], "", 0
        self.kind, self.letters, self.states, self.initial, self.moves = None, [], {}, [], []
        self.acceptance, self.sets, self.move = None, [], {}

    def fault(self, name, detail):
        """The refusal at the line at hand."""
        return refused(self.parser.CurrentLineNumber, name, detail)

    def doctype(self, *_):
        """Refuses a document type, which could define texts."""
        raise self.fault("Shape", "a document type, which is not read")

    def data(self, text):
        """Takes text."""
        self.text += text if not self.passed else ""

    def start(self, name, attributes):
        """Takes the begin of an element."""
        if self.text.strip() and not self.passed:
            raise self.fault("Shape", f"the text {self.text.strip()!r} before {name}")
        name, self.text = name.lower(), ""
        if len(self.places) > DEPTH:
            raise self.fault("Shape", "elements deep in one another")
        if self.passed or self.places and name in PASSED_OVER:
            self.passed += 1
            return
        place = "/".join([*self.places, name])
        if place not in PARTS and place not in TEXTS:
            raise self.fault("Element", f"{name}: is not known there, and may bear on the meaning")
        self.places.append(name)
        if place in STARTS:
            STARTS[place](self, {key.lower(): value for key, value in attributes.items()})

    def end(self, name):
        """Takes the end of an element."""
        if self.passed:
            self.passed -= 1
            return
        place, text = "/".join(self.places), self.text.strip()
        self.places.pop()
        self.text = ""
        if place in ENDS:
            ENDS[place](self, text)
        elif text:
            raise self.fault("Shape", f"the text {text!r} in {name}")

    # ------------------------------------------------------------ parts

    def start_structure(self, attributes):
        """Takes the whole element: its kind."""
        if plain(attributes.get("label-on", "")) != "transition":
            raise self.fault("Structure", "labels that are not on transitions")
        if plain(attributes.get("type", "")) not in ("finitestateautomaton", "fa"):
            raise self.fault("Structure", f"{attributes.get('type')}: only automata are read")

    def start_alphabet(self, attributes):
        """Takes the kind of the alphabet."""
        if self.kind:
            raise self.fault("Alphabet", "stands twice")
        self.kind = plain(attributes.get("type", ""))
        if self.kind not in ("propositional", "classical"):
            raise self.fault("Alphabet", f"{attributes.get('type')}: neither propositional nor classical")

    def start_state(self, attributes):
        """Takes a state."""
        state = self.number(attributes.get("sid", ""))
        if state in self.states:
            raise self.fault("State", f"{state} stands twice")
        self.states[state] = True

    def start_transition(self, _):
        """Begins a transition."""
        self.move = {}

    def start_acc(self, attributes):
        """Takes the kind of acceptance."""
        if self.acceptance:
            raise self.fault("Acceptance", "stands twice")
        self.acceptance = plain(attributes.get("type", ""))
        if self.acceptance not in ("buchi", "generalizedbuchi"):
            kind = attributes.get("type")
            raise self.fault("Acceptance", f"{kind}: only Buchi and generalized Buchi acceptance is read")
        if self.acceptance == "buchi":
            self.sets.append([])

    def start_accset(self, _):
        """Begins a set of accepting states."""
        if self.acceptance == "buchi":
            raise self.fault("Acceptance", "a set of states in place of states")
        self.sets.append([])

    def number(self, text):
        """The number of a state."""
        if not re.fullmatch(r"\d{1,9}", text.strip()):
            raise self.fault("Number", f"{text!r} in place of a state's number")
        return int(text)

    def end_letter(self, text, kind):
        """Takes a proposition or a symbol."""
        if self.kind != kind or not text or text in self.letters:
            raise self.fault("Alphabet", f"{text!r} is of the other kind, empty, or stands twice")
        if kind == "propositional" and (text in ("True", "False") or re.search(r"[\s~]", text)):
            raise self.fault("Alphabet", f"{text!r} is no name that a label could have")
        if kind == "classical" and not can_be_named(text):
            raise self.fault("Alphabet", f"{text!r}, which .ba cannot have as a label")
        self.letters.append(text)
        most = PROPOSITIONS if kind == "propositional" else SYMBOLS
        if len(self.letters) > most:
            raise self.fault("TooManyPropositions" if most == PROPOSITIONS else "TooManyLabels", f"more than {most}")

    def end_part(self, text, part):
        """Takes a part of a transition: from, to or label."""
        if part in self.move:
            raise self.fault("Transition", f"{part} stands twice")
        self.move[part] = text if part == "label" else self.number(text), self.parser.CurrentLineNumber

    def end_transition(self, text):
        """Ends a transition, which has all its parts."""
        if text or set(self.move) != {"from", "to", "label"}:
            raise self.fault("Transition", "not one from, one to and one label")
        self.moves.append(self.move)

    def end_initial(self, text):
        """Takes an initial state."""
        self.initial.append((self.number(text), self.parser.CurrentLineNumber))

    def end_accepting(self, text):
        """Takes a state of the set of accepting states at hand."""
        if not self.sets or self.acceptance != "buchi" and self.places[-1] != "accset":
            raise self.fault("Acceptance", "a state outside of a set")
        self.sets[-1].append((self.number(text), self.parser.CurrentLineNumber))

    # ------------------------------------------------------------ the whole

    def mask(self, label, line):
        """The set of letters of a label's text."""
        if self.kind == "classical":
            if label not in self.letters:
                raise refused(line, "Label", f"{label!r} is no symbol of the alphabet")
            return 1 << self.letters.index(label)
        if label == "True":
            return every(len(self.letters))
        words = label.split()
        if sorted(word.lstrip("~") for word in words) != sorted(self.letters):
            raise refused(line, "Label", f"{label!r} does not tell each proposition once")
        return 1 << sum(1 << self.letters.index(word) for word in words if not word.startswith("~"))

    def general(self):
        """The automaton that was told, a General. Refused with status 4."""
        for what, part in (("Alphabet", self.kind), ("Acceptance", self.acceptance)):
            if not part:
                raise self.fault(what, "there is none")
        edges, marks = {state: [] for state in self.states}, {state: set() for state in self.states}
        for move in self.moves:
            source, target = (self.known(*move[part]) for part in ("from", "to"))
            edges[source].append((self.mask(*move["label"]), target, ()))
        for number, found in enumerate(self.sets):
            for state, line in found:
                marks[self.known(state, line)].add(number)
        classical, initial = self.kind == "classical", [self.known(state, line) for state, line in self.initial]
        wanted = list(range(len(self.sets)))
        letters = self.letters if classical else None
        return General([] if classical else self.letters, edges, initial, wanted, marks, None, letters)

    def known(self, state, line):
        """The state, which is told somewhere."""
        if state not in self.states:
            raise refused(line, "State", f"{state} is not told")
        return state


STARTS = {
    "structure": Reader.start_structure,
    "structure/alphabet": Reader.start_alphabet,
    "structure/stateset/state": Reader.start_state,
    "structure/transitionset/transition": Reader.start_transition,
    "structure/acc": Reader.start_acc,
    "structure/acc/accset": Reader.start_accset,
}
ENDS = {
    "structure/alphabet/proposition": lambda reader, text: reader.end_letter(text, "propositional"),
    "structure/alphabet/symbol": lambda reader, text: reader.end_letter(text, "classical"),
    "structure/initialstateset/stateid": Reader.end_initial,
    "structure/transitionset/transition": Reader.end_transition,
    "structure/transitionset/transition/from": lambda reader, text: reader.end_part(text, "from"),
    "structure/transitionset/transition/to": lambda reader, text: reader.end_part(text, "to"),
    "structure/transitionset/transition/label": lambda reader, text: reader.end_part(text, "label"),
    "structure/acc/stateid": Reader.end_accepting,
    "structure/acc/accset/stateid": Reader.end_accepting,
}
