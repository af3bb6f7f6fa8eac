"""The HOA format, version 1, as far as it tells Büchi and generalised Büchi acceptance of automata without universal
moves."""
from .general import General
from .hoa_header import read_header, read_label
from .hoa_tokens import Tokens
from .letters import refused
from .nouns import counted


def read(text):
    """The automaton of an HOA text, a General. Refused with status 4 by line and name."""
    tokens = Tokens(text)
    header = read_header(tokens)
    body = Body(tokens, header)
    body.read()
    tokens.take("--END--")
    if tokens.kind:
        raise tokens.refused(
            "Several", "more than one automaton" if tokens.text == "HOA:" else "something follows --END--"
        )
    for state, line in header.starts:
        body.check_state(state, line)
    for target, line in body.targets.items():
        body.check_state(target, line)
    return General(
        header.propositions,
        body.edges,
        [state for state, _ in header.starts],
        header.wanted,
        body.marks,
        body.names,
        header.letters,
    )


class Body:
    """The states as the body tells them: `edges`, `marks` and `names` by state, `targets` with a line of each."""

    def __init__(self, tokens, header):
        self.tokens, self.header = tokens, header
        self.edges, self.marks, self.names, self.targets = {}, {}, {}, {}

    def read(self):
        """Reads all states."""
        while self.tokens.text == "State:":
            self.read_state()
        if self.tokens.text == "--ABORT--":
            raise self.tokens.refused("Abort", "the automaton was given up")

    def check_state(self, state, line):
        """Refuses a state without a State: line, at the line that names it."""
        if state not in self.edges:
            raise refused(line, "State", f"{state} has no State: line")

    def read_state(self):
        """Reads a state with its edges."""
        tokens = self.tokens
        tokens.next()
        label = read_label(tokens, self.header)
        state, line = tokens.integer(), tokens.before
        if self.header.states is not None and state >= self.header.states:
            raise refused(line, "State", f"{state}, of {counted(self.header.states, 'state')}")
        if state in self.edges:
            raise refused(line, "State", f"{state} stands twice")
        if tokens.kind == "string":
            self.names[state] = tokens.string()
        self.marks[state] = self.read_marks()
        self.edges[state] = self.with_letters(state, line, label, self.read_edges())

    def read_edges(self):
        """The edges up to the next state, each as (label or None, target, marks)."""
        tokens, edges = self.tokens, []
        while tokens.text == "[" or tokens.kind == "integer":
            label = read_label(tokens, self.header)
            target = tokens.integer()
            if tokens.text == "&":
                raise tokens.refused("Alternation", "several targets at once")
            self.targets.setdefault(target, tokens.before)
            edges.append((label, target, self.read_marks()))
        return edges

    def with_letters(self, state, line, label, edges):
        """The edges with the letters of each: its own label, the state's, or those of its place where no label
        stands."""
        told = [own for own, _, _ in edges if own is not None]
        if label is not None:
            if told:
                raise refused(line, "Label", f"state {state} has a label and so have its edges")
            return [(label, target, marks) for _, target, marks in edges]
        if len(told) == len(edges):
            return edges
        if told:
            raise refused(line, "Label", f"some edges of state {state} have a label and some have none")
        if len(edges) != 1 << len(self.header.propositions):
            raise refused(
                line,
                "Label",
                f"state {state} has {counted(len(edges), 'edge')} without a label, not one for each letter",
            )
        return [(1 << letter, target, marks) for letter, (_, target, marks) in enumerate(edges)]

    def read_marks(self):
        """The set of marks in braces, empty where none stand here."""
        tokens, marks = self.tokens, set()
        if tokens.text != "{":
            return marks
        tokens.next()
        while tokens.kind == "integer":
            number = tokens.integer()
            if number >= self.header.sets:
                raise refused(tokens.before, "Acceptance", f"set {number}, and there are {self.header.sets}")
            marks.add(number)
        tokens.sign("}")
        return marks
