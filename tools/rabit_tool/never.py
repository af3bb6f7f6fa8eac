"""Never claims of spin, in the form in which translators write them."""
import re

from .formulas import Infix
from .general import General
from .letters import PROPOSITIONS, every, holding, refused

SKIPPED = re.compile(r"\s+|/\*.*?\*/|//[^\n]*|^[ \t]*#[^\n]*", re.DOTALL | re.MULTILINE)
NAME = r"[A-Za-z_]\w*(?:\[\w+\]|\.[A-Za-z_]\w*|@[A-Za-z_]\w*)*"
TOKEN = re.compile(r"(?P<name>" + NAME + r")|(?P<number>\d+)|(?P<sign>::|->|&&|\|\||[=!<>]=|[<>!(){};:])")
COMPARISONS = ("==", "!=", "<", ">", "<=", ">=")
WORDS = ("do", "od", "if", "fi", "goto", "atomic", "assert", "else", "break", "never")
INFIX = {"&&": "&", "||": "|", "!": "!", "(": "(", ")": ")"}


def tokens_of(text):
    """The tokens of a claim, a list of (kind, text, line) that ends in (None, "", line)."""
    found, at, line = [], 0, 1
    while at < len(text):
        token = SKIPPED.match(text, at)
        if not token:
            if text.startswith("/*", at):
                raise refused(line, "Truncated", "a comment without an end")
            token = TOKEN.match(text, at)
            if not token:
                raise refused(line, "Shape", f"{text[at]!r} cannot stand there")
            found.append((token.lastgroup, token.group(), line))
        line += token.group().count("\n")
        at = token.end()
    return [*found, (None, "", line)]


def read(text):
    """The automaton of a never claim, a General. Refused with status 4 by line and name."""
    tokens = tokens_of(text)
    seen = Claim(tokens, {}, None)
    seen.read()
    names = sorted(seen.atoms)
    claim = Claim(tokens, {name: number for number, name in enumerate(names)}, len(names))
    claim.read()
    return claim.automaton(names)


class Claim:
    """Reads the tokens: first with `count` None, where only propositions are gathered, then with their number.

    A state has its first label as its name; `states` is a list of [names, edges], an edge is (set of letters, label
    of the target). The target None is the end of the claim: what comes there is accepted, whatever follows."""

    def __init__(self, tokens, atoms, count):
        self.tokens, self.at, self.atoms, self.count = tokens, 0, atoms, count
        self.states, self.numbers, self.targets = [], {}, []

    @property
    def full(self):
        """The set of all letters."""
        return every(self.count) if self.count is not None else 0

    def kind(self):
        """The kind of the token at hand."""
        return self.tokens[self.at][0]

    def text(self):
        """The text of the token at hand."""
        return self.tokens[self.at][1]

    def line(self):
        """The line of the token at hand."""
        return self.tokens[self.at][2]

    def last_line(self):
        """The line of the token that was taken last."""
        return self.tokens[self.at - 1][2]

    def fault(self, wanted):
        """Refuses the token at hand, in place of which something else is due."""
        if self.kind() is None:
            raise refused(self.line(), "Truncated", f"the text ends before {wanted}")
        raise refused(self.line(), "Shape", f"{self.text()} in place of {wanted}")

    def take(self, text):
        """Takes this token."""
        if self.text() != text:
            self.fault(text)
        self.at += 1

    def take_name(self):
        """Takes a name, and gives it."""
        if self.kind() != "name" or self.text() in WORDS:
            self.fault("a name")
        self.at += 1
        return self.tokens[self.at - 1][1]

    # ------------------------------------------------------------ the claim

    def read(self):
        """Reads the whole claim."""
        self.take("never")
        if self.kind() == "name":
            self.take_name()
        self.take("{")
        while self.text() != "}":
            self.read_state()
        if not self.states:
            raise refused(self.line(), "Shape", "a claim without states")
        self.take("}")
        if self.kind() is not None:
            raise refused(self.line(), "Several", "something follows the claim")
        for label, line in self.targets:
            if label not in self.numbers:
                raise refused(line, "State", f"{label} is the label of no state")

    def read_state(self):
        """Reads the labels of a state and what stands there."""
        names = []
        while self.kind() == "name" and self.tokens[self.at + 1][1] == ":":
            name, line = self.take_name(), self.last_line()
            if name in self.numbers:
                raise refused(line, "State", f"{name} stands twice")
            self.numbers[name] = len(self.states)
            names.append(name)
            self.take(":")
        if not names:
            self.fault("a label")
        if self.text() in ("do", "if"):
            edges = self.read_options({"do": "od", "if": "fi"}[self.text()])
        elif self.text() == "goto":
            raise refused(self.line(), "Shape", "a goto without a condition")
        else:
            # a condition by itself leads on to what stands below
            edges = [(self.read_condition(), len(self.states) + 1)]
        self.states.append((names, edges))
        while self.text() == ";":
            self.at += 1

    def read_options(self, end):
        """The edges of the options up to `od` or `fi`."""
        # an option without a goto comes to the same loop again, or to what stands below
        edges, after = [], len(self.states) + (end == "fi")
        self.at += 1
        while self.text() != end:
            self.take("::")
            edges.append(self.read_assertion() if self.text() == "atomic" else self.read_option(after))
        self.at += 1
        return edges

    def read_option(self, after):
        """The edge of an option, which goes to a label, or to the state of this number where it names none."""
        if self.text() == "else":
            raise refused(self.line(), "Shape", "else, which no translator writes")
        letters = self.read_condition()
        if self.text() in ("::", "od", "fi"):
            return letters, after
        self.read_arrow()
        self.take("goto")
        label, line = self.take_name(), self.last_line()
        self.targets.append((label, line))
        while self.text() == ";":
            self.at += 1
        return letters, label

    def read_arrow(self):
        """Takes what stands between a condition and what follows."""
        if self.text() not in ("->", ";"):
            self.fault("->")
        self.at += 1

    def read_assertion(self):
        """`atomic { condition -> assert(!(condition)) }`: where it fails the claim is met, whatever follows."""
        line = self.line()
        self.take("atomic")
        self.take("{")
        letters = self.read_condition()
        self.read_arrow()
        self.take("assert")
        if letters & self.read_condition():
            raise refused(line, "Shape", "an assertion that may hold where its condition does")
        while self.text() == ";":
            self.at += 1
        self.take("}")
        return letters, None

    # ------------------------------------------------------------ conditions

    def read_condition(self):
        """The set of letters of a condition."""
        formula, line, begin = Infix(self.full), self.line(), self.at
        while True:
            sign = INFIX.get(self.text())
            if sign == ")" and not formula.is_open():
                break
            if sign:
                self.at += 1
                fine = formula.operator(sign)
            elif self.kind() in ("name", "number") and self.text() not in WORDS:
                fine = formula.due and formula.operand(self.read_atom())
            else:
                break
            if not fine:
                raise refused(line, "Label", "no condition of propositions, !, && and ||")
        value = formula.result()
        if value is None or self.at == begin:
            raise refused(line, "Label", "no whole condition")
        return value

    def read_atom(self):
        """A proposition, a number, or a comparison of two of these; `!=` is what `==` is not."""
        first, sign = self.tokens[self.at], self.tokens[self.at + 1][1]
        self.at += 1
        if sign in COMPARISONS:
            kind, last, line = self.tokens[self.at + 1]
            if kind not in ("name", "number"):
                raise refused(line, "Label", f"{sign} is not followed by a name or a number")
            self.at += 2
            letters = self.atom(first[1] + ("==" if sign == "!=" else sign) + last)
            return self.full & ~letters if sign == "!=" else letters
        if first[0] == "number":
            return self.full if first[1].strip("0") else 0
        if first[1] in ("true", "skip"):
            return self.full
        return 0 if first[1] == "false" else self.atom(first[1])

    def atom(self, name):
        """The set of letters in which the proposition of this name holds."""
        if self.count is not None:
            return holding(self.atoms[name], self.count)
        self.atoms[name] = 0
        if len(self.atoms) > PROPOSITIONS:
            raise refused(self.tokens[self.at - 1][2], "TooManyPropositions", "more than eight")
        return 0

    # ------------------------------------------------------------ the automaton

    def automaton(self, propositions):
        """The automaton of the claim over these propositions, a General."""
        last = len(self.states) - 1
        # a last state from which the end is reached by each letter may stand for the end itself
        is_end = self.states[last][1] == [(self.full, last + 1)]
        end = last if is_end else last + 1
        edges, marks, names = {end: [(self.full, end, ())]}, {end: {0}}, {}
        for state, (labels, moves) in enumerate(self.states):
            names[state] = labels[0]
            if state == end:
                continue
            edges[state] = [(letters, self.place(target, end), ()) for letters, target in moves]
            if any(label.startswith("accept") for label in labels):
                marks[state] = {0}
        names.setdefault(end, "end")
        return General(propositions, edges, [0], [0], marks, names)

    def place(self, target, end):
        """The number of a target: a label, the number of the next state, or None for the end."""
        if target is None:
            return end
        return self.numbers[target] if isinstance(target, str) else min(target, end)
