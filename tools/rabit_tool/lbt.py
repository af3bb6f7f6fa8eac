"""The format of LBT, with the additions of lbtt: acceptance on transitions, and propositions in quotes."""
import re

from .formulas import prefix
from .general import General
from .letters import PROPOSITIONS, holding, refused
from .nouns import counted

TOKEN = re.compile(r'"(?:[^"\\]|\\.)*"|[!&|^]|[^\s!&|^"]+', re.DOTALL)
PROPOSITION, NUMBER, SETS = re.compile(r'p\d+|".*"', re.DOTALL), re.compile(r"\d{1,9}"), re.compile(
    r"(\d{1,9})(s|t|st|ts)?"
)


class Tokens:
    """The tokens as an iterator; `line` is that of the token that was given last."""

    def __init__(self, text):
        self.text, self.end, self.line = text, len(text.rstrip()), 1
        self.last = self.at = 0  # where the last token begins, and where it ends

    def __iter__(self):
        return self

    def __next__(self):
        if self.at >= self.end:
            raise StopIteration
        token = TOKEN.search(self.text, self.at)
        if not token or self.text[self.at : token.start()].strip():
            raise refused(self.line, "Shape", "a quote without an end")
        self.line += self.text.count("\n", self.last, token.start())
        self.last, self.at = token.span()
        return token.group()

    def number(self, what):
        """The next token, a number."""
        token = next(self, None)
        if token is None:
            raise refused(self.line, "Truncated", f"the text ends before {what}")
        if not NUMBER.fullmatch(token):
            raise refused(self.line, "Number", f"{token} in place of {what}")
        return int(token)

    def numbers(self, what):
        """The numbers up to -1, a set."""
        found = set()
        while True:
            token = next(self, None)
            if token == "-1":
                return found
            if token is None or not NUMBER.fullmatch(token):
                raise refused(
                    self.line, "Truncated" if token is None else "Number", f"{token or 'the end'} in place of {what}"
                )
            found.add(int(token))


def unquoted(token):
    """The name of a proposition, without quotes and with the characters that stand behind a backslash."""
    return re.sub(r"\\(.)", r"\1", token[1:-1], flags=re.DOTALL) if token.startswith('"') else token


def read(text):
    """The automaton of a text in LBT's format, a General. Refused with status 4 by line and name."""
    propositions = {}
    tokens = Tokens(text)
    for token in tokens:
        if PROPOSITION.fullmatch(token):
            propositions.setdefault(unquoted(token), len(propositions))
        if len(propositions) > PROPOSITIONS:
            raise refused(tokens.line, "TooManyPropositions", "more than eight")
    tokens = Tokens(text)
    states = tokens.number("the number of states")
    sets = SETS.fullmatch(next(tokens, ""))
    if not sets:
        raise refused(tokens.line, "Number", "no number of acceptance sets")
    automaton = Automaton(tokens, propositions, int(sets.group(1)), sets.group(2) or "s")
    for _ in range(states):
        automaton.read_state()
    token = next(tokens, None)
    if token is not None:
        raise refused(tokens.line, "Several", f"{token} follows the automaton")
    return automaton.general()


class Automaton:
    """The states that were read: `edges`, `marks`, `initial`, and in `used` the acceptance sets that occur."""

    def __init__(self, tokens, propositions, sets, kind):
        self.tokens, self.propositions, self.sets = tokens, propositions, sets
        self.on_states, self.on_moves = "s" in kind, "t" in kind
        self.edges, self.marks, self.initial, self.used, self.targets = {}, {}, [], {}, {}

    def read_state(self):
        """Reads a state with its transitions."""
        tokens = self.tokens
        state = tokens.number("a state")
        if state in self.edges:
            raise refused(tokens.line, "State", f"{state} stands twice")
        flag = tokens.number("0 or 1")
        if flag > 1:
            raise refused(tokens.line, "Number", f"{flag} in place of 0 or 1")
        if flag:
            self.initial.append(state)
        self.marks[state] = self.read_marks() if self.on_states else set()
        self.edges[state] = []
        while True:
            token = next(tokens, None)
            if token == "-1":
                return
            if token is None or not NUMBER.fullmatch(token):
                kind = "Truncated" if token is None else "Number"
                raise refused(tokens.line, kind, f"{token or 'the end'} in place of a target or -1")
            self.targets.setdefault(int(token), tokens.line)
            marks = self.read_marks() if self.on_moves else set()
            letters = prefix(tokens, self.atom, len(self.propositions))
            self.edges[state].append((letters, int(token), marks))

    def read_marks(self):
        """The set of acceptance sets up to -1."""
        marks = self.tokens.numbers("an acceptance set or -1")
        self.used.update(dict.fromkeys(sorted(marks)))
        if len(self.used) > self.sets:
            raise refused(self.tokens.line, "Acceptance", f"more than {counted(self.sets, 'acceptance set')}")
        return marks

    def atom(self, token):
        """The set of letters in which the proposition of the token holds, or None."""
        if not PROPOSITION.fullmatch(token):
            return None
        return holding(self.propositions[unquoted(token)], len(self.propositions))

    def general(self):
        """The automaton that was read, a General. Refused with status 4."""
        for target, line in self.targets.items():
            if target not in self.edges:
                raise refused(line, "State", f"{target} is not told")
        # a set that no state has is passed by no run
        wanted = list(self.used) if len(self.used) == self.sets else None
        return General(list(self.propositions), self.edges, self.initial, wanted, self.marks)
