"""The headers of an HOA text, and its labels."""
from .automata import can_be_named
from .formulas import Infix
from .letters import PROPOSITIONS, every, holding, refused
from .nouns import counted

ONCE = ("States", "AP", "Acceptance", "acc-name", "rabit-letters")


class Header:
    """What the headers say: `states` or None, `starts` and `line` of each, `propositions`, `aliases`, `sets`,
    `wanted`."""

    def __init__(self):
        self.states, self.starts, self.propositions, self.aliases = None, [], [], {}
        self.sets, self.wanted, self.letters, self.seen = 0, None, None, {}
        self.alias_texts = []

    @property
    def full(self):
        """The set of all letters."""
        return every(len(self.propositions))


def read_header(tokens):
    """The headers, a Header; the tokens are then at the body. Refused with status 4 by line and name."""
    header = Header()
    if tokens.take("header") != "HOA:":
        raise refused(1, "Format", "no HOA header")
    if tokens.take("identifier") != "v1":
        raise refused(1, "Version", "only version v1 is read")
    while tokens.kind == "header":
        name, line = tokens.take("header")[:-1], tokens.before
        if name in ONCE and name in header.seen:
            raise refused(line, "Header", f"{name}: stands twice")
        header.seen[name] = line
        reader = READERS.get(name)
        if reader:
            reader(tokens, header)
        elif name[0].isupper():
            raise refused(line, "Header", f"{name}: is not known, and may bear on the meaning")
        else:
            while tokens.kind in ("integer", "string", "identifier", "alias", "sign"):
                tokens.next()
    if "Acceptance" not in header.seen:
        raise tokens.refused("Acceptance", "no Acceptance: header")
    tokens.take("--BODY--")
    resolve_aliases(header)
    return header


def read_states(tokens, header):
    """Reads the number of states."""
    header.states = tokens.integer()


def read_start(tokens, header):
    """Reads one initial state."""
    header.starts.append((tokens.integer(), tokens.before))
    if tokens.text == "&":
        raise tokens.refused("Alternation", "several initial states at once")


def read_propositions(tokens, header):
    """Reads the names of the propositions."""
    count, line = tokens.integer(), tokens.before
    if count > PROPOSITIONS:
        raise refused(line, "TooManyPropositions", f"{count}, and at most eight can be")
    while tokens.kind == "string":
        header.propositions.append(tokens.string())
    if len(header.propositions) != count:
        raise refused(line, "AP", f"{counted(count, 'proposition')} told and {len(header.propositions)} named")
    if len(set(header.propositions)) != count:
        raise refused(line, "AP", "two propositions have one name")


def read_letters(tokens, header):
    """Reads the names of the letters, which `export` writes."""
    header.letters = []
    while tokens.kind == "string":
        name, line = tokens.string(), tokens.before
        if not can_be_named(name) or name in header.letters:
            raise refused(line, "Letter", f"{name!r} is no name of a letter, or stands twice")
        header.letters.append(name)


def read_alias(tokens, header):
    """Keeps the tokens of an alias; its formula may speak of propositions that are told later."""
    name, line, kept = tokens.take("alias"), tokens.before, []
    if any(name == other for other, _, _ in header.alias_texts):
        raise refused(line, "Alias", f"{name} stands twice")
    while tokens.kind in ("integer", "alias", "sign") or tokens.kind == "identifier" and tokens.text in ("t", "f"):
        kept.append((tokens.kind, tokens.text, tokens.line))
        tokens.next()
    header.alias_texts.append((name, line, kept))


def resolve_aliases(header):
    """Makes the set of letters of each alias, in the order in which they stand."""
    for name, line, kept in header.alias_texts:
        formula = Infix(header.full)
        for kind, text, at in kept:
            take_label_token(formula, header, kind, text, at)
        value = formula.result()
        if value is None:
            raise refused(line, "Alias", f"{name} has no whole formula")
        header.aliases[name] = value


def read_acceptance(tokens, header):
    """A conjunction of `Inf(set)`, `t` and `f`, in brackets or not; all else is refused."""
    header.sets, line = tokens.integer(), tokens.before
    wanted, depth, is_false, due = [], 0, False, True
    while tokens.kind in ("sign", "identifier"):
        if tokens.text in ("(", ")"):
            if due != (tokens.text == "("):
                raise tokens.refused("Acceptance", "a bracket out of place")
            depth += 1 if tokens.text == "(" else -1
            tokens.next()
        elif not due and tokens.text == "&":
            due = True
            tokens.next()
        elif due and tokens.text in ("t", "f"):
            is_false, due = is_false or tokens.text == "f", False
            tokens.next()
        elif due and tokens.text == "Inf":
            wanted.append(read_inf(tokens, header.sets))
            due = False
        else:
            raise tokens.refused("Acceptance", f"{tokens.text}: only Büchi and generalised Büchi acceptance is read")
        if depth < 0:
            raise refused(line, "Acceptance", "a bracket out of place")
    if due or depth:
        raise refused(line, "Acceptance", "the condition is not whole")
    header.wanted = None if is_false else list(dict.fromkeys(wanted))


def read_inf(tokens, sets):
    """The number of the set of `Inf(set)`."""
    tokens.next()
    tokens.sign("(")
    if tokens.text == "!":
        raise tokens.refused("Acceptance", "Inf of what is not in a set")
    number = tokens.integer()
    if number >= sets:
        raise refused(tokens.before, "Acceptance", f"Inf({number}), of {counted(sets, 'set')}")
    tokens.sign(")")
    return number


READERS = {
    "States": read_states,
    "Start": read_start,
    "AP": read_propositions,
    "Alias": read_alias,
    "Acceptance": read_acceptance,
    "rabit-letters": read_letters,
}


# ---------------------------------------------------------------- labels


def take_label_token(formula, header, kind, text, line):
    """Hands one token of a label to the formula, or refuses it."""
    if kind == "sign" and text in "!&|()":
        fine = formula.operator(text)
    elif kind == "integer":
        if len(text) > 9 or int(text) >= len(header.propositions):
            raise refused(line, "Label", f"proposition {text[:20]}, and there are {len(header.propositions)}")
        fine = formula.operand(holding(int(text), len(header.propositions)))
    elif kind == "identifier" and text in ("t", "f"):
        fine = formula.operand(header.full if text == "t" else 0)
    elif kind == "alias":
        if text not in header.aliases:
            raise refused(line, "Alias", f"{text} is not told before")
        fine = formula.operand(header.aliases[text])
    else:
        fine = False
    if not fine:
        raise refused(line, "Label", f"{text} cannot stand there")


def read_label(tokens, header):
    """The set of letters of `[..]`, or None where no label stands here."""
    if tokens.text != "[":
        return None
    line, formula = tokens.line, Infix(header.full)
    tokens.next()
    while tokens.text != "]" and tokens.kind:
        take_label_token(formula, header, tokens.kind, tokens.text, tokens.line)
        tokens.next()
    tokens.sign("]")
    value = formula.result()
    if value is None:
        raise refused(line, "Label", "no whole formula")
    return value
