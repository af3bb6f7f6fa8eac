"""Formulas over propositions as sets of letters: infix (HOA, never claims) and prefix (LBT). Nothing recurs, however
deep."""
from .letters import every, refused

BINDING = {"|": 1, "&": 2, "!": 3}


class Infix:
    """Reads a formula token by token: `operand(set)` and `operator(sign)` in the order of the text, then `result()`.

    The signs are ! & | ( ). Each call gives False where the formula cannot go on so."""

    def __init__(self, full):
        self.full, self.values, self.signs, self.due = full, [], [], True

    def operand(self, letters):
        """Takes a set of letters."""
        if not self.due:
            return False
        self.values.append(letters)
        self.due = False
        return True

    def operator(self, sign):
        """Takes a sign."""
        if sign in ("!", "("):
            if self.due:
                self.signs.append(sign)
            return self.due
        if self.due:
            return False
        if sign == ")":
            while self.signs and self.signs[-1] != "(":
                self.apply()
            return bool(self.signs and self.signs.pop())
        while self.signs and BINDING.get(self.signs[-1], 0) >= BINDING[sign]:
            self.apply()
        self.signs.append(sign)
        self.due = True
        return True

    def is_open(self):
        """Whether a bracket is open."""
        return "(" in self.signs

    def apply(self):
        """Puts the value of the last sign, and of what it stands with, in their place."""
        sign = self.signs.pop()
        value = self.values.pop()
        if sign == "!":
            self.values.append(self.full & ~value)
        elif sign == "&":
            self.values.append(self.values.pop() & value)
        else:
            self.values.append(self.values.pop() | value)

    def result(self):
        """The set of letters, or None where the formula is not whole."""
        if self.due or self.is_open():
            return None
        while self.signs:
            self.apply()
        return self.values.pop()


PREFIX = {"!": 1, "&": 2, "|": 2, "i": 2, "e": 2, "^": 2}


def prefix(tokens, atom, count):
    """The set of letters of the formula that begins the iterator of tokens, which is taken just so far; its `line` is
    where it is.

    `atom(token)` gives the set of a proposition or None. Refused at the line of what is no formula, or where the
    tokens end."""
    full, waiting = every(count), []
    for token in tokens:
        if token in PREFIX:
            waiting.append((token, []))
            continue
        value = {"t": full, "f": 0}.get(token)
        value = atom(token) if value is None else value
        if value is None:
            raise refused(tokens.line, "Label", f"{token} is no formula")
        while waiting:
            sign, got = waiting[-1]
            got.append(value)
            if len(got) < PREFIX[sign]:
                break
            waiting.pop()
            value = applied(sign, got, full)
        if not waiting:
            return value
    raise refused(tokens.line, "Truncated", "a formula is not whole")


def applied(sign, values, full):
    """The set of letters in which the sign's formula holds over those of its parts."""
    first, last = values[0], values[-1]
    if sign == "!":
        return full & ~first
    if sign == "&":
        return first & last
    if sign == "|":
        return first | last
    if sign == "i":
        return full & ~first | last
    return full & ~(first ^ last) if sign == "e" else first ^ last
