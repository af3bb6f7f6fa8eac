"""Letters that are sets of propositions: their numbers, sets and names, and the formulas that tell them."""
import re

from .automata import NAME_BYTES
from .files import TEXT, Refusal, decoded, encoded

PROPOSITIONS = 8
HARD = b"%&!,"  # what a proposition's name in a letter has only as a code, as it has -> and blanks at its ends
LITERAL = re.compile(r"(!?)([^!&]+)")


def refused(line, name, detail):
    """The refusal of a text of another format: its line, which is not told where it is 0, since the whole is refused;
    the name of what is refused, and why."""
    return Refusal((f"line {line}: " if line else "") + f"{name}: {detail}", TEXT)


def every(count):
    """The set of all letters over so many propositions."""
    return (1 << (1 << count)) - 1


def holding(proposition, count):
    """The set of the letters, over so many propositions, in which this one holds."""
    return sum(1 << letter for letter in range(1 << count) if letter >> proposition & 1)


def members(letters):
    """The letters in the set, ascending."""
    return [letter for letter in range(letters.bit_length()) if letters >> letter & 1]


# ---------------------------------------------------------------- names


def spelled(proposition):
    """The name of a proposition as a letter has it: what `.ba` or a reader would take for something else is a code
    %XX."""
    data = encoded(proposition)
    ends = (0, len(data) - 1)

    def is_odd(at, byte):
        if byte < 0x20 or byte == 0x7F or byte in HARD:
            return True
        return byte == 0x20 and at in ends or data[at - 1 : at + 1] == b"->"

    return decoded(b"".join(b"%%%02X" % byte if is_odd(at, byte) else bytes([byte]) for at, byte in enumerate(data)))


def letter_names(propositions):
    """The name of each letter, a list: all propositions in the order of their names, with ! before those that don't
    hold.

    Over no proposition the one letter is `t`. Refused where a name would have more than 255 bytes."""
    order = sorted(range(len(propositions)), key=lambda i: encoded(propositions[i]))
    texts = [spelled(name) or "%" for name in propositions]
    made = [
        "&".join(("" if letter >> i & 1 else "!") + texts[i] for i in order) or "t" for letter in range(1 << len(order))
    ]
    if max(len(encoded(name)) for name in made) > NAME_BYTES:
        raise refused(0, "LetterLong", "the names of the propositions give a letter more than 255 bytes")
    return made


def propositions_of(labels):
    """The propositions of which the labels are letters, spelled as `import` spells them, or None."""
    if list(labels) in ([], ["t"]):
        return []
    literals = [LITERAL.fullmatch(text) for text in labels[0].split("&")]
    if len(literals) > PROPOSITIONS or not all(literals):
        return None
    try:
        names = [unspelled(literal.group(2)) for literal in literals]
        return names if len(set(names)) == len(names) and set(labels) <= set(letter_names(names)) else None
    except (ValueError, Refusal):  # no code of a byte, or a letter that would be too long
        return None


def unspelled(text):
    """The proposition that a letter has as this text. Raises ValueError where none has it."""
    if text == "%":
        return ""
    data = re.sub(rb"%(..)", lambda found: bytes([int(found.group(1), 16)]), encoded(text), flags=re.DOTALL)
    return decoded(data)


# ---------------------------------------------------------------- formulas


def cubes(letters, count):
    """The letters, numbers over so many propositions, as conjunctions that together hold in just these.

    Each is a list of (proposition, whether it holds); the empty one holds in all."""
    wanted = sum(1 << letter for letter in set(letters))
    left, found = wanted, []
    while left:
        letter = (left & -left).bit_length() - 1
        covered, literals = 1 << letter, []
        for proposition in range(count):
            holds = letter >> proposition & 1
            other = covered >> (1 << proposition) if holds else covered << (1 << proposition)
            if other & ~wanted:
                literals.append((proposition, bool(holds)))
            else:
                covered |= other
        found.append(literals)
        left &= ~covered
    return found
