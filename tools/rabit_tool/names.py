"""Names that look alike."""

ALIKE = str.maketrans("oOlIiSsZzB", "0011155228")
FRAMES = "[](){}<>'\"_- \t"


def near(name, other):
    """Whether the one name may stand for the other by a slip: signs that look alike, brackets, or one sign in five or
    more.

    Names that differ in digits alone are different names."""
    if name == other:
        return False
    if name.translate(ALIKE).lower() == other.translate(ALIKE).lower():
        return True
    if framed(name) == framed(other) != "":
        return True
    return min(len(name), len(other)) >= 5 and one_slip(name, other)


def framed(name):
    """The name without brackets, quotes, blanks and the like."""
    return "".join(sign for sign in name if sign not in FRAMES)


def one_slip(name, other):
    """Whether one sign that is no digit was left out, put in or exchanged, or two such were turned round."""
    if len(name) > len(other):
        name, other = other, name
    at = next((i for i, (a, b) in enumerate(zip(name, other)) if a != b), len(name))
    if len(name) < len(other):
        return not other[at].isdigit() and name[at:] == other[at + 1 :]
    if name[at + 1 :] == other[at + 1 :]:
        return not (name[at].isdigit() or other[at].isdigit())
    turned = name[at : at + 2] == other[at : at + 2][::-1] and name[at + 2 :] == other[at + 2 :]
    return turned and not any(sign.isdigit() for sign in name[at : at + 2])
