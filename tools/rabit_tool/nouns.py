"""Numbers with their nouns."""


def counted(number, noun):
    """The number with its noun, which gets an s after all numbers but 1."""
    return f"{number} {noun}" if number == 1 else f"{number} {noun}s"
