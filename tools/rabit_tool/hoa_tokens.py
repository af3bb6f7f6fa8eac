"""The tokens of an HOA text, with their lines."""
import re

from .letters import refused

KINDS = (
    ("mark", r"--(?:BODY|END|ABORT)--"),
    ("string", r'"(?:[^"\\]|\\.)*"'),
    ("header", r"[A-Za-z_][0-9A-Za-z_.-]*:"),
    ("identifier", r"[A-Za-z_][0-9A-Za-z_.-]*"),
    ("alias", r"@[0-9A-Za-z_-]+"),
    ("integer", r"[0-9]+"),
    ("sign", r"[][{}()&|!]"),
)
PATTERN = re.compile("|".join(f"(?P<{kind}>{pattern})" for kind, pattern in KINDS), re.DOTALL)
BLANK, COMMENT = re.compile(r"[ \t\r\n\v\f]+"), re.compile(r"/\*|\*/")


class Tokens:
    """The token at hand: `kind` (None at the end), `text` and `line`; `before` is the line of the token that was
    taken last."""

    def __init__(self, source):
        self.source, self.at, self.line, self.before = source, 0, 1, 1
        self.kind = self.text = None
        self.next()

    def refused(self, name, detail):
        """The refusal at the line of the token at hand."""
        return refused(self.line, name, detail)

    def skip(self, end):
        """Goes on to this place of the text."""
        self.line += self.source.count("\n", self.at, end)
        self.at = end

    def skip_blanks(self):
        """Passes over blanks and comments, which may stand in one another."""
        while True:
            blank = BLANK.match(self.source, self.at)
            if blank:
                self.skip(blank.end())
            if not self.source.startswith("/*", self.at):
                return
            line, depth = self.line, 0
            while True:
                sign = COMMENT.search(self.source, self.at)
                if not sign:
                    raise refused(line, "Truncated", "a comment without an end")
                depth += 1 if sign.group() == "/*" else -1
                self.skip(sign.end())
                if depth == 0:
                    break

    def next(self):
        """Goes on to the next token."""
        self.before = self.line
        if self.text is not None:
            self.skip(self.at + len(self.text))
        self.skip_blanks()
        if self.at == len(self.source):
            self.kind, self.text = None, ""
            return
        found = PATTERN.match(self.source, self.at)
        if not found:
            raise self.refused("Shape", f"{self.source[self.at]!r} cannot stand there")
        self.kind, self.text = found.lastgroup, found.group()

    def take(self, kind):
        """The token's text, which is of the kind, or is the mark where that is given; goes on."""
        if kind != (self.text if kind.startswith("--") else self.kind):
            if self.kind is None:
                raise self.refused("Truncated", f"the text ends before {kind}")
            raise self.refused("Shape", f"{self.text} in place of {kind}")
        text = self.text
        self.next()
        return text

    def sign(self, text):
        """Takes this sign."""
        if self.kind != "sign" or self.text != text:
            what = "the text ends" if self.kind is None else self.text
            raise self.refused("Truncated" if self.kind is None else "Shape", f"{what} in place of {text}")
        self.next()

    def integer(self):
        """The number of the token, which is taken."""
        if self.kind == "integer" and len(self.text) > 9:
            raise self.refused("Number", "more than nine digits")
        return int(self.take("integer"))

    def string(self):
        """The string without its quotes and with the characters that stand behind a backslash."""
        return re.sub(r"\\(.)", r"\1", self.take("string")[1:-1], flags=re.DOTALL)
