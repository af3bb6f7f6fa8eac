"""The words of the command line."""
import argparse
import importlib
import pathlib
import sys

from .files import USAGE, WRITE, Refusal, encoded

COMMANDS = {
    "import": ("importing", "an automaton of another format as .ba"),
    "export": ("exporting", "an automaton as HOA or for graphviz"),
    "lint": ("linting", "what texts mean that look like a slip"),
    "draw": ("drawing", "an automaton as a picture, with a certificate in it"),
    "explain": ("explaining", "a certificate, told"),
    "many": ("many", "a list of questions, side by side"),
    "report": ("reporting", "a page of what many left"),
}


class Words(argparse.ArgumentParser):
    """A parser that refuses where argparse would end the process."""
    def error(self, message):
        """Refuses the words with status 3."""
        raise Refusal(f"{self.format_usage()}rabit-tool: {message}", USAGE)


def parser_of(name):
    """The parser of a command's words, and its module."""
    module = importlib.import_module(f".{COMMANDS[name][0]}", __package__)
    parser = Words(prog=f"rabit-tool {name}", description=COMMANDS[name][1], allow_abbrev=False)
    module.add_words(parser)
    return parser, module


def version():
    """The line that tells the version: that of the program beside which the tool was made."""
    here = pathlib.Path(__file__).resolve().parent.parent
    for path in (here.parent / "VERSION", here / "VERSION", here.parent.parent / "lib" / "rabit" / "VERSION"):
        if path.is_file():
            return "rabit-tool " + path.read_text(encoding="utf-8").strip()
    return "rabit-tool (of no version that is told)"


def usage():
    """The text that names the commands."""
    lines = [f"  {name:8} {COMMANDS[name][1]}" for name in COMMANDS]
    lines += ["  help     this, or with a command's name its words", "  --version"]
    return "\n".join(["usage: rabit-tool COMMAND ..  (--help after a command tells its words)", *lines])


def say(text, file):
    """Prints the text and an end of line, with bytes that are not UTF-8 as they are, and tells whether that was taken."""
    if file is None:
        return False
    try:
        file.flush()
        file.buffer.write(encoded(text) + b"\n")
        file.flush()
    except BrokenPipeError:
        raise
    except OSError:
        return False
    return True


def main(words):
    """Carries out the command and gives its status; what is refused is told on standard error."""
    try:
        if words == ["--version"]:
            return 0 if say(version(), sys.stdout) else WRITE
        if len(words) == 2 and words[0] == "help" and words[1] in COMMANDS:
            return 0 if say(parser_of(words[1])[0].format_help().rstrip("\n"), sys.stdout) else WRITE
        if not words or words[0] not in COMMANDS:
            is_help = words[:1] in (["--help"], ["-h"], ["help"])
            is_said = say(usage(), sys.stdout if is_help else sys.stderr)
            return USAGE if not is_help else 0 if is_said else WRITE
        parser, module = parser_of(words[0])
        return module.run(parser.parse_args(words[1:]))
    except Refusal as refusal:
        say(refusal.text if refusal.text.startswith("usage: ") else f"rabit-tool: {refusal.text}", sys.stderr)
        return refusal.status
    except MemoryError:
        say("rabit-tool: out of memory", sys.stderr)
        return 8
    except BrokenPipeError:
        if sys.stderr is not None:
            sys.stderr.close()
        return 7
    except KeyboardInterrupt:
        return 130
