"""`import FILE [-o OUT.ba]`: automata of other formats as `.ba`."""
import re
import sys

from . import gff, hoa, lbt, never
from .automata import read_ba, write_ba
from .files import TEXT, Refusal, decoded, read_file, read_input, write_file
from .general import over_labels, over_more, to_ba
from .hoa_tokens import Tokens
from .letters import refused

COMMENTS = re.compile(r"(?:\s+|/\*.*?\*/|//[^\n]*|^[ \t]*#[^\n]*)*", re.DOTALL | re.MULTILINE)
STATES, TRANSITIONS = 2048, 65536  # what `include` takes as a first file


def without_mark(text):
    """The text without a byte order mark, which some editors put before it and none of the formats means."""
    return text[text.startswith("\ufeff") :]


def begins_hoa(text):
    """Whether the first token is HOA's, behind comments that may stand in one another."""
    try:
        return Tokens(text).text == "HOA:"
    except Refusal:
        return False


def format_of(text):
    """The format that the text seems to have: HOA, never, LBT, GFF or None."""
    text = without_mark(text)
    rest = text[COMMENTS.match(text).end() :]
    if rest.startswith("HOA:") or begins_hoa(text):
        return "HOA"
    if re.match(r"never\b[^,]*\{", rest):
        return "never"
    if re.match(r"\d+\s+\d+(?:s|t|st|ts)?(?:\s+\d+\s+[01]\s|\s*$)", text.lstrip()):
        return "LBT"
    if re.match(r"(?is)(?:<\?xml[^>]*>\s*)?(?:<!--(?:(?!-->).)*-->\s*)*<structure\b", text.lstrip()):
        return "GFF"
    return None


READERS = {"HOA": hoa.read, "never": never.read, "LBT": lbt.read, "GFF": gff.read}


def read_any(data):
    """The automaton of the bytes, a General, in whatever format they are. Refused with status 4 by line and name."""
    text = without_mark(decoded(data))
    kind = format_of(text)
    if kind not in READERS and is_ba(data):
        raise refused(1, "Format", "this is .ba already, which the commands read as it is")
    if kind not in READERS:
        raise refused(1, "Format", "neither HOA nor a never claim nor LBT's format nor GOAL's")
    return READERS[kind](text)


def is_ba(data):
    """Whether the bytes are a text in `.ba` with a transition."""
    try:
        return bool(read_ba(data).transitions)
    except Refusal:
        return False


def load_ba(name):
    """The automaton of the file, an automata.Automaton; what looks like another format is told of on standard error.

    Refused with status 4 or 6."""
    data = read_file(name)
    kind = format_of(decoded(data))
    if kind:
        print(f"rabit-tool: {name}: this looks like {kind}, which `rabit-tool import` makes .ba of", file=sys.stderr)
    return read_ba(data, name)


def imported(data, propositions=(), complete=False, labels=None):
    """The bytes as an automata.Automaton, over these propositions too, or over these labels; see general.to_ba.

    Refused with status 4."""
    general = read_any(data)
    if propositions:
        general = over_more(general, propositions)
    return to_ba(general if labels is None else over_labels(general, labels), complete)


def add_words(parser):
    """Adds the command's words to its parser."""
    parser.add_argument(
        "file", metavar="FILE", help="an automaton: HOA, a never claim, LBT's format or GOAL's; - is the standard input"
    )
    parser.add_argument("-o", "--output", metavar="OUT.ba", help="where the .ba text goes")
    parser.add_argument(
        "--ap", metavar="NAMES", default="", help="propositions, joined by commas, that the letters tell of too"
    )
    parser.add_argument(
        "--labels-of", metavar="A.ba", help="its labels are the letters: at each the proposition of its name holds"
    )
    parser.add_argument(
        "--complete", action="store_true", help="each letter gets a move out of each state, if only to a dead end"
    )


def run(args):
    """The command; its status is 0. Refused with status 4, 6 or 7."""
    data = read_input() if args.file == "-" else read_file(args.file)
    names = [name.strip() for name in args.ap.split(",") if name.strip()]
    labels = load_ba(args.labels_of).labels if args.labels_of else None
    try:
        automaton = imported(data, names, args.complete, labels)
    except Refusal as refusal:
        between = " " if refusal.text.startswith("line ") else ": "
        raise Refusal(args.file + between + refusal.text, TEXT) from None
    write_file(args.output, write_ba(automaton), [args.file, *([args.labels_of] if args.labels_of else [])])
    tell_limits(automaton)
    return 0


def tell_limits(automaton):
    """A note on standard error where `include` would not take the automaton."""
    states, moves = len(automaton.names), len(automaton.transitions)
    if states > STATES or moves > TRANSITIONS:
        print(f"rabit-tool: {states} states and {moves} transitions: more than `rabit include` takes", file=sys.stderr)
