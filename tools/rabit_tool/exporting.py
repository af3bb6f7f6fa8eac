"""`export A [--hoa|--dot]`: an automaton as HOA, or as a text for graphviz."""
from .drawing import dot
from .files import TEXT, Refusal, encoded, write_file
from .importing import load_ba
from .letters import PROPOSITIONS, cubes, letter_names, propositions_of

LABELS = 1 << PROPOSITIONS


def quoted(text):
    """The text as a string of HOA."""
    return '"' + text.replace("\\", "\\\\").replace('"', '\\"') + '"'


def formula(letters, count):
    """The formula of the letters, numbers over so many propositions."""
    found = cubes(letters, count)
    if [] in found:
        return "t"
    return " | ".join("&".join(("" if holds else "!") + str(i) for i, holds in cube) for cube in found)


def hoa(automaton):
    """The automaton as the text of HOA, with the names of its states. `import` gives its labels back too.

    Labels that are letters over propositions are written as such. Others are numbered, and each number is written in
    binary by propositions of its own, with the labels' names in a header that others pass over. Refused past 256
    labels."""
    labels, names = automaton.labels, propositions_of(automaton.labels)
    if names is None:
        if len(labels) > LABELS:
            raise Refusal(f"{len(labels)} labels, and HOA would have at most {LABELS}", TEXT)
        names = [f"bit{i}" for i in range((len(labels) - 1).bit_length())]
        letters, header = list(range(len(labels))), ["rabit-letters: " + " ".join(map(quoted, labels))]
    else:
        numbers, header = {text: letter for letter, text in enumerate(letter_names(names))}, []
        letters = [numbers[label] for label in labels]
    lines = ["HOA: v1", f"States: {len(automaton.names)}", f"Start: {automaton.initial}"]
    lines += [" ".join([f"AP: {len(names)}", *map(quoted, names)]), "acc-name: Buchi", "Acceptance: 1 Inf(0)"]
    lines += ["properties: trans-labels explicit-labels state-acc", *header, "--BODY--"]
    for state, name in enumerate(automaton.names):
        lines.append(f"State: {state} {quoted(name)}" + (" {0}" if state in automaton.accepting else ""))
        targets = {}
        for label, target in automaton.moves[state]:
            targets.setdefault(target, []).append(letters[label])
        lines += [f"[{formula(sorted(found), len(names))}] {target}" for target, found in sorted(targets.items())]
    return "\n".join([*lines, "--END--", ""])


def add_words(parser):
    """Adds the command's words to its parser."""
    parser.add_argument("file", metavar="A", help="an automaton, .ba")
    ways = parser.add_mutually_exclusive_group()
    ways.add_argument("--hoa", action="store_true", help="as HOA (the usual)")
    ways.add_argument("--dot", action="store_true", help="as a text for graphviz")
    parser.add_argument("-o", "--output", metavar="FILE", help="where it goes in place of the output")


def run(args):
    """The command; its status is 0. Refused with status 4, 6 or 7."""
    automaton = load_ba(args.file)
    text = dot(automaton) if args.dot else hoa(automaton)
    write_file(args.output, encoded(text), [args.file])
    return 0
