"""`draw A [CERT] [-o FILE.svg|png]`: an automaton as people draw it, with what a certificate says of it."""
import os
import subprocess

from .certificates import load
from .files import CERTIFICATE, MISSING, USAGE, Refusal, encoded, write_file
from .importing import load_ba
from .letters import cubes, letter_names, propositions_of, spelled
from .logs import element_lengths, element_words, taken
from .nouns import counted
from .runs import Lasso, accepting_run, word_run

PREFIX, LOOP, BOTH = "#c2410c", "#1d4ed8", "#c2410c:#1d4ed8"
LABELS, ROWS, STATES, SECONDS = 6, 24, 150, 60
GRAPH = [
    "digraph automaton {",
    '  rankdir=%s; bgcolor="white"; pad=0.2; fontname="Helvetica,Arial,sans-serif"; fontsize=12;',
    '  node [shape=circle, fontname="Helvetica,Arial,sans-serif", fontsize=12, margin=0.06];',
    '  edge [fontname="Helvetica,Arial,sans-serif", fontsize=11, arrowsize=0.7, color="#4b5563"];',
]


def quoted(text):
    """The text as a string of graphviz, in which nothing of it is a sign. What is not UTF-8 is shown as a mark."""
    shown = text.encode("utf-8", "replace").decode("utf-8").replace("\x00", "?").replace("&", "&amp;")
    return '"' + shown.replace("\\", "\\\\").replace('"', '\\"') + '"'


def markup(text):
    """The text inside a page."""
    shown = text.encode("utf-8", "replace").decode("utf-8")
    return shown.replace("&", "&amp;").replace("<", "&lt;").replace(">", "&gt;").replace('"', "&quot;")


def marked(text):
    """The text inside a label of graphviz that has marks: it puts names in the place of `\\N` and the like there too,
    and drops tabs."""
    return markup(text.replace("\\", "\\\\").replace("\t", " "))


def shortened(text, most=40):
    """The text, or its beginning where it is longer than `most`."""
    return text if len(text) <= most else text[: most - 1] + "…"


def labels_text(labels, propositions=None):
    """The labels of one arrow, one a line as far as six; letters over these propositions by conjunctions."""
    if propositions:
        numbers = {name: letter for letter, name in enumerate(letter_names(propositions))}
        found = cubes([numbers[label] for label in labels], len(propositions))
        spelling = [spelled(name) for name in propositions]
        labels = ["&".join(("" if holds else "!") + spelling[i] for i, holds in cube) or "true" for cube in found]
    shown = labels if len(labels) <= LABELS else [*labels[: LABELS - 1], f"… {len(labels) - LABELS + 1} more"]
    return "\n".join(shortened(label) for label in shown)


def line_text(text):
    """As `quoted`, with ends of lines as graphviz writes them."""
    return quoted(text).replace("\n", "\\n")


def state_line(automaton, state):
    """The line for graphviz that draws the state."""
    shown = shortened(automaton.names[state])
    style = ["shape=ellipse"] if len(shown) > 6 else []
    style += ["peripheries=2"] if state in automaton.accepting else []
    return f"  s{state} [" + ", ".join([f"label={quoted(shown)}", *style]) + "];"


def dot(automaton, run=None, caption=None, table=None, most=STATES, prefix=None):
    """The automaton as a text for graphviz: an arrow to the initial state, accepting states with two lines.

    A run has its first moves, as many as `prefix` says, in one colour, and those on the loop in another; without the
    number all are of the first colour. Above `most` states only those on it are drawn. `caption` is a list of lines
    below, `table` a list of rows of texts beside it, the first of them the head."""
    colours = coloured(run, prefix) if run else {}
    states = drawn_states(automaton, run, most)
    lines = [*head_lines(automaton, states), f"  start -> s{automaton.initial};"]
    lines += [state_line(automaton, state) for state in states]
    groups, kept, propositions = {}, set(states), propositions_of(automaton.labels)
    for move in automaton.transitions:
        if move[0] in kept and move[2] in kept:
            groups.setdefault((move[0], move[2], colours.get(move)), []).append(automaton.labels[move[1]])
    loops = {source: {} for source, target, _ in groups if source == target}
    for (source, target, colour), labels in groups.items():
        text = labels_text(labels, None if colour else propositions)
        if source == target:
            loops[source][colour] = text
        else:
            lines.append(f"  s{source} -> s{target} [label={line_text(text)}{style_text(colour)}];")
    lines += [loop_line(state, texts) for state, texts in loops.items()]
    notes = list(caption or [])
    if len(states) < len(automaton.names):
        notes.append(marked(f"drawn: {len(states)} of {counted(len(automaton.names), 'state')}"))
    if notes:
        lines.append('  labelloc=b; labeljust=l; label=<' + '<br align="left"/>'.join([*notes, ""]) + ">;")
    if table:
        lines.append(f"  {{ rank=sink; table [shape=plain, label=<{table_text(table)}>]; }}")
    return "\n".join([*lines, "}", ""])


def head_lines(automaton, states):
    """The lines that begin a drawing of these states. Long names side by side would make a picture that no screen has
    the width for, so then it goes downwards."""
    is_wide = len(states) > 8 and max(len(automaton.names[state]) for state in states) > 12
    start = "  start [shape=point, style=invis, width=0]; "
    return [GRAPH[0], GRAPH[1] % ("TB" if is_wide else "LR"), *GRAPH[2:], start]


def style_text(colour):
    """The style of an arrow that a run takes, in this colour, or of none."""
    return f', color="{colour}", fontcolor="{colour.split(":")[0]}", penwidth=2' if colour else ""


def loop_line(state, texts):
    """The one arrow from the state to itself, of which the texts of the labels are given by colour: a second arrow
    would run through the labels of the first."""
    colours = dict.fromkeys(part for colour in texts if colour for part in colour.split(":"))
    if len(texts) == 1:
        return f"  s{state} -> s{state} [label={line_text(*texts.values())}{style_text(*texts)}];"
    parts = sorted(texts.items(), key=lambda part: part[0] is None)
    shown = [
        f'<font color="{colour.split(":")[0]}">{marked(line)}</font>' if colour else marked(line)
        for colour, text in parts
        for line in text.split("\n")
    ]
    return f"  s{state} -> s{state} [label=<{'<br/>'.join(shown)}>, color=\"{':'.join(colours)}\", penwidth=2];"


def drawn_states(automaton, run, most):
    """All states, or where they are more than `most` those of the run."""
    if len(automaton.names) <= most or not run:
        return list(range(len(automaton.names)))
    moves = run.stem + run.cycle
    return sorted({automaton.initial, *(p for p, _, _ in moves), *(q for _, _, q in moves)})


def coloured(run, prefix=None):
    """By transition of the run its colour: the first moves are the prefix's, the others the loop's, some are both's."""
    moves = run.stem + run.cycle
    early, late = (set(moves), set()) if prefix is None else (set(moves[:prefix]), set(moves[prefix:]))
    return {move: BOTH if move in early & late else LOOP if move in late else PREFIX for move in early | late}


def table_text(rows):
    """The table of graphviz with these rows, lists of texts; the first row is the head."""
    cells = ["".join(f'<td align="left">{marked(shortened(cell))}</td>' for cell in row) for row in rows]
    head = cells[0].replace('<td align="left">', '<td align="left" bgcolor="#e5e7eb">')
    body = "".join(f"<tr>{row}</tr>" for row in [head, *cells[1:]])
    return f'<table border="0" cellborder="1" cellspacing="0" cellpadding="4" color="#9ca3af">{body}</table>'


def word_text(automaton, labels):
    """The labels of a word joined by commas, as far as forty of them."""
    named = [automaton.labels[label] for label in labels[:40]]
    return ",".join(named + (["…"] if len(labels) > 40 else [])) or "(empty)"


# ---------------------------------------------------------------- certificates


def drawn_with(automaton, found, name, most=STATES):
    """The text for graphviz of the first automaton with what its certificate says. Refused with status 5 where they
    don't fit."""
    if found["sizes"][0] != len(automaton.names):
        raise Refusal(f"{name}: is about a first automaton of {counted(found['sizes'][0], 'state')}", CERTIFICATE)
    if found["kind"] == "cross":
        return dot(automaton, table=cross_table(automaton, found))
    if found["form"] == "no":
        return with_run(automaton, found, name, most)
    return dot(
        automaton, caption=[marked(text) for text in summary(found)], table=element_table(automaton, found, name)
    )


def with_run(automaton, found, name, most):
    """As `drawn_with`, of a no: the automaton with an accepting run on what the certificate names."""
    words = [found[part] for part in ("prefix", "loop", "word") if part in found]
    if any(label >= len(automaton.labels) for word in words for label in word):
        run = None
    else:
        run = accepting_run(automaton, Lasso(*words)) if "loop" in found else word_run(automaton, words[0])
    if not run:
        raise Refusal(f"{name}: the automaton has no accepting run on what the certificate names", CERTIFICATE)
    parts = (("prefix", PREFIX), ("loop", LOOP)) if "loop" in found else (("word", PREFIX),)
    caption = [
        f'<font color="{colour}"><b>{part}:</b>&#160;{marked(word_text(automaton, found[part]))}</font>'
        for part, colour in parts
    ]
    prefix = len(words[0]) if "loop" in found else None
    if BOTH in coloured(run, prefix).values():
        caption.append("a move of both has both colours, its label that of the prefix")
    return dot(automaton, run, caption, most=most, prefix=prefix)


def cross_table(automaton, found):
    """The rows of the table of a cross relation, the first of them the head."""
    rows = [["state of the first", "states of the second (numbers)"]]
    for left, rights in found["rows"][:ROWS]:
        shown = automaton.names[left] if left < len(automaton.names) else str(left)
        rows.append([shown, " ".join(map(str, rights))])
    return rows + more_row(len(found["rows"]), 2)


def more_row(count, columns):
    """The rows that tell how many are left out of a table of so many columns: one or none."""
    return [[f"… {count - ROWS} more", *[""] * (columns - 1)]] if count > ROWS else []


def summary(found):
    """The lines below the drawing of a yes or of a list."""
    elements, live = counted(len(found["elements"]), "element"), sum(mark is None for mark, _ in found["elements"])
    if found["form"] == "list":
        return [f"limit {found['limit']}: {elements}, and nothing is decided"]
    return [f"included: {elements}, {live} of them live"]


def element_table(automaton, found, name):
    """The live elements, or of a list all, with their words, and where they lead in the reduced first automaton."""
    reduced = taken(automaton, found["first"], name)[-1]
    chosen = [number for number, (mark, _) in enumerate(found["elements"]) if mark is None]
    try:
        element_lengths(found["elements"])
        words = element_words(found["elements"], reduced.transitions, chosen[: ROWS + 1][-1] + 1 if chosen else 0)
    except (ValueError, IndexError):
        raise Refusal(f"{name}: an element names what is not there", CERTIFICATE) from None
    rows = [["element", "word", "from", "to"]]
    for number in chosen[:ROWS]:
        moves = [reduced.transitions[t] for t in words[number]]
        start, end = (moves[0][0], moves[-1][2]) if moves else (reduced.initial, reduced.initial)
        word = word_text(reduced, [label for _, label, _ in moves])
        rows.append([str(number), word, reduced.names[start], reduced.names[end]])
    return rows + more_row(len(chosen), 4)


# ---------------------------------------------------------------- graphviz


def pictured(text, kind, seconds=SECONDS):
    """What graphviz makes of its text, bytes of the kind svg or png. Refused with status 9 where it is not there or
    fails."""
    try:
        done = subprocess.run(
            ["dot", f"-T{kind}"],
            input=encoded(text),
            stdout=subprocess.PIPE,
            stderr=subprocess.PIPE,
            timeout=seconds,
            check=False,
        )
    except OSError:
        raise Refusal(
            "graphviz is not there (Debian: apt-get install graphviz); `export --dot` needs none", MISSING
        ) from None
    except subprocess.TimeoutExpired:
        raise Refusal(f"graphviz did not come to an end within {seconds} seconds", MISSING) from None
    if done.returncode or not done.stdout:
        raise Refusal(f"graphviz: {done.stderr.decode(errors='replace').strip()}", MISSING)
    return done.stdout


def add_words(parser):
    """Adds the command's words to its parser."""
    parser.add_argument("file", metavar="A", help="an automaton, .ba")
    parser.add_argument(
        "certificate", metavar="CERT", nargs="?", help="a certificate or a cross file of which A is the first"
    )
    parser.add_argument(
        "-o", "--output", metavar="FILE", help="FILE.svg or FILE.png; without it SVG goes to the output"
    )


def run(args):
    """The command; its status is 0. Refused with status 3, 4, 5, 6, 7 or 9."""
    kind = os.path.splitext(args.output)[1].lower() if args.output else ".svg"
    if kind not in (".svg", ".png"):
        raise Refusal(f"{args.output}: neither .svg nor .png", USAGE)
    automaton = load_ba(args.file)
    text = drawn_with(automaton, load(args.certificate), args.certificate) if args.certificate else dot(automaton)
    write_file(args.output, pictured(text, kind[1:]), [args.file, args.certificate or args.file])
    return 0
