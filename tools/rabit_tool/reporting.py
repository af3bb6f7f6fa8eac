"""`report DIR [-o FILE.html]`: a page of what `many` left."""
import os
import re
import sys

from .automata import join, read_ba
from .certificates import load
from .drawing import pictured, with_run
from .explaining import no_text, told_no
from .files import USAGE, Refusal, decoded, encoded, read_file, write_file
from .nouns import counted
from .page import kind_of, page
from .results import QUESTIONS, TABLE, loaded

STATES, TOGETHER, DRAWN = 16, 20, 500


def told_row(results, task, row, drawn):
    """The text for graphviz (or None) and the text of a counterexample; where it cannot be told, why."""
    names = [os.path.join(task["folder"], row[column]) for column in ("first", "second")]
    path = results.certificate(row["number"])
    try:
        first, second = (read_ba(read_file(name), name) for name in names)
        found = load(path)
        if found["kind"] != "certificate" or found["form"] != "no":
            raise Refusal(f"{path}: no counterexample", 5)
        told = told_no(first, join(first, second), found)
        return with_run(first, found, path, STATES) if drawn else None, "\n".join(no_text(told))
    except Refusal as refusal:
        return None, f"not told: {refusal.text}"


def cleaned(svg):
    """A drawing without what a page has no use for: its head, comments, titles and names, which would stand there
    many times."""
    svg = svg[svg.index("<svg") :]
    svg = re.sub(r"<!--.*?-->\s*|<title>.*?</title>\s*", "", svg, flags=re.DOTALL)
    return re.sub(r' (?:id|class|xmlns(?::xlink)?)="[^"]*"', "", svg)


def drawings(texts):
    """The drawings of the texts, in order, and why some are missing, or None; graphviz draws twenty at a time."""
    made, problem = [], None
    for at in range(0, len(texts), TOGETHER):
        some = texts[at : at + TOGETHER]
        try:
            svgs = decoded(pictured("".join(some), "svg")).split("</svg>")[:-1]
        except Refusal as refusal:
            svgs, problem = [], refusal.text
        if len(svgs) != len(some):
            made += [None] * len(some)
            problem = problem or "graphviz did not draw all"
        else:
            made += [cleaned(svg) + "</svg>" for svg in svgs]
    return made, problem


def report(folder, drawn=DRAWN):
    """The page as a text, and what is to be told of it on standard error, a list. Refused with status 4 or 6."""
    results, task = loaded(folder)
    rows = [results.rows[number] for number in sorted(results.rows)]
    refuted = [row for row in rows if kind_of(row) == "no"]
    told = [told_row(results, task, row, at < drawn) for at, row in enumerate(refuted)]
    pictures, problem = drawings([text for text, _ in told if text])
    pictures = iter(pictures)
    chosen = [(row, next(pictures) if text else None, words) for row, (text, words) in zip(refuted, told)]
    notes = [f"not drawn: {problem}"] if problem else []
    if len(refuted) > drawn:
        notes.append(f"told and not drawn: {counted(len(refuted) - drawn, 'counterexample')}; --drawn N draws more")
    missing = len(task["questions"]) - len(rows)
    command = "rabit " + " ".join(task["command"])
    line = f"{command}; {len(rows)} of {counted(len(task['questions']), 'question')}" + (
        f", {missing} left" if missing else ""
    )
    return page(f"Questions of {os.path.basename(os.path.abspath(folder))}", line, rows, chosen), notes


def add_words(parser):
    """Adds the command's words to its parser."""
    parser.add_argument("folder", metavar="DIR", help="what many left")
    parser.add_argument("-o", "--output", metavar="FILE.html", help="where the page goes (DIR/report.html)")
    parser.add_argument(
        "--drawn", type=int, metavar="N", default=DRAWN, help="how many counterexamples are drawn at most (500)"
    )


def run(args):
    """The command; its status is 0. Refused with status 3, 4, 6 or 7."""
    if args.drawn < 0:
        raise Refusal("--drawn takes a number from 0 on", USAGE)
    text, notes = report(args.folder, args.drawn)
    kept = [os.path.join(args.folder, name) for name in (TABLE, QUESTIONS)]
    write_file(args.output or os.path.join(args.folder, "report.html"), encoded(text), kept)
    for note in notes:
        print(f"rabit-tool: {note}", file=sys.stderr)
    return 0
