"""`explain A B CERT [--json]`: what a certificate says, told with the names of the automata."""
import json

from .automata import join
from .certificates import load
from .files import CERTIFICATE, MISSING, READ, TEXT, Refusal, encoded, write_file
from .importing import load_ba
from .logs import element_lengths, taken
from .nouns import counted
from .program import ask, find_program
from .runs import Lasso, accepting_run, rejection, word_rejection, word_run

SETS, SHOWN = 64, 12
SAID = {0: "included", 1: "not included", 2: "limit "}  # what a check prints first, by its status


def verdict_of(program, names, kind):
    """The text and the status of the program's check. Refused with the program's status where it refuses."""
    status, printed = ask(program, ["cross-check" if kind == "cross" else "check", *names])
    # (a program that is none of ours may end with these statuses too)
    if status not in SAID or not printed.startswith(SAID[status]):
        raise Refusal(
            f"{printed.strip() or 'the program ends with status ' + str(status)}: nothing can be told",
            MISSING if status in SAID else told_status(status),
        )
    return printed.split("\n", 1)[0], status


def told_status(status):
    """The status of the tool for one of the program."""
    return status if status in (TEXT, CERTIFICATE, READ) else CERTIFICATE


def explain(names, program):
    """What the certificate of the names (A, B, CERT) says, a dictionary of plain values, once the program has said
    that it is valid: `verdict` with that text, and see `told_no`, `told_yes` and `told_cross`. Refused with status 4,
    5, 6 or 9."""
    first, second = (load_ba(name) for name in names[:2])
    found = load(names[2])
    verdict, _ = verdict_of(program, names, found["kind"])
    second = join(first, second)
    told = {"verdict": verdict, "files": list(names), "first": sizes(first), "second": sizes(second)}
    if found["kind"] == "cross":
        told.update(told_cross(found))
    elif found["form"] == "no":
        told.update(told_no(first, second, found))
    else:
        told.update(told_yes(first, second, found, names[2]))
    return told


def sizes(automaton):
    """How large the automaton is, a dictionary of numbers."""
    return {
        "states": len(automaton.names), "transitions": len(automaton.transitions), "accepting": len(automaton.accepting)
    }


# ---------------------------------------------------------------- a no


def told_no(first, second, found):
    """Of a no: `prefix` and `loop`, or `word` (lists of labels); `run`, the first automaton's; `rejected`, why the
    second has none.

    A run is {stem, cycle}, lists of [state, label, target]. What is rejected is {sets, ends}, a list of lists of
    states (after each letter, as far as 64) and whether the last is empty, and of lassos {turning, met}: the states
    in which runs go round for ever, and the accepting states that runs come to."""
    words = [found[part] for part in ("prefix", "loop", "word") if part in found]
    if any(label >= len(second.labels) for word in words for label in word) or found.get("loop") == []:
        raise Refusal("the certificate is not about these automata", CERTIFICATE)
    if "loop" in found:
        lasso = Lasso(*words)
        run, other, why = accepting_run(first, lasso), accepting_run(second, lasso), rejection(second, lasso)
    else:
        run, other, why = word_run(first, words[0]), word_run(second, words[0]), word_rejection(second, words[0])
    if run is None or other is not None:
        raise Refusal("the certificate is not about these automata", CERTIFICATE)
    told = {
        part: [second.labels[label] for label in found[part]] for part in ("prefix", "loop", "word") if part in found
    }
    told["run"] = {"stem": named_moves(first, run.stem), "cycle": named_moves(first, run.cycle)}
    told["run"]["accepting"] = sorted(
        {first.names[p] for p, _, _ in run.cycle if p in first.accepting} or {first.names[run.state]}
    )
    told["rejected"] = {
        "sets": [named(second, states) for states in why.sets[:SETS]],
        "letters": len(why.sets) - 1,
        "ends": why.ends,
        "turning": named(second, why.turning),
        "met": named(second, why.met),
    }
    return told


def named(automaton, states):
    """The names of the states, in the order of their numbers."""
    return [automaton.names[state] for state in sorted(states)]


def named_moves(automaton, moves):
    """The transitions as a list of [state, label, state], by names."""
    return [[automaton.names[p], automaton.labels[label], automaton.names[q]] for p, label, q in moves]


# ---------------------------------------------------------------- a yes, a list, a cross relation


def told_yes(first, second, found, name):
    """Of a yes or a list: `reduced`, for each of the two a list of {step, before, after} with the sizes; `elements`,
    `live`, and `longest`, the letters of the longest word of an element; of a yes `order`, the pairs; of a list
    `limit`."""
    told = {"version": found["version"], "mode": found["mode"], "reduced": {}}
    for which, automaton in (("first", first), ("second", second)):
        after = taken(automaton, found[which], name)
        told["reduced"][which] = [
            {"step": step_text(step), "before": sizes(before), "after": sizes(later)}
            for step, before, later in zip(found[which], after, after[1:])
        ]
    lengths = element_lengths(found["elements"])
    told["elements"], told["longest"] = len(lengths), max(lengths, default=0)
    if found["form"] == "yes":
        told["live"] = sum(mark is None for mark, _ in found["elements"])
        told["order"] = sum(len(rights) for _, rights in found["order"])
    else:
        told["limit"] = found["limit"]
    return told


PAIRS = {
    1: "from the same state, to a state that a better one stands in for",
    2: "to the same state, from a state that a better one stands in for",
    3: "with a target that a better one stands in for",
    4: "with a source that a better one stands in for",
}


def step_text(step):
    """What a step of a log does, in words."""
    if step["step"] == "trim":
        return "states left out that no accepted word needs"
    if step["step"] == "merge":
        by = step["by"]
        return f"states merged that a {by.split()[0]} relation holds equal" if by else "states merged"
    what = PAIRS[step["pair"]] if "pair" in step else "that others stand in for"
    return f"{len(step['gone'])} transition{'' if len(step['gone']) == 1 else 's'} cut {what}"


def told_cross(found):
    """Of a cross relation: `look`, `rows` and `pairs`."""
    pairs = sum(len(rights) for _, rights in found["rows"])
    return {"look": found["look"], "rows": len(found["rows"]), "pairs": pairs}


# ---------------------------------------------------------------- as text


def text_of(told):
    """The lines of the text that tells what `explain` gave."""
    lines = [told["verdict"], "", f"A: {size_text(told['first'])}", f"B: {size_text(told['second'])}", ""]
    if "run" in told:
        return lines + no_text(told)
    if "rows" in told:
        pairs = f"{counted(told['pairs'], 'pair')} of a state of A and one of B that follows it"
        pairs += f", looking {counted(told['look'], 'move')} ahead"
        return [*lines, f"The cross relation has {pairs}; states of A in it: {told['rows']}."]
    return lines + yes_text(told)


def size_text(size):
    """The sizes of an automaton in words."""
    moves = counted(size["transitions"], "transition")
    return f"{counted(size['states'], 'state')}, {moves}, {size['accepting']} accepting"


def set_text(names):
    """The names of a set, as far as twelve."""
    shown = ", ".join(names[:SHOWN]) + (f" and {len(names) - SHOWN} more" if len(names) > SHOWN else "")
    return "{" + shown + "}"


def no_text(told):
    """The lines that tell a no."""
    run, lines = told["run"], []
    if "word" in told:
        lines += [f"A accepts the word {','.join(told['word']) or '(the empty one)'}:", *move_lines(run["stem"])]
        lines.append(f"  and {run['accepting'][0]} is accepting")
    else:
        lines += [
            "A accepts the lasso:",
            f"  prefix {','.join(told['prefix']) or '(empty)'}",
            f"  loop   {','.join(told['loop'])}",
        ]
        lines += run_lines(run, len(told["prefix"]), len(told["loop"]))
        lines.append(f"  which passes {', '.join(run['accepting'])}: accepting")
    return [*lines, "", *rejected_text(told)]


def run_lines(run, prefix, loop):
    """The lines of a run on a lasso of so many letters: on the prefix, turn by turn of the loop up to its cycle, and its
    cycle."""
    stem = run["stem"]
    lines = ["its run, on the prefix", *move_lines(stem[:prefix])]
    for turn, at in enumerate(range(prefix, len(stem), loop), 1):
        lines += [f"in the loop's {ordinal(turn)} turn", *move_lines(stem[at : min(at + loop, len(stem))])]
    turn, inside = (len(stem) - prefix) // loop + 1, (len(stem) - prefix) % loop
    lines.append(f"and then without end, from {'within ' if inside else ''}the loop's {ordinal(turn)} turn on")
    return lines + move_lines(run["cycle"])


def ordinal(number):
    """The number as a place in a row: 1st, 2nd, 11th."""
    ending = "th" if number // 10 % 10 == 1 else {1: "st", 2: "nd", 3: "rd"}.get(number % 10, "th")
    return f"{number}{ending}"


def move_lines(moves):
    """The lines of a run, one a transition."""
    wide = max((len(label) for _, label, _ in moves), default=0)
    return [f"  {source} --{label}--{'-' * (wide - len(label))}> {target}" for source, label, target in moves] or [
        "  (no move)"
    ]


def rejected_text(told):
    """The lines that tell why the second automaton does not accept."""
    why, labels = told["rejected"], told.get("word", told.get("prefix", []))
    loop = told.get("loop", [])
    lines = [
        "B has no accepting run on it. Its runs are in these states:", f"  at the start: {set_text(why['sets'][0])}"
    ]
    for number, names in enumerate(why["sets"][1:], 1):
        place = number - 1
        label = labels[place] if place < len(labels) else loop[(place - len(labels)) % len(loop)]
        shown = set_text(names) if names else "none"
        lines.append(f"  after {label} ({number}): {shown}")
    if why["letters"] >= SETS:
        lines.append(f"  and so on, {why['letters']} letters")
    if why["ends"]:
        return [*lines, f"All runs have ended after letter {why['letters']}."]
    if "word" in told:
        return [*lines, "None of the last is accepting."]
    met = "none of their states is accepting"
    if why["met"]:
        met = f"they come to {set_text(why['met'])}, accepting, but not without end"
    return [*lines, f"Runs that go on for ever stay in {set_text(why['turning'])} in the end; {met}."]


def yes_text(told):
    """The lines that tell a yes or a list."""
    lines = []
    for which, name in (("first", "A"), ("second", "B")):
        steps = told["reduced"][which]
        lines.append(f"{name} was reduced in {counted(len(steps), 'step')}:" if steps else f"{name} stays as it is.")
        for step in steps:
            lines.append(f"  {step['step']}: {change_text(step)}")
    elements = counted(told["elements"], "element")
    words = f"the longest of their words has {counted(told['longest'], 'letter')}"
    if "limit" in told:
        met = f"The search met its limit, {told['limit']}: {elements}, and {words}. Nothing is decided."
        return [*lines, "", met]
    lines += ["", f"{elements}, {told['live']} of them live; {words}."]
    return [*lines, f"The order of B's states has {counted(told['order'], 'pair')}."]


def change_text(step):
    """The sizes before and after a step, in words."""
    before, after = step["before"], step["after"]
    return ", ".join(
        f"{before[what]} to {counted(after[what], noun)}"
        for what, noun in (("states", "state"), ("transitions", "transition"))
    )


def add_words(parser):
    """Adds the command's words to its parser."""
    parser.add_argument("first", metavar="A", help="an automaton, .ba")
    parser.add_argument("second", metavar="B", help="another one")
    parser.add_argument("certificate", metavar="CERT", help="a certificate or a cross file about both")
    parser.add_argument("--json", action="store_true", help="the same as data")
    parser.add_argument("--program", metavar="RABIT", help="the program that checks the certificate first")


def run(args):
    """The command; its status is 0. Refused with status 4, 5, 6 or 9."""
    told = explain([args.first, args.second, args.certificate], find_program(args.program))
    text = json.dumps(told, indent=2) if args.json else "\n".join(text_of(told))
    write_file(None, encoded(text + "\n"))
    return 0
