"""The steps of a reduction, taken again as a certificate tells them."""
from .automata import Automaton
from .files import CERTIFICATE, Refusal

NAMED = 3  # of how many states a merged one's name tells


def taken(automaton, log, name="certificate"):
    """The automaton after each step of the log, a list that begins with the given one. Refused with status 5 where a
    step names what is not there."""
    found = [automaton]
    for number, step in enumerate(log, 1):
        try:
            found.append(STEPS[step["step"]](found[-1], step))
        except (IndexError, ValueError, KeyError):
            raise Refusal(f"{name}: step {number} of a log names what is not there", CERTIFICATE) from None
    return found


def trim(automaton, step):
    """The automaton without the states that are left out. Raises IndexError for a state that is none."""
    listed = set(step["states"])
    kept = sorted(listed | {automaton.initial})
    numbers = {state: number for number, state in enumerate(kept)}
    moves = [(numbers[p], a, numbers[q]) for p, a, q in automaton.transitions if p in listed and q in listed]
    names, accepting = [automaton.names[state] for state in kept], [numbers[q] for q in automaton.accepting & listed]
    return Automaton(names, automaton.labels, numbers[automaton.initial], moves, accepting)


def merge(automaton, step):
    """The automaton whose states are the classes. Raises ValueError where the classes are not right."""
    classes = step["classes"]
    if len(classes) != len(automaton.names) or set(classes) != set(range(len(set(classes)))):
        raise ValueError
    members = [[] for _ in range(max(classes) + 1)]
    for state, number in enumerate(classes):
        members[number].append(automaton.names[state])
    names = [
        " = ".join(found[:NAMED]) + (f" = {len(found) - NAMED} more" if len(found) > NAMED else "") for found in members
    ]
    moves = [(classes[p], a, classes[q]) for p, a, q in automaton.transitions]
    accepting = [classes[state] for state in automaton.accepting]
    return Automaton(names, automaton.labels, classes[automaton.initial], moves, accepting)


def cut(automaton, step):
    """The automaton without the transitions that are cut. Raises ValueError for a transition that is none."""
    gone = set(step["gone"])
    if any(t >= len(automaton.transitions) for t in gone):
        raise ValueError
    moves = [move for t, move in enumerate(automaton.transitions) if t not in gone]
    return Automaton(automaton.names, automaton.labels, automaton.initial, moves, automaton.accepting)


STEPS = {"trim": trim, "merge": merge, "cut": cut}


def element_words(elements, transitions, most=None):
    """Each element's word, its transitions' numbers, in a list as far as `most`. Raises IndexError or ValueError for
    others."""
    words = []
    for number, (_, origin) in enumerate(elements[:most]):
        if any(t >= len(transitions) for t in origin[-1:]) or len(origin) == 2 and origin[0] >= number:
            raise ValueError
        words.append(words[origin[0]] + (origin[1],) if len(origin) == 2 else tuple(origin))
    return words


def element_lengths(elements):
    """How many letters each element's word has, a list. Raises ValueError where an element extends a later one."""
    lengths = []
    for number, (_, origin) in enumerate(elements):
        if len(origin) == 2 and origin[0] >= number:
            raise ValueError
        lengths.append(lengths[origin[0]] + 1 if len(origin) == 2 else len(origin))
    return lengths
