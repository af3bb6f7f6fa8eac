"""Automata as `.ba` texts, read and written as docs/FORMATS.md says, and walks on them."""
import re

from .files import TEXT, Refusal, decoded, encoded

BLANKS, NAME_BYTES = b" \t\r", 255
CONTROL = re.compile(rb"[\x00-\x08\x0A-\x1F\x7F]")


class Automaton:
    """States and labels are numbers; `names` and `labels` are their names, lists of str in the order of the numbers.

    `transitions` are (source, label, target), sorted and each once; `accepting` is a set of states. `moves[state]` is
    the sorted list of (label, target) out of it."""

    def __init__(self, names, labels, initial, transitions, accepting):
        self.names, self.labels, self.initial = list(names), list(labels), initial
        self.transitions, self.accepting = sorted(set(transitions)), set(accepting)
        self.moves = [[] for _ in self.names]
        for source, label, target in self.transitions:
            self.moves[source].append((label, target))

    def after(self, states, label):
        """The set of states that the label leads to from the given ones."""
        return {target for state in states for given, target in self.moves[state] if given == label}

    def reached(self):
        """The set of states that the initial one leads to, itself too."""
        return reached([self.initial], lambda state: [target for _, target in self.moves[state]])


# ---------------------------------------------------------------- texts


def line_fault(line):
    """The kind of fault that the stripped line has by itself, or None."""
    if CONTROL.search(line):
        return "BadByte"
    if b"," not in line:
        return "Shape" if b"->" in line else "TokenLong" if len(line) > NAME_BYTES else None
    if line.count(b",") != 1 or line.count(b"->") != 1 or line.index(b"->") < line.index(b","):
        return "Shape"
    tokens = transition_tokens(line)
    if not all(tokens):
        return "EmptyToken"
    return "TokenLong" if max(map(len, tokens)) > NAME_BYTES else None


def transition_tokens(line):
    """Label, source and target of a line without a fault that has a comma."""
    label, rest = line.split(b",")
    source, target = rest.split(b"->")
    return [token.strip(b" \t") for token in (label, source, target)]


def lines_of(data):
    """The lines that are not blank, each as (number, stripped bytes)."""
    stripped = ((at, line.strip(BLANKS)) for at, line in enumerate(data.split(b"\n"), 1))
    return [(at, line) for at, line in stripped if line]


def read_ba(data, name="automaton"):
    """The automaton of a text; limits of number are the program's alone. Refused with status 4 by line and kind of
    fault."""

    def fault(line, kind):
        raise Refusal(f"{name} line {line}: {kind}", TEXT)

    states, labels, transitions, before, after = {}, {}, [], [], []
    lines = lines_of(data)
    if not lines:
        fault(0, "Empty")
    for at, line in lines:
        kind = line_fault(line)
        if kind:
            fault(at, kind)
        if b"," not in line:
            (after if transitions else before).append(states.setdefault(line, len(states)))
            continue
        label, source, target = transition_tokens(line)
        if not transitions and len(before) > 1:
            fault(at, "TwoInitial")
        move = states.setdefault(source, len(states)), labels.setdefault(label, len(labels))
        transitions.append((*move, states.setdefault(target, len(states))))
    # one state line before the first transition, or the first of all where there is none, names the initial state
    initial = before[0] if before else transitions[0][0]
    accepting = before[1:] + after or range(len(states))
    return Automaton(map(decoded, states), map(decoded, labels), initial, transitions, accepting)


def can_be_named(text):
    """Whether `.ba` can have the text as the name of a state or of a label."""
    data = encoded(text)
    return 0 < len(data) <= NAME_BYTES and data.strip(BLANKS) == data and b"," not in data and line_fault(data) is None


def write_ba(automaton):
    """The bytes of a text that reads as the automaton: its names, and states and labels that a transition or a line
    names.

    Where no state is accepting a new one without transitions is, since a text without such a line means the
    contrary."""
    names = automaton.names
    lines = [names[automaton.initial]]
    lines += [f"{automaton.labels[a]},{names[p]}->{names[q]}" for p, a, q in automaton.transitions]
    lines += [names[state] for state in sorted(automaton.accepting)] or [fresh_name(names, f"[{len(names)}]")]
    return b"".join(encoded(line) + b"\n" for line in lines)


def fresh_name(taken, name):
    """The name, with as many primes as make it none of those that are taken."""
    while name in taken:
        name += "'"
    return name


def join(first, second):
    """The second over the joint labels, and these: the first's in order, and then the second's new ones."""
    numbers = {label: number for number, label in enumerate(first.labels)}
    of = [numbers.setdefault(label, len(numbers)) for label in second.labels]
    moved = [(p, of[a], q) for p, a, q in second.transitions]
    return Automaton(second.names, list(numbers), second.initial, moved, second.accepting)


# ---------------------------------------------------------------- walks


def reached(starts, successors):
    """The set of what the starts lead to, themselves too; `successors(node)` gives nodes."""
    seen, todo = set(starts), list(starts)
    while todo:
        for node in successors(todo.pop()):
            if node not in seen:
                seen.add(node)
                todo.append(node)
    return seen


def components(starts, successors):
    """The strongly connected components of what the starts lead to: lists of nodes, each before those that lead to
    it."""
    number, low, on_stack, stack, found = {}, {}, set(), [], []
    for start in starts:
        if start in number:
            continue
        work = [(start, None)]
        while work:
            node, rest = work.pop()
            if rest is None:
                number[node] = low[node] = len(number)
                stack.append(node)
                on_stack.add(node)
                rest = iter(list(successors(node)))
            for other in rest:
                if other not in number:
                    work += [(node, rest), (other, None)]
                    break
                if other in on_stack:
                    low[node] = min(low[node], low[other])
            else:
                if low[node] == number[node]:
                    found.append(taken_from(stack, on_stack, node))
                if work:
                    parent = work[-1][0]
                    low[parent] = min(low[parent], low[node])
    return found


def taken_from(stack, on_stack, node):
    """The component of which the node is the root: what lies on the stack from it on, taken away there."""
    component = []
    while not component or component[-1] != node:
        component.append(stack.pop())
        on_stack.discard(component[-1])
    return component


def cyclic(component, successors):
    """Whether the strongly connected component has a cycle."""
    return len(component) > 1 or component[0] in successors(component[0])


def on_cycles(automaton):
    """The set of reached states that lie on a cycle."""

    def successors(state):
        return [target for _, target in automaton.moves[state]]

    found = components([automaton.initial], successors)
    return {state for component in found if cyclic(component, successors) for state in component}
