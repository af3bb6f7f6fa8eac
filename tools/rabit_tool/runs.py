"""Runs on a lasso or on a word that a valid certificate has: how the one automaton accepts it, and why the other does
not.

Nothing is decided here: what is searched for is what the program has said is there, and a search that finds none says
so."""
from .automata import components, cyclic

SETS = 4096


class Run:
    """A run as two lists of (state, label, target): the way to the cycle, and the cycle (empty for a word)."""

    def __init__(self, stem, cycle, state):
        self.stem, self.cycle, self.state = stem, cycle, state


class Lasso:
    """A lasso as places: place i has the label `labels[i]`, and the place after the last is that where the loop
    begins."""

    def __init__(self, prefix, loop):
        self.prefix, self.loop = list(prefix), list(loop)
        self.labels = self.prefix + self.loop

    def after(self, place):
        """The place that follows."""
        return place + 1 if place + 1 < len(self.labels) else len(self.prefix)

    def successors(self, automaton):
        """What leads from one (state, place) to the next on the lasso."""

        def follow(node):
            state, place = node
            return [
                (target, self.after(place)) for label, target in automaton.moves[state] if label == self.labels[place]
            ]

        return follow


def way(start, goal, successors, inside=None):
    """A shortest list of nodes from start to a node for which `goal` holds, at least one step long where `inside` is
    a set that it stays in, or None."""
    before, todo = {}, [start]
    if inside is None and goal(start):
        return [start]
    for node in todo:
        for other in successors(node):
            if inside is not None and other not in inside or other in before:
                continue
            before[other] = node
            if goal(other):
                path = [other]
                while len(path) == 1 or path[-1] != start:
                    path.append(before[path[-1]])
                return path[::-1]
            if other != start:
                todo.append(other)
    return None


def steps(nodes, lasso):
    """The transitions between the nodes, pairs of a state and a place, as (state, label, target)."""
    return [(p, lasso.labels[place], q) for (p, place), (q, _) in zip(nodes, nodes[1:])]


def accepting_run(automaton, lasso):
    """A run that passes an accepting state on its cycle, or None. The cycle is as many turns of the loop as it
    needs."""
    follow, start = lasso.successors(automaton), (automaton.initial, 0)
    good = {}
    for component in components([start], follow):
        if cyclic(component, follow) and any(state in automaton.accepting for state, _ in component):
            good.update(dict.fromkeys(component, frozenset(component)))
    stem = way(start, lambda node: node in good and node[0] in automaton.accepting, follow)
    if stem is None:
        return None
    cycle = way(stem[-1], lambda node: node == stem[-1], follow, good[stem[-1]])
    return Run(steps(stem, lasso), steps(cycle, lasso), stem[-1][0])


def word_run(automaton, word):
    """A run on the word that ends in an accepting state, or None."""

    def follow(node):
        state, place = node
        if place == len(word):
            return []
        return [(target, place + 1) for label, target in automaton.moves[state] if label == word[place]]

    nodes = way((automaton.initial, 0), lambda node: node[1] == len(word) and node[0] in automaton.accepting, follow)
    if nodes is None:
        return None
    return Run([(p, word[place], q) for (p, place), (q, _) in zip(nodes, nodes[1:])], [], nodes[-1][0])


class Rejection:
    """Why an automaton does not accept: `sets[i]` are the states that its runs are in after i letters.

    With `ends` no state is left after the last letter of these. Else of a lasso: `turning` are the states on cycles
    of its runs, `met` the accepting ones that its runs come to, on no cycle. Of a word: the last set has no
    accepting state."""

    def __init__(self, sets, ends, turning, met):
        self.sets, self.ends, self.turning, self.met = sets, ends, turning, met


def sets_along(automaton, labels):
    """The sets of states after each letter, the last of them empty where no state is left before the letters end."""
    sets = [{automaton.initial}]
    for label in labels:
        if not sets[-1]:
            break
        sets.append(automaton.after(sets[-1], label))
    return sets


def rejection(automaton, lasso):
    """Why no run accepts the lasso: a Rejection. The sets go on until none is left, or one comes again at its place;
    where runs go on for ever they are at most 4,096 more than the lasso's letters."""
    follow, turning, all_met = lasso.successors(automaton), set(), set()
    for component in components([(automaton.initial, 0)], follow):
        all_met.update(state for state, _ in component)
        if cyclic(component, follow):
            turning.update(state for state, _ in component)
    sets, place, seen, most = [{automaton.initial}], 0, set(), len(lasso.labels) + SETS
    while sets[-1] and (place, frozenset(sets[-1])) not in seen and not (turning and len(sets) > most):
        seen.add((place, frozenset(sets[-1])))
        sets.append(automaton.after(sets[-1], lasso.labels[place]))
        place = lasso.after(place)
    if not turning:
        return Rejection(sets, True, set(), set())
    return Rejection(sets, False, turning, all_met & automaton.accepting)


def word_rejection(automaton, word):
    """Why no run on the word ends in an accepting state: a Rejection."""
    sets = sets_along(automaton, word)
    return Rejection(sets, not sets[-1], set(), set())
