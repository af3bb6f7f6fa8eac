"""Automata of other formats on the way into `.ba`: letters are sets of propositions, acceptance is generalised
Büchi."""
from .automata import Automaton, can_be_named, fresh_name
from .letters import PROPOSITIONS, letter_names, members, refused

STATES, TRANSITIONS = 262144, 2097152


class General:
    """An automaton as another format tells it.

    `propositions` are the names of the propositions, each once; a letter is a number whose bit i tells whether
    proposition i holds, and a set of letters is a number whose bit v tells whether letter v is in it (`every` is the
    set of all). `edges[state]` is a list of (set of letters, target, marks); `names[state]` is a name or None;
    `initial` is a list of states. A run is accepted if it passes each of `wanted` marks (a list of numbers, maybe
    none) without end, and never where `wanted` is None. `marks[state]` are the marks of a state, an empty set where
    it is missing. `letters`, if not None, is the list of names that the first letters have."""

    def __init__(self, propositions, edges, initial, wanted, marks=None, names=None, letters=None):
        self.propositions, self.edges, self.initial, self.wanted = propositions, edges, initial, wanted
        self.marks, self.names, self.letters = marks or {}, names or {}, letters


# ---------------------------------------------------------------- other letters


def over_more(general, names):
    """The automaton over the named propositions too, which may hold or not at each of its moves. Refused past eight."""
    if general.letters is not None:
        raise refused(0, "Propositions", "the letters have names of their own")
    for name in names:
        if name in general.propositions:
            continue
        count = len(general.propositions)
        if count == PROPOSITIONS:
            raise refused(0, "TooManyPropositions", "with those that are added more than eight")
        general.propositions = [*general.propositions, name]
        for edges in general.edges.values():
            edges[:] = [(letters | letters << (1 << count), target, marks) for letters, target, marks in edges]
    return general


def over_labels(general, labels):
    """The automaton over these labels: at each of them the proposition of its name holds, and no other.

    Refused where a proposition is the name of no label, and where the letters have names of their own."""
    if general.letters is not None:
        raise refused(0, "Propositions", "the letters have names of their own")
    for name in general.propositions:
        if name not in labels:
            raise refused(0, "Proposition", f"{name} is the name of no label")
    numbers = {name: number for number, name in enumerate(general.propositions)}
    letter_of = [1 << numbers[label] if label in numbers else 0 for label in labels]
    for edges in general.edges.values():
        edges[:] = [
            (sum(1 << at for at, letter in enumerate(letter_of) if letters >> letter & 1), target, marks)
            for letters, target, marks in edges
        ]
    general.propositions, general.letters = [], list(labels)
    return general


# ---------------------------------------------------------------- into .ba


class Unfolded:
    """The reached pairs of a state and a level, numbered in the order in which they are met.

    The level tells how many of the wanted marks were passed in turn; at the last one the pair is accepting, and
    counting begins anew. `pairs` are the pairs, `moves[number]` is a list of (set of letters, number), `starts` are
    numbers."""

    def __init__(self, general):
        self.general, self.wanted = general, [None] if general.wanted is None else general.wanted
        self.pairs, self.moves, self.numbers = [], [], {}
        self.starts = [self.number(state, self.level(0, self.marks(state))) for state in dict.fromkeys(general.initial)]
        at = 0
        while at < len(self.pairs):
            self.expand(at)
            at += 1

    def marks(self, state):
        """The marks of a state."""
        return self.general.marks.get(state, ())

    def level(self, level, marks):
        """The level after a move with these marks."""
        level = 0 if level == len(self.wanted) else level
        while level < len(self.wanted) and self.wanted[level] in marks:
            level += 1
        return level

    def number(self, state, level):
        """The number of a pair, a new one where it is met for the first time. Refused with status 4."""
        pair = state, level
        if pair not in self.numbers:
            if len(self.pairs) == STATES:
                raise refused(0, "TooManyStates", f"more than {STATES}")
            self.numbers[pair] = len(self.pairs)
            self.pairs.append(pair)
        return self.numbers[pair]

    def expand(self, at):
        """Puts the moves of the pair with this number behind those of the pairs before it."""
        state, level = self.pairs[at]
        # the marks of a state count for the moves that lead to it, which is the same for runs without end
        self.moves.append(
            [
                (letters, self.number(target, self.level(level, {*marks, *self.marks(target)})))
                for letters, target, marks in self.general.edges.get(state, ())
                if letters
            ]
        )

    def accepting(self):
        """The numbers of the accepting pairs, a set."""
        return {at for at, (_, level) in enumerate(self.pairs) if level == len(self.wanted)}

    def names(self):
        """A name for each pair: the state's own where no other has it and `.ba` can have it, with the level where the
        state stands there twice."""
        levels, states, chosen = {}, {}, {}
        for state, level in self.pairs:
            levels.setdefault(state, []).append(level)
            states.setdefault(self.general.names.get(state), set()).add(state)
        for state, level in self.pairs:
            own = self.general.names.get(state)
            name = own if own is not None and len(states[own]) == 1 and can_be_named(own) else f"[{state}]"
            name = fresh_name(chosen, f"{name}/{level}" if len(levels[state]) > 1 else name)
            chosen[name if can_be_named(name) else fresh_name(chosen, f"[{state}/{level}]")] = True
        return list(chosen)


def to_ba(general, complete=False):
    """The automaton with one initial state and accepting states that accepts the same lassos. Only reached states are
    in it.

    With `complete` a state is added, where a letter is missing somewhere, from which nothing is accepted. Refused with
    status 4 past 262,144 states or 2,097,152 transitions, and where a letter has no name."""
    letters = letter_names(general.propositions) if general.letters is None else general.letters
    unfolded = Unfolded(general)
    names, moves, starts = unfolded.names(), unfolded.moves, unfolded.starts
    if len(starts) == 1:
        initial = starts[0]
    else:
        initial = len(moves)
        names.append(fresh_name(names, "initial"))
        moves.append([move for start in starts for move in moves[start]])
    if complete:
        add_missing(moves, names, (1 << len(letters)) - 1)
    transitions = set()
    for source, edges in enumerate(moves):
        for mask, target in edges:
            if mask >> len(letters):
                raise refused(0, "Letter", f"a move of the state {names[source]} has a letter without a name")
            transitions.update((source, letter, target) for letter in members(mask))
        if len(transitions) > TRANSITIONS:
            raise refused(0, "TooManyTransitions", f"more than {TRANSITIONS}")
    return of_used_letters(names, letters, initial, transitions, unfolded.accepting())


def add_missing(moves, names, all_letters):
    """Adds a state without a way out, where some letter is missing at a state, and the moves to it."""
    sink, lacking = len(moves), []
    for edges in moves:
        seen = 0
        for mask, _ in edges:
            seen |= mask
        lacking.append(all_letters & ~seen)
    if any(lacking):
        for edges, mask in zip(moves, lacking):
            edges.append((mask, sink))
        moves.append([(all_letters, sink)])
        names.append(fresh_name(names, "missing"))


def of_used_letters(names, letters, initial, transitions, accepting):
    """The automaton whose labels are those letters alone that some transition has."""
    used = sorted({letter for _, letter, _ in transitions})
    numbers = {letter: number for number, letter in enumerate(used)}
    moves = [(p, numbers[letter], q) for p, letter, q in transitions]
    return Automaton(names, [letters[letter] for letter in used], initial, moves, accepting)
