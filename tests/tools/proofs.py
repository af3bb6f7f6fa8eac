"""A small writer of proof files: what a front makes of two automata, evidence about what they become, and lassos, each found
by its definition in the plainest way. It shares nothing with the checker."""
from collections import namedtuple
from itertools import product

import hostile
from helping import automata

# states and labels are numbers, `moves` are (source, label, target), sorted, and `accepting` is a set
Model = namedtuple("Model", "states initial moves accepting")


def models(first, second):
    """The two automata of these texts over their joint labels, and these."""
    first, second = (automata.read_ba(text.encode()) for text in (first, second))
    second = automata.join(first, second)
    both = [Model(len(one.names), one.initial, one.transitions, one.accepting) for one in (first, second)]
    return (*both, second.labels)


def text_of(made, labels="abcdefgh"):
    """A text of the automaton, whose states may get other numbers."""
    lines = [f"[{made.initial}]", *(f"{labels[a]},[{p}]->[{q}]" for p, a, q in made.moves)]
    return "\n".join([*lines, *(f"[{q}]" for q in sorted(made.accepting) or [made.states])]) + "\n"


def random_model(rnd, states, labels, several):
    moves = {(rnd.randrange(states), rnd.randrange(labels), rnd.randrange(states)) for _ in range(several)}
    return Model(states, 0, sorted(moves), {q for q in range(states) if rnd.random() < 0.4})


def deterministic(rnd, states, labels):
    """One that is complete, and has few rejecting states or many."""
    part = rnd.choice([0.4, 0.6, 0.9])
    moves = [(q, a, rnd.randrange(states)) for q in range(states) for a in range(labels)]
    return Model(states, 0, moves, {q for q in range(states) if rnd.random() < part})


def with_copies(made, letters):
    """Of a label each label whose letter it is."""
    moves = [(p, a, q) for p, letter, q in made.moves for a, its in enumerate(letters) if its == letter]
    return made._replace(moves=sorted(moves))


# ---------------------------------------------------------------- what a front makes


def useful(made):
    after = [{t for s, _, t in made.moves if s == state} for state in range(made.states)]
    beyond = [automata.reached(after[state], after.__getitem__) for state in range(made.states)]
    ends = {state for state in made.accepting if state in beyond[state]}
    return {state for state in {made.initial} | beyond[made.initial] if ({state} | beyond[state]) & ends}


def trim(made, kept):
    numbers = {state: number for number, state in enumerate(sorted({*kept, made.initial}))}
    moves = [(numbers[p], a, numbers[q]) for p, a, q in made.moves if p in kept and q in kept]
    accepting = {numbers[q] for q in made.accepting & set(kept)}
    return Model(len(numbers), numbers[made.initial], sorted(moves), accepting)


def merge(made, classes):
    moves = sorted({(classes[p], a, classes[q]) for p, a, q in made.moves})
    return Model(max(classes) + 1, classes[made.initial], moves, {classes[q] for q in made.accepting})


def relabel(made, letters):
    return made._replace(moves=sorted({(p, letters[a], q) for p, a, q in made.moves}))


def carried_out(made, step):
    """What a step of a log makes, which is its lines."""
    numbers = [int(word) for word in step[min(1, len(step) - 1)].split(" ")[1:]]
    if step[0].startswith("trim"):
        return trim(made, numbers)
    if step[0].startswith("merge"):
        return merge(made, numbers)
    gone = numbers[::2] if len(step[0].split(" ")) > 1 else numbers
    return made._replace(moves=[move for t, move in enumerate(made.moves) if t not in gone])


def after_log(made, log):
    for step in log:
        made = carried_out(made, step)
    return made


def classes_at_random(rnd, count, part=0.6):
    """So many classes, numbered as they first appear."""
    classes = []
    for _ in range(count):
        most = max(classes, default=-1) + 1
        classes.append(most if not most or rnd.random() < part else rnd.randrange(most))
    return classes


def renumbered(values):
    numbers = {}
    return [numbers.setdefault(value, len(numbers)) for value in values]


def letters_at_random(rnd, second, labels):
    """Classes of labels with the same moves, which are not always the largest."""
    columns = [tuple((p, q) for p, a, q in second.moves if a == label) for label in range(labels)]
    return renumbered([(column, label if rnd.random() < 0.2 else None) for label, column in enumerate(columns)])


def simulation(made, turned):
    """The greatest stable relation at lookahead 1, forward or backward."""
    moves = [(q, a, p) if turned else (p, a, q) for p, a, q in made.moves]
    pairs = {
        (p, q) for p in range(made.states) for q in range(made.states)
        if (p not in made.accepting or q in made.accepting) and not (turned and p == made.initial != q)
    }  # fmt: skip
    while True:
        lost = {
            (p, q) for p, q in pairs for s, a, t in moves
            if s == p and not any((t, there) in pairs for here, b, there in moves if (here, b) == (q, a))
        }  # fmt: skip
        if not lost:
            return pairs
        pairs -= lost


def cut_step(made, turned):
    """The lines of a cut that takes all it may by a relation forward (P = 1) or backward (P = 2), or None."""
    pairs, gone = simulation(made, turned), []
    for t, (p, a, q) in enumerate(made.moves):
        for b, (r, other, s) in enumerate(made.moves):
            one, two, same = (p, r, q == s) if turned else (q, s, p == r)
            if a == other and same and (one, two) in pairs and (two, one) not in pairs:
                gone += [t, b]
                break
    return [f"cut {2 if turned else 1} 1", "gone " + " ".join(map(str, gone)), *hostile.by_rows(pairs)] if gone else None


def first_log_at_random(rnd, made):
    """Some steps that the first automaton may make."""
    log = []
    for _ in range(rnd.randrange(3)):
        way = rnd.randrange(4)
        if way == 0:
            kept = sorted(useful(made) | {q for q in range(made.states) if rnd.random() < 0.5})
            step = [" ".join(["trim", *map(str, kept)])]
        elif way == 1:
            step = ["merge", "classes " + " ".join(map(str, classes_at_random(rnd, made.states, 0.8)))]
        else:
            step = cut_step(made, way == 2)
        if step:
            log.append(step)
            made = carried_out(made, step)
    return log


class Front:
    """The lines of a front, and what it makes of two automata. What is not given is as it is."""

    def __init__(self, first, second, labels, log2=(), letters=None, choose=None, log1=None):
        second = after_log(second, log2)
        self.letters = letters(second) if letters else list(range(labels))
        first, second = relabel(first, self.letters), relabel(second, self.letters)
        first = trim(first, useful(first))
        self.map, self.accepting = choose(first) if choose else (list(range(first.states)), sorted(first.accepting))
        first = merge(first, self.map)
        self.needed = sorted(first.accepting)
        first = first._replace(accepting=set(self.accepting))
        first = trim(first, useful(first))
        self.log1, self.log2 = log1(first) if log1 else [], list(log2)
        self.first, self.second = after_log(first, self.log1), second
        self.item = len(self.log2) + 1  # that of `letters`
        self.last = self.item + 2 + len(self.log1)

    def lines(self):
        def named(word, numbers):
            return " ".join([word, *map(str, numbers)])

        log1, log2 = ([line for step in log for line in step] for log in (self.log1, self.log2))
        front = [named("letters", self.letters), named("map", self.map), named("accepting", self.accepting)]
        return [f"log2 {len(self.log2)}", *log2, *front, f"log1 {len(self.log1)}", *log1]


def front_at_random(rnd, first, second, labels, log2=()):
    def choose(made):
        classes = classes_at_random(rnd, made.states, rnd.choice([0.6, 0.9, 1]))
        listed = {classes[q] for q in made.accepting}
        return classes, sorted(listed | {number for number in classes if rnd.random() < 0.1})

    return Front(
        first, second, labels, log2, lambda made: letters_at_random(rnd, made, labels), choose,
        lambda made: first_log_at_random(rnd, made),
    )  # fmt: skip


# ---------------------------------------------------------------- evidence


def product_rows(first, second):
    """The ranks of the pairs of a product, by rows; or None where it shows nothing."""
    after = {(q, a): target for q, a, target in second.moves}
    arcs, todo = {}, [(first.initial, second.initial)]
    while todo:
        pair = todo.pop()
        if pair not in arcs:
            arcs[pair] = [(t, after.get((pair[1], a))) for p, a, t in first.moves if p == pair[0]]
            if any(q is None for _, q in arcs[pair]):
                return None
            todo += arcs[pair]
    ranks = dict.fromkeys(sorted(arcs), 0)
    for _ in range(len(arcs) + 2):
        before = dict(ranks)
        for pair, others in arcs.items():
            steps = [ranks[p, q] + (p in first.accepting) for p, q in others if q not in second.accepting]
            ranks[pair] = max([ranks[pair], *steps])
        if ranks == before:
            return by_rows(ranks)
    return None


def by_rows(codes):
    rows = {}
    for (p, q), code in sorted(codes.items()):
        rows.setdefault(p, {})[q] = code
    return rows


def delayed_rows(first, second):
    """The codes of the greatest delayed simulation across, with the least ranks."""
    pairs = set(product(range(first.states), range(second.states)))
    while True:
        answers = {
            (p, q): [[(t, s) for r, b, s in second.moves if (r, b) == (q, a) and (t, s) in pairs] for o, a, t in first.moves if o == p]
            for p, q in pairs
        }  # fmt: skip
        ranks = {pair: 0 for pair in pairs if pair[1] in second.accepting and all(answers[pair])}
        for rank in range(1, len(pairs) + 1):
            ranks.update({
                pair: rank for pair in pairs
                if pair not in ranks and all(any(ranks.get(one, rank) < rank for one in found) for found in answers[pair])
            })  # fmt: skip
        lost = {pair for pair in pairs if not all(answers[pair]) or pair[0] in first.accepting and pair not in ranks}
        if not lost:
            codes = {pair: ranks[pair] + 1 if pair in ranks else 0 for pair in pairs}
            return by_rows(codes) if (first.initial, second.initial) in pairs else None
        pairs -= lost


def pair_lines(rows):
    return [f"rel {len(rows)}", *(" ".join(["row", str(p), *(f"{q} {c}" for q, c in codes.items())]) for p, codes in rows.items())]


def wrong_pair(form, first, second, rows):
    """The number of the first pair that is not as the rules of its form say, with the rule; or None."""
    for number, (p, q, c) in enumerate((p, q, c) for p, codes in rows.items() for q, c in codes.items()):
        moves = [(a, t) for o, a, t in first.moves if o == p]
        if form == "product":
            after = {a: t for o, a, t in second.moves if o == q}
            pairs = [(t, after.get(a)) for a, t in moves]
            if p >= first.states or q >= second.states:
                return number, 1
            if any(to not in rows.get(t, {}) for t, to in pairs):
                return number, 25
            if any(to not in second.accepting and c - (t in first.accepting) < rows[t][to] for t, to in pairs):
                return number, 26
        else:
            answers = [[rows[t][s] for o, b, s in second.moves if (o, b) == (q, a) and s in rows.get(t, {})] for a, t in moves]
            fine = all(answers) and (c <= 1 or all(any(0 < other < c for other in found) for found in answers))
            if not fine or c == 0 and p in first.accepting or c == 1 and q not in second.accepting:
                return number, 27
    return None


def graph_after(graph, second, label):
    """The arcs (s, t) with their values, gone on by the label; None stands for the graph of no move."""
    made = {}
    for (s, t), value in graph.items() if graph is not None else [((q, q), 1) for q in range(second.states)]:
        for p, a, q in second.moves:
            if (p, a) == (t, label):
                made[s, q] = max(made.get((s, q), 1), value, 1 + (q in second.accepting))
    return made


def has_lasso(initial, one, two):
    """Whether ways along the second graph, from where the first leads, come twice to a state with a 2 between."""
    ends = automata.reached({t for s, t in one if s == initial}, lambda s: [t for o, t in two if o == s])
    return any(s in automata.reached([t], lambda s: [t for o, t in two if o == s]) for (s, t), v in two.items() if v == 2 and s in ends)


def closed_lines(rnd, first, second, most=60):
    """The lines of a closed list of elements, and the number of the first that has no lasso; or None where there are many.
    The order is equality. Some elements are listed that stand under others."""
    made, lines, steps = [], [], {}

    def live(x):
        """The number of one that subsumes x, or of x itself, which is then listed."""
        for number, (y, _) in enumerate(made):
            if number in steps and y[:2] == x[:2] and y[2] >= x[2] and all(x[3].get(arc, 0) >= v for arc, v in y[3].items()):
                return number
        return None

    def listed(x, origin):
        number = live(x)
        if number is None or rnd.random() < 0.1:
            made.append((x, origin))
            lines.append(("live" if number is None else f"under {number}") + " " + origin)
            if number is None:
                number = len(made) - 1
                steps[number] = []
        return number

    bases = [(p, q, q in first.accepting, graph_after(None, second, a)) for p, a, q in first.moves]
    for t, x in enumerate(bases):
        listed(x, f"base {t}")
    todo = list(steps)
    while todo:
        parent = todo.pop(0)
        before, (x, _) = len(made), made[parent]
        if before > most:
            return None
        for t, (p, a, q) in enumerate(first.moves):
            if p == x[1]:
                after = (x[0], q, x[2] or q in first.accepting, graph_after(x[3], second, a))
                steps[parent].append(listed(after, f"next {parent} {t}"))
        todo += [number for number in range(before, len(made)) if number in steps]
    cover = [live(x) for x in bases]
    bad = next((
        number for number in sorted(steps) for other in steps
        if made[number][0][0] == first.initial and made[number][0][1] == made[other][0][0] == made[other][0][1]
        and made[other][0][2] and not has_lasso(second.initial, made[number][0][3], made[other][0][3])
    ), None)  # fmt: skip
    order = [f"rel {second.states}", *(f"row {q} {q} {q}" for q in range(second.states))]
    rest = [" ".join(["cover", *map(str, cover)])] + [" ".join(["step", *map(str, [e, *by])]) for e, by in sorted(steps.items())]
    return [*order, f"elements {len(made)}", *lines, *rest], bad


def proof_text(form, sizes, *parts):
    return "\n".join([f"rabit-proof 1 {form}", "sizes {} {} {}".format(*sizes), *(line for part in parts for line in part), "end"]) + "\n"


# ---------------------------------------------------------------- lassos


def words_up_to(labels, most):
    return [word for length in range(most + 1) for word in product(range(labels), repeat=length)]


class Lassos:
    """Which lassos an automaton accepts, by the definition. Sets are numbers."""

    def __init__(self, made):
        self.made, self.loops = made, {}

    def after(self, state, word):
        """The states, and those with a true flag, that runs on the word lead to."""
        ends, flagged = {state}, set()
        for label in word:
            moves = [(p, q) for p, a, q in self.made.moves if a == label]
            flagged = {q for p, q in moves if p in flagged or p in ends and q in self.made.accepting}
            ends = {q for p, q in moves if p in ends}
        return ends, flagged

    def good(self, loop):
        """The states from which the loop, taken again and again, passes accepting ones without end."""
        if loop not in self.loops:
            turns = [self.after(state, loop) for state in range(self.made.states)]
            every, flagged = [set(ends) for ends, _ in turns], [set(marked) for _, marked in turns]
            size = None
            while size != (size := sum(map(len, every + flagged))):
                for p in range(self.made.states):
                    for q in list(every[p]):
                        flagged[p] |= every[q] if q in flagged[p] else flagged[q]
                        every[p] |= every[q]
            cycles = {p for p in range(self.made.states) if p in flagged[p]}
            self.loops[loop] = {p for p in range(self.made.states) if (every[p] | {p}) & cycles}
        return self.loops[loop]

    def accepts(self, prefix, loop):
        return bool(self.after(self.made.initial, prefix)[0] & self.good(loop))


def separating(first, second, labels, most):
    """The lassos of words of at most so many labels that the first accepts and the second does not."""
    words = words_up_to(labels, most)
    sides = []
    for made in (first, second):
        lassos = Lassos(made)
        sides.append(([lassos.after(made.initial, word)[0] for word in words], [lassos.good(word) for word in words[1:]]))
    (starts, goods), (others, other_goods) = sides
    return [
        (prefix, loop) for prefix, start, other in zip(words, starts, others)
        for loop, good, other_good in zip(words[1:], goods, other_goods) if start & good and not other & other_good
    ]  # fmt: skip


# ---------------------------------------------------------------- certificates


def take_log(lines, at):
    """The steps of the log that begins at this place, each as its lines, and the place behind it."""
    steps, count = [], int(lines[at].split(" ")[1])
    at += 1
    for _ in range(count):
        begin, words = at, lines[at].split(" ")
        if words[0] == "trim":
            at, blocks = at + 1, 0
        elif words[0] == "merge":
            at, blocks = at + 2, len(words) > 1
        else:
            at, blocks = at + 2, 0 if len(words) == 1 else 2 if words[1] in "34" else 1
        for _ in range(blocks):
            at += 1 + int(lines[at].split(" ")[1])
        steps.append(lines[begin:at])
    return steps, at


class Parts:
    """The lines of a yes of version 2: its logs, and what is behind them up to `end`."""

    def __init__(self, text):
        lines = text.rstrip("\n").split("\n")
        self.log1, at = take_log(lines, 2)
        self.log2, at = take_log(lines, at)
        self.sizes, self.rest = [int(word) for word in lines[1].split(" ")[1:]], lines[at:-1]

    def lines(self):
        logs = [[f"{name} {len(log)}", *(line for step in log for line in step)] for name, log in (("log1", self.log1), ("log2", self.log2))]
        return logs
