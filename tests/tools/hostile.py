"""Families of three files of at most 64 KiB each that are made to cost a checker much."""
import random

DIGITS = "0123456789abcdefghijklmnopqrstuvwxyzABCDEFGHIJKLMNOPQRSTUVWXYZ"


def name(number):
    return DIGITS[number] if number < 62 else DIGITS[number // 62 - 1] + DIGITS[number % 62]


def automaton(moves, accepting=(), first=0):
    """A text whose states are numbered as here, if the moves and accepting states name them in that order."""
    lines = [name(first), *(f"{name(label)},{name(p)}->{name(q)}" for p, label, q in moves)]
    return "\n".join([*lines, *map(name, accepting)]) + "\n"


def by_rows(pairs):
    """The rows of a block of version 2."""
    rows = {}
    for p, q in pairs:
        rows.setdefault(p, set()).add(q)
    return runs_of(rows)


def runs_of(rows):
    lines = []
    for p in sorted(rows):
        runs = []
        for q in sorted(rows[p]):
            if runs and runs[-1][1] == q - 1:
                runs[-1][1] = q
            else:
                runs.append([q, q])
        lines.append(f"row {p} " + " ".join(f"{first} {last}" for first, last in runs))
    return [f"rel {len(rows)}", *lines]


def certificate(states, labels, first=(), second=(), rest=(), form="yes", mode="buchi", version=2):
    """A certificate of these steps, each a list of lines."""
    lines = [f"rabit-cert {version} {mode} {form}", "sizes {} {} {}".format(*states, labels)]
    for which, log in (("log1", first), ("log2", second)):
        lines += [f"{which} {len(log)}", *(line for step in log for line in step)]
    rest = rest or ["rel 0", "elements 0", "cover", "end"]
    return "\n".join([*lines, *rest]) + "\n"


def at_random(states, each, labels, seed=1):
    """So many moves of each state by each label; state 0 is first, and the others are first seen in order."""
    rnd = random.Random(seed)
    moves = [(0, 0, p) for p in range(states)][1:]
    found = {(p, a, q) for p in range(states) for a in range(labels) for q in rnd.sample(range(states), min(each, states))}
    return sorted(found | set(moves))


def numbered(states, moves):
    """A text whose states and labels are numbered as here, all of them accepting, and the number of its labels; the move
    0 by 0 to 1 is in it."""
    first, labels = [], 1 + max(label for _, label, _ in moves)
    for label in range(1, labels):
        first.append(next(move for move in moves if move[1] == label))
    lines = [name(0), f"{name(0)},{name(0)}->{name(1)}", *map(name, range(1, states)), name(0)]
    rest = [move for move in dict.fromkeys([*first, *moves]) if move != (0, 0, 1)]
    return "\n".join([*lines, *(f"{name(label)},{name(p)}->{name(q)}" for p, label, q in rest)]) + "\n", labels


LOOP = automaton([(0, 0, 0)])
EMPTY = automaton([(0, 0, 1)], [2])  # it accepts nothing


def in_log(side, look, states, moves, pairs, times=1, which=2):
    """The relation as the block of a merge of the second log that joins no states, or of a cut of the first."""
    block = pairs if isinstance(pairs[0], str) else by_rows(pairs)
    labels = len({a for _, a, _ in moves})
    if which == 2:
        step = [f"merge {side} {look}", "classes " + " ".join(map(str, range(states))), *block]
        return EMPTY, automaton(sorted(moves), range(states)), certificate((3, states), labels, second=[step] * times)
    step = [f"cut {1 if side == 'forward' else 2} {look}", "gone 0 1", *block]
    return automaton(sorted(moves), range(states)), LOOP, certificate((states, 1), labels, first=[step] * times)


def around(states, *further):
    return [(p, (p + k) % states) for p in range(states) for k in further]


def families():
    """By name: the three texts, and whether the third is a cross file."""
    for states, each, labels in ((70, 4, 15), (100, 4, 15), (200, 4, 8), (40, 3, 60)):
        moves = at_random(states, each, labels)
        for which, side in ((1, "backward"), (2, "forward"), (2, "backward")):
            pairs = [(p, q) for p, q in around(states, 1, 7, 30) if p or side == "forward"]
            yield f"round {side} {states} {each} {labels} log{which}", in_log(side, 6, states, moves, pairs, 1, which)
        cross = ["rabit-cross 1", f"sizes {states} {states} {labels}", "look 6", f"rel {states}"]
        rows = {p: sorted({p if p == 0 else (p + 1) % states, (p + 7) % states, (p + 30) % states}) for p in range(states)}
        cross += [f"row {p} " + " ".join(map(str, rows[p])) for p in range(states)]
        text = automaton(moves, range(states))
        yield f"cross {states} {each} {labels}", (text, text, "\n".join([*cross, "end"]) + "\n", True)
    for states, each, labels in ((61, 20, 6), (95, 85, 1), (20, 18, 22), (6, 6, 200), (500, 12, 1)):
        moves = at_random(states, each, labels)
        for kind in ("full", "diag", "half") if states < 100 else ("full", "diag"):
            rnd = random.Random(5)
            pairs = {
                "full": [(p, q) for p in range(states) for q in range(states)], "diag": around(states, 1),
                "half": [(p, q) for p in range(states) for q in range(states) if rnd.random() < 0.5],
            }[kind]
            for side in ("forward", "backward"):
                block = by_rows(pairs)
                if side == "backward":
                    block = by_rows([(p, q) for p, q in pairs if p])
                size = len("\n".join(block)) + 40 + 4 * states
                yield f"dense {kind} {side} {states} {each} {labels}", in_log(side, 6, states, moves, block, max(1, 62000 // size))
    # many small steps
    many = 2040
    moves = [(0, 0, q) for q in range(1, many)] + [(q, a, 0) for q in range(many - 1, many) for a in range(1, 256)]
    steps = [["cut 1 6", "gone 0 1", "rel 1", f"row {q} {q + 1} {q + 1}"] for q in range(1, 1500)]
    yield "many cuts of the first log", (automaton(moves, range(many)), LOOP, certificate((many, 1), 256, first=steps))
    steps = [["cut 3 6", "gone 0 1", "rel 0", "rel 1", f"row {q} {q + 1} {q + 1}"] for q in range(1, 1300)]
    yield "many double cuts of the first log", (automaton(moves, range(many)), LOOP, certificate((many, 1), 256, first=steps))
    moves = at_random(6, 6, 220)
    yield "many cuts of the second log", (
        EMPTY, automaton(moves, range(6)), certificate((3, 6), 220, second=[["cut", "gone 0"]] * 5500))
    same = "classes 0 1 2 3 4 5"
    for kind, rows in (("none", ["rel 0"]), ("full", by_rows([(p, q) for p in range(6) for q in range(6)]))):
        for side in ("forward", "backward"):
            if side == "backward" and kind == "full":
                rows = by_rows([(p, q) for p in range(1, 6) for q in range(6)])
            steps = [[f"merge {side} 6", same, *rows]] * (60000 // (45 + len("\n".join(rows))))
            yield f"many merges {side} {kind}", (EMPTY, automaton(moves, range(6)), certificate((3, 6), 220, second=steps))
    moves = at_random(512, 6, 2)
    few = [["trim " + " ".join(map(str, range(512)))] for _ in range(30)]
    yield "many trims", (EMPTY, automaton(moves, range(512)), certificate((3, 512), 2, second=few))
    # layers: each label leads to a part of its own of the next layer
    for width, labels, depth in ((40, 14, 6), (60, 9, 6), (24, 25, 6)):
        rnd, moves = random.Random(2), []
        for layer in range(depth):
            here, there = 1 + layer * width, 1 + (layer + 1) * width
            for a in range(labels):
                for p in range(here, there):
                    if layer < depth - 1:
                        moves += [(p, a, q) for q in rnd.sample(range(there, there + width), 2)]
        last = 1 + depth * width
        moves += [(last + layer, a, last + layer + 1) for layer in range(depth - 1) for a in range(labels)]
        moves = sorted({(0, 0, q) for q in range(1, last + depth)} | set(moves))
        states = last + depth
        pairs = [(last, q) for q in range(1, width)] + [(last + depth - 1, q) for q in range(last - width // 2, last)]
        for which in (1, 2):
            yield f"layers {width} {labels} {depth} log{which}", in_log("forward", 6, states, moves, pairs, 1, which)
    # large blocks
    moves = [(0, 0, q) for q in range(1, 2047)] + [(q, 1, q) for q in range(1, 2047)]
    block = [f"rel {2046}", *(f"row {q} 1 2046" for q in range(1, 2047))]
    yield "all pairs of 2,047 states", in_log("forward", 6, 2047, moves, block, 1, 1)
    block = [f"rel {2046}", *(f"row {q} {q} {q}" for q in range(1, 2047))]
    yield "closure of 2,046 rows", in_log("forward", 1, 2047, moves, block, 1, 1)
    odd = " ".join(f"{q} {q}" for q in range(2, 500, 2))
    moves = at_random(500, 12, 1)
    for side in ("forward", "backward"):
        yield f"long rows {side}", in_log(side, 6, 500, moves, ["rel 30", *(f"row {q} {odd}" for q in range(2, 32))])
    yield from delayed()
    yield from searches()
    yield from words()


def delayed():
    for states, labels, letters in ((18, 250, 2), (60, 70, 2), (5, 28, 3), (2, 12, 4), (90, 1, 1)):
        rnd, each = random.Random(3), max(1, 7000 // (states * labels))
        moves = at_random(states, each, labels)[:8000]
        codes = "0 1" if letters > 1 else None
        words = [()]
        for _ in range(letters - 1):
            words = [(*word, a) for word in words for a in range(labels)]
        rows = []
        width = max(1, min(states, 54000 // (states * len(words)) // 7)) if codes is None else 1
        for p in range(states):
            for word in words:
                rights = [(q, 1 + q) for q in range(width)] if codes is None else [(0, 1)]
                rows.append(" ".join(map(str, ["row", p, *word])) + " " + " ".join(f"{q} {c}" for q, c in rights))
        step = [f"merge delayed {letters}", "classes " + " ".join(map(str, range(states))), f"rel {len(rows)}", *rows]
        loops = [(0, a, 0) for a in range(labels)]
        moves = sorted(set(moves[: 7000 - labels]) | set(loops))
        moves = [(p, a, q) for p, a, q in moves]
        text = automaton(moves, range(states))
        yield f"delayed {letters} {states} {labels}", (EMPTY, text, certificate((3, states), labels, second=[step]))


def searches():
    """Elements, their graphs and what is asked of them."""
    for states, each, labels in ((95, 85, 1), (500, 12, 1), (500, 6, 2), (40, 30, 6)):
        moves = at_random(states, each, labels)
        second = automaton(moves, [1])
        first = automaton([(0, a, 0) for a in range(labels)], [0])
        count = 4200
        for form in ("list", "yes"):
            made = ["base 0", *(f"next {n} {n % labels}" for n in range(count - 1))]
            if form == "list":
                rest = [f"limit {count - 1}", f"elements {count}", *made, "end"]
            else:
                made = made[:1100]
                order = [f"rel {states}", *(f"row {q} 0 {states - 1}" if q != 1 else "row 1 1 1" for q in range(states))]
                order = [f"rel {states}", *(f"row {q} {q} {q}" for q in range(states))]
                steps = [f"step {n} " + " ".join(["5"] * labels) for n in range(1100)]
                rest = [*order, "elements 1100", *("live " + one for one in made), "cover " + " ".join(["0"] * labels), *steps, "end"]
            yield f"elements {form} {states} {each} {labels}", (
                first, second, certificate((1, states), labels, rest=rest, form=form))
    # covers: all are under one element
    for states, each, labels in ((300, 23, 1), (500, 12, 1), (90, 80, 1)):
        moves = at_random(states, each, labels)
        second = automaton(moves, range(states))
        first = automaton([(0, a, 0) for a in range(labels)], [0])
        every = [f"rel {states}", *(f"row {q} 0 {states - 1}" for q in range(states))]
        made = ["live base 0", *(f"under 0 base {n % labels}" for n in range(3500))]
        rest = [*every, f"elements {len(made)}", *made, "cover " + " ".join(["0"] * labels), "step 0 " + " ".join(["0"] * labels), "end"]
        yield f"under {states} {each} {labels}", (first, second, certificate((1, states), labels, rest=rest))
    # many lines of steps, each of many numbers
    for states, labels in ((4, 200), (2, 250), (1, 256)):
        found = sorted({(p, a, q) for p in range(states) for a in range(labels) for q in range(states)})
        first = automaton(sorted(found, key=lambda move: (move[0], move[1] != 0)), range(states))
        n = 30
        moves = [(p, a, q) for a in range(labels) for p, q in [(p, (p + 1 + a * 0) % n) for p in range(n)]]
        second = automaton(sorted(moves), range(n))
        second = automaton(sorted(moves, key=lambda move: (move[1], move[0])), range(n))
        every = [f"rel {n}", *(f"row {q} 0 {n - 1}" for q in range(n))]
        pairs = [(p, q) for p in range(states) for q in range(states)]
        trans = sorted(found)
        made = [f"live base {next(t for t, (p, _, q) in enumerate(trans) if (p, q) == pair)}" for pair in pairs]
        cover = "cover " + " ".join(str(pairs.index((p, q))) for p, _, q in trans)
        steps = [f"step {e} " + " ".join(str(pairs.index((pair[0], q))) for p, _, q in trans if p == pair[1]) for e, pair in enumerate(pairs)]
        rest = [*every, f"elements {len(made)}", *made, cover, *steps, "end"]
        yield f"long steps {states} {labels}", (first, second, certificate((states, n), labels, rest=rest))
    # lassos that are long to tell: a chain of accepting states behind a long way
    for length in (250, 450):
        moves = [(0, 0, 1)] + [(q, 0, q + 1) for q in range(1, length - 1)] + [(length - 1, 0, length - 1)]
        moves += [(q, a, q + 1) for a in (1, 2, 3) for q in range(length - 1)]
        second = automaton(sorted(moves), range(length // 2, length - 1))
        first = automaton([(0, a, 0) for a in range(4)], [0])
        made = ["base 0", *(f"next {n} {n % 4}" for n in range(1400))]
        steps = [f"step {n} 0 0 0 0" for n in range(len(made))]
        rest = ["rel 0", f"elements {len(made)}", *("live " + one for one in made), "cover 0 0 0 0", *steps, "end"]
        yield f"chains {length}", (first, second, certificate((1, length), 4, rest=rest))
    moves = [(q, 0, q + 1) for q in range(2046)] + [(q, 1, q + 1) for q in range(2046)] + [(1000, 2, q) for q in range(2, 900)]
    first = automaton(sorted(moves), range(1024, 2047))
    yield "useful states of a chain", (first, LOOP, certificate((2047, 1), 3, first=[["trim 0"]]))
    for labels in (1, 200):  # over finite words
        moves = at_random(500, max(1, 6500 // 500 // labels), labels) if labels == 1 else at_random(30, 1, 200)
        n = 500 if labels == 1 else 30
        second = automaton(moves, range(n))
        first = automaton([(0, a, 0) for a in range(labels)], [0])
        every = [f"rel {n}", *(f"row {q} 0 {n - 1}" for q in range(n))]
        count = 2000 if labels == 1 else 60
        made = ["live start", *(f"live next {e} {e % labels}" for e in range(count - 1))]
        steps = [f"step {e} " + " ".join(["9"] * labels) for e in range(count)]
        rest = [*every, f"elements {count}", *made, "cover 9", *steps, "end"]
        yield f"finite {labels}", (first, second, certificate((1, n), labels, rest=rest, mode="finite"))


def collisions():
    """As `families`, of sets that are different and equal modulo 2**61 - 1, which is Python's hash of a number: states 61
    apart."""
    moves = []
    for number, length in enumerate((31, 29, 27, 25), 1):
        ring = [number + 61 * k for k in range(length)]
        moves += [(0, 0, ring[0]), *((p, 0, q) for p, q in zip(ring, ring[1:] + ring[:1]))]
    zeros = " ".join("0" * 32700)
    no = f"rabit-cert 1 finite no\nsizes 2047 3 1\nword {zeros}\nend\n"
    yield "a word around four rings", (numbered(2047, moves)[0], EMPTY, no)
    # each label of a path is kept in one of the states that answer: what is read at `places`, and two keep the last
    labels, depth, places, classes = 8, 6, (0, 1, 2, 3, 4, 5, 5), {}

    def state(number, at, label=None):
        return 1 + classes.setdefault((number, at, label is None), len(classes)) + 61 * (label or 0)

    moves, top = [], 61 * labels + 1
    for at in range(depth):
        for label in range(labels):
            for number, place in enumerate(places):
                before = [state(number, at, kept) for kept in range(labels)] if place < at else [state(number, at)]
                after = [state(number, at + 1, kept) for kept in range(labels)] if place < at else None
                after = after or [state(number, at + 1, label if place == at else None)] * len(before)
                moves += [(p if at else 0, label, q) for p, q in zip(before, after)]
            moves.append((top + at, label, top + at + 1))
    ends = [state(5 + (label >= labels // 2), depth, label) for label in range(labels)]
    block = by_rows([(top, 0), *((top + depth, end) for end in ends)])
    text, labels = numbered(top + depth + 1, [(0, 0, 1), *moves])
    cert = certificate((top + depth + 1, 1), labels, first=[["cut 1 6", "gone 0 1", *block]])
    yield "paths that are kept in the answers", (text, LOOP, cert)


def words():
    """Lassos and words that are long."""
    for labels, states in ((3, 1700), (11, 600), (30, 200)):
        each = max(1, 7000 // (states * labels))
        moves = at_random(states, each, labels)[:7100]
        text = automaton(moves, range(states))
        second = automaton(at_random(500 if labels < 11 else 90, max(1, 7000 // (500 if labels < 11 else 90) // labels), labels)[:7100], [1])
        n = 500 if labels < 11 else 90
        rnd = random.Random(4)
        size = 30000 if labels <= 10 else 22000
        word = " ".join(str(rnd.randrange(labels)) for _ in range(size))
        half = " ".join(str(rnd.randrange(labels)) for _ in range(size // 4))
        sizes = f"sizes {states} {n} {labels}"
        yield f"loop {labels} {states}", (text, second, "\n".join(["rabit-cert 1 buchi no", sizes, "prefix", "loop " + word, "end"]) + "\n")
        yield f"prefix and loop {labels} {states}", (
            text, second, "\n".join(["rabit-cert 1 buchi no", sizes, "prefix " + half, "loop " + half, "end"]) + "\n")
        yield f"word {labels} {states}", (text, second, "\n".join(["rabit-cert 1 finite no", sizes, "word " + word, "end"]) + "\n")


def proof(form, sizes, rest, log1=(), log2=(), letters=None, classes=None, accepting=None):
    """A proof file with these logs, each a list of steps of lines, and what is behind them; what is not given is as it is."""
    front = []
    for name, numbers in (("letters", letters or range(sizes[2])), ("map", classes or range(sizes[0])), ("accepting", accepting)):
        numbers = range(sizes[0]) if numbers is None else numbers
        front.append(" ".join([name, *map(str, numbers)]))
    logs = [[f"{name} {len(log)}", *(line for step in log for line in step)] for name, log in (("log2", log2), ("log1", log1))]
    lines = [f"rabit-proof 1 {form}", "sizes {} {} {}".format(*sizes), *logs[0], *front, *logs[1], *rest]
    return "\n".join([*lines, "end"]) + "\n"


def proof_files():
    """By name: the three texts, of which the last is a proof file."""
    # pairs of a state with many moves, and pairs with many ranks
    many = 2900
    hub = automaton([(0, 0, q) for q in range(1, many)] + [(q, 0, 0) for q in range(1, many)], range(many))
    for count in (300, 2040):
        ring = automaton([(0, 0, 0), *((q, 0, 0) for q in range(1, count))], range(count))
        rows = [f"rel {many}", "row 0 " + " ".join(f"{q} 0" for q in range(count)), *(f"row {p} 0 0" for p in range(1, many))]
        yield f"a product of a state with many moves {count}", (hub, ring, proof("product", (many, count, 1), rows))
        rows[1:] = [row.replace(" 0 0", " 0 1") for row in rows[1:]]
        rows[1] = "row 0 " + " ".join(f"{q} {q + 1}" for q in range(count))
        yield f"a simulation of a state with many moves {count}", (hub, ring, proof("delayed", (many, count, 1), rows))
    some = 60
    moves = at_random(some, 20, 4)
    text = automaton(moves, range(some))
    rows = [f"rel {some}", *(f"row {p} " + " ".join(f"{q} {1 + (q * 7 + p) % 90}" for q in range(some)) for p in range(some))]
    yield "a simulation with many ranks", (text, text, proof("delayed", (some, some, 4), rows))
    # long lassos
    rnd = random.Random(6)
    for states, each, labels, size in ((2048, 1, 2, 28000), (1500, 2, 2, 28000), (400, 7, 2, 28000), (400, 1, 16, 20000), (2048, 1, 2, 40)):
        second = automaton(at_random(states, each, labels)[:6000], [1])
        loop = " ".join(str(rnd.randrange(labels)) for _ in range(size))
        first = automaton([(0, a, 0) for a in range(labels)], [0])
        yield f"loop {states} {each} {labels} {size}", (first, second, proof_no((1, states, labels), "", loop))
        yield f"loop of the first {states} {each} {labels} {size}", (second, first, proof_no((states, 1, labels), "", loop))
    states = 3900
    chain = automaton([(0, 0, 0), *((q, 0, q + 1) for q in range(states - 1)), *((0, 0, q) for q in range(1, 900))], [states - 1])
    yield "loop of a long chain", (chain, EMPTY, proof_no((states, 3, 1), "0 " * 9000, "0 " * 20000))
    # logs of large automata
    states = 3000
    moves = [(0, 0, q) for q in range(1, states)] + [(q, 0, 0) for q in range(1, states)]
    text, sizes = automaton(moves, range(states)), (states, 1, 1)
    cuts = [["cut 1 6", "gone 0 1", "rel 2", "row 0 0 0", f"row {q} {q + 1} {q + 1}"] for q in range(1, 700)]
    yield "many cuts of a large one", (text, LOOP, proof("product", sizes, ["rel 0"], log1=cuts))
    step = ["cut 1 6", "gone 0 1", "rel 3", f"row 0 0 {states - 1}", f"row 1 1 {states - 1}", f"row 2 1 {states - 1}"]
    yield "long runs of a large one", (text, LOOP, proof("product", sizes, ["rel 0"], log1=[step] * 500))
    block = [f"rel {states}", *(f"row {p} 0 {states - 1}" for p in range(states))]
    yield "all pairs of a large one", (text, LOOP, proof("product", sizes, ["rel 0"], log1=[["cut 1 2", "gone 0 1", *block]]))
    block = [f"rel {states}", "row 0 0 0", *(f"row {p} {min(p + 1, states - 1)} {min(p + 1, states - 1)}" for p in range(1, states))]
    gone = "gone " + " ".join(f"{t} {t + 1}" for t in range(1500))
    yield "closure of a large one", (text, LOOP, proof("product", sizes, ["rel 0"], log1=[["cut 1 1", gone, *block]]))
    wide = [(0, 0, q) for q in range(1, 2100)] + [(q, 0, 0) for q in range(1, 2100)] + [(1, 0, q) for q in range(2, 1700)]
    step = ["cut 1 6", "gone 0 1", "rel 1", "row 0 1 1"]
    yield "wide answers of a large one", (automaton(wide, range(2100)), LOOP, proof("product", (2100, 1, 1), ["rel 0"], log1=[step] * 900))
    few = [["trim " + " ".join(map(str, range(states - 1)))]] * 3
    yield "trims of a large one", (text, LOOP, proof("product", sizes, ["rel 0"], log1=few))
    # elements over a second automaton with many states
    for states, each in ((2048, 2), (1000, 5)):
        moves = at_random(states, each, 1)
        second, first = automaton(moves, range(states)), automaton([(0, 0, 0)], [0])
        made = ["live base 0", *(f"live next {n} 0" for n in range(1500))]
        steps = [f"step {n} 0" for n in range(len(made))]
        rest = ["rel 0", f"elements {len(made)}", *made, "cover 0", *steps]
        yield f"elements of large graphs {states}", (first, second, proof("closed", (1, states, 1), rest))
        every = [f"rel {states}", *(f"row {q} 0 {states - 1}" for q in range(states))]
        made = ["live base 0", *["under 0 base 0"] * 1500]
        rest = [*every, f"elements {len(made)}", *made, "cover 0", "step 0 0"]
        yield f"covers of large graphs {states}", (first, second, proof("closed", (1, states, 1), rest))


def proof_no(sizes, prefix, loop):
    lines = ["rabit-proof 1 no", "sizes {} {} {}".format(*sizes), f"prefix {prefix}".rstrip(), f"loop {loop}".rstrip(), "end"]
    return "\n".join(lines) + "\n"
