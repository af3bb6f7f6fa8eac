#!/usr/bin/env python3
"""A second checker of certificates of both versions, of cross files and of proof files, in plain Python, written from
docs/FORMATS.md alone.

    tools/check_cert.py [--patient] A B CERT
    tools/check_cert.py [--patient] --cross A B FILE
    tools/check_cert.py [--patient] --proof A B PROOF

It prints what `rabit check A B CERT`, with the option --cross what `rabit cross-check A B FILE`, prints and ends with the
same status: 0 included, 1 not included, 2 a list, 4 a fault of an automaton's text, 5 a refused certificate or cross file,
6 a file that cannot be read. With --proof it does the same of a proof file, whose faults it prints as `proof line L: NAME`
and `proof item I: rule R`. It shares no line with the program. It is not proved, it is not fast, and it takes what memory it
needs: its use is that somebody who trusts neither the program nor its proofs can read it in an evening.

Some files would keep it at work for hours: a relation at a large lookahead, say, that only long paths tell. So it counts the
steps of its work, each of about a seventh of a microsecond: 14 million are free, which are a few seconds, and each byte past
the first 64 KiB of a file adds 500. Where that is not enough it gives no verdict: it prints `not checked: more than N steps of
work; --patient goes on` and ends with the status 15. With --patient nothing ends it. The count depends on the files alone, and
on no clock.

A set of states is a number: state q is in it where its bit q is 1. A block of pairs is a dictionary from a state to the set
of those that it is related to. Where many sets are looked up they are keys as bytes: Python's hash of a number is its rest by
2**61 - 1, so states 61 apart give one hash, and a file can be made whose sets all collide. That of bytes differs from run to
run. The first automaton of a proof file may have so many states that a set for each of them is too much: past 2,048 states
there is none, and a block stays the runs of its rows.
"""
import re
import sys
from bisect import bisect_left, bisect_right
from collections import Counter
from functools import cached_property
from itertools import accumulate, groupby

# of the first file and of the second the most states, transitions and bytes, beside a certificate or a cross file and beside
# a proof file
LIMITS = {1: (2048, 65536, 1 << 24), 2: (512, 65536, 1 << 24)}
PROOF_LIMITS = {1: (1 << 18, 1 << 21, 1 << 26), 2: (2048, 65536, 1 << 24)}
LABELS, CERTIFICATE_BYTES = 256, 1 << 30
# an automaton with more states is large: it has no set of states for each of them
SMALL = 2048
# lassos are told place by place as long as there are no more places with a state than these, and so many for each label
PLACES, PLACES_PER_LABEL = 1 << 18, 16
# the steps of work that small files may take, and those that each byte of a file past so many adds
FREE_STEPS, STEPS_PER_BYTE, SMALL_FILE = 14_000_000, 500, 1 << 16
NOT_CHECKED = 15
HEADERS = [
    f"rabit-cert {version} {mode} {form}".encode()
    for version in (1, 2)
    for mode in ("buchi", "finite")
    for form in ("yes", "no", "list")
]
CROSS_HEADER = b"rabit-cross 1"
PROOF_HEADERS = [f"rabit-proof 1 {form}".encode() for form in ("no", "product", "delayed", "closed")]
BAD_BYTE = re.compile(rb"[\x00-\x08\x0a-\x1f\x7f]")


class Refused(Exception):
    """What is printed, and the status."""

    def __init__(self, text, status):
        super().__init__(text)
        self.text, self.status = text, status


class Work:
    """The steps of work that may be taken, and those that are left. Nothing is counted until some are allowed."""

    def __init__(self):
        self.allowed = self.left = float("inf")

    def allow(self, steps):
        self.allowed = self.left = steps

    def allow_more(self, steps):
        self.allowed, self.left = self.allowed + steps, self.left + steps

    def spend(self, steps):
        self.left -= steps
        if self.left < 0:
            raise Refused(f"not checked: more than {self.allowed} steps of work; --patient goes on", NOT_CHECKED)


WORK = Work()
spend = WORK.spend


# ---------------------------------------------------------------- automata


def set_of(states):
    """The set of these states."""
    mask = 0
    for state in states:
        mask |= 1 << state
    return mask


def set_below(bound, states):
    """The set of these states, all of them below the bound, in a time that grows by both and not by their product."""
    digits = bytearray(b"0") * (bound + 1)
    for state in states:
        digits[bound - state] = 49
    return int(digits, 2)


def key_of(mask):
    """The set as bytes, each set with bytes of its own."""
    return mask.to_bytes(mask.bit_length() // 8 + 1, "little")


def states_in(mask):
    """The states of a set, ascending."""
    digits = bin(mask)[:1:-1]
    state = digits.find("1")
    while state >= 0:
        yield state
        state = digits.find("1", state + 1)


class Steps:
    """What one step leads to: `rows` are the sets that single states lead to, and `of` is what a set does; `made` is the same
    for sets that are asked of once. Each row has at most `bits` bits."""

    def __init__(self, rows, bits=SMALL):
        self.rows, self.bits, self.found, self.eights = rows, bits, {}, {}

    @cached_property
    def all(self):
        """What some state leads to."""
        return self.by_states(set_of(self.rows))

    def of(self, mask):
        key = key_of(mask)
        found = self.found.get(key)
        if found is None:
            found = self.found[key] = self.made(mask)
        spend(4)
        return found

    def made(self, mask):
        count = bin(mask).count("1")
        many = count > min(24, mask.bit_length() // 8) and self.bits <= 1 << 13
        return self.by_eights(mask) if many else self.by_states(mask)

    def by_states(self, mask):
        found = count = 0
        for state in states_in(mask):
            found |= self.rows.get(state, 0)
            count += 1
        spend(15 + mask.bit_length() // 128 + count * (5 + self.bits // 4096))
        return found

    def by_eights(self, mask):
        """Eight states at a time, each eight of them once: sets are large, and there are many."""
        found, eights, data = 0, self.eights, key_of(mask)
        spend(10 + 3 * len(data))
        for place, byte in enumerate(data):
            if byte:
                key = place << 8 | byte
                if key not in eights:
                    eights[key] = self.by_states(byte << 8 * place)
                found |= eights[key]
        return found


class Automaton:
    """States and labels are numbers, `transitions` are sorted, and `accepting` is a set.

    `moves[state]` are the transitions out of a state, as (label, target), and `back[state]` those into it, as (label, source).
    `begins[state]` is the number of the first transition that leaves this state or a later one.
    """

    def __init__(self, states, initial, transitions, accepting):
        spend(5 * len(transitions))
        self.states, self.initial, self.accepting = states, initial, accepting
        self.transitions = sorted(transitions)
        self.steps, self.arrived = {}, {}

    @cached_property
    def accepts(self):
        """By state whether it is accepting."""
        spend(self.states)
        return [digit == "1" for digit in f"{self.accepting:0{self.states}b}"[::-1]]

    @cached_property
    def begins(self):
        spend(self.states + len(self.transitions))
        counts = [0] * (self.states + 1)
        for source, _, _ in self.transitions:
            counts[source + 1] += 1
        return list(accumulate(counts))

    @cached_property
    def moves(self):
        spend(self.states + 2 * len(self.transitions))
        moves = [[] for _ in range(self.states)]
        for source, label, target in self.transitions:
            moves[source].append((label, target))
        return moves

    @cached_property
    def back(self):
        spend(self.states + 2 * len(self.transitions))
        back = [[] for _ in range(self.states)]
        for source, label, target in self.transitions:
            back[target].append((label, source))
        return back

    @cached_property
    def by_label(self):
        spend(2 * len(self.transitions))
        by_label = {}
        for source, label, target in self.transitions:
            by_label.setdefault(label, []).append((source, target))
        return by_label

    @cached_property
    def endlessly_useful(self):
        return set_below(self.states, Cycles(lambda state: self.accepts[state], self.targets).leading([self.initial]))

    @cached_property
    def finitely_useful(self):
        before = self.back
        ending = reached(states_in(self.accepting), lambda state: [source for _, source in before[state]])
        return set_below(self.states, ending & reached([self.initial], self.targets))

    def useful(self, mode):
        return self.endlessly_useful if mode == "buchi" else self.finitely_useful

    def ahead(self, label):
        """Where the label leads from states."""
        return self.steps_by(label, False)

    def behind(self, label):
        """Whence the label leads to states."""
        return self.steps_by(label, True)

    def steps_by(self, label, turned):
        if (label, turned) not in self.steps:
            rows, pairs = {}, self.by_label.get(label, ())
            spend(10 + 4 * len(pairs))
            for source, target in pairs:
                one, other = (target, source) if turned else (source, target)
                rows[one] = rows.get(one, 0) | 1 << other
            self.steps[label, turned] = Steps(rows)
        return self.steps[label, turned]

    def arrivals(self, label):
        """The arrivals of the label's graph."""
        if label not in self.arrived:
            self.arrived[label] = arrivals_of(self, graph_of(self, label))
        return self.arrived[label]

    def out(self, state):
        """The numbers of the transitions out of the state."""
        return range(self.begins[state], self.begins[state + 1])

    def leaving(self, state):
        """The transitions out of the state."""
        return self.transitions[self.begins[state] : self.begins[state + 1]]

    def targets(self, state):
        return [target for _, _, target in self.leaving(state)]

    def targets_by(self, state, label):
        """Where the label leads from the state."""
        first, end = (bisect_left(self.transitions, (state, a)) for a in (label, label + 1))
        return [target for _, _, target in self.transitions[first:end]]


def reached(starts, after):
    """The nodes that ways lead to from the starts; `after` gives those that one step leads to."""
    met, todo = set(), list(starts)
    while todo:
        node = todo.pop()
        if node not in met:
            met.add(node)
            following = after(node)
            spend(8 + 2 * len(following))
            todo += following
    return met


class Cycles:
    """A search for cycles, depth first: which nodes lead to an accepting one that lies on a cycle? The way from the start to
    the node where the search is, with what hangs together with it, is cut into parts: of each node of a part there are ways to
    all others of it. A part is the place of its first node on the way, whether one of its nodes is accepting, and whether it
    is known to lead to an accepting node on a cycle; before all others there is one of no node."""

    def __init__(self, accepting, after, most=float("inf")):
        self.accepting, self.after, self.most, self.closed = accepting, after, most, False
        self.places, self.way, self.parts, self.found = {}, [], [[-1, False, False]], set()

    def leading(self, starts):
        """Of the nodes that are reached those that lead to such a one."""
        for _ in self.search(starts):
            pass
        return self.found

    def any(self, starts):
        """Whether one is reached, or None where more nodes are met than may be."""
        for _ in self.search(starts):
            if self.closed or len(self.places) > self.most:
                return self.closed or None
        return self.closed

    def search(self, starts):
        steps = [(None, iter(starts))]
        while steps:
            node, ways = steps[-1]
            for target in ways:
                if not self.known(target):
                    steps.append((target, iter(self.enter(target))))
                    break
            else:
                steps.pop()
                self.leave(node)
            yield

    def enter(self, node):
        self.places[node] = len(self.way)
        self.parts.append([len(self.way), self.accepting(node), False])
        self.way.append(node)
        following = self.after(node)
        spend(20 + 5 * len(following))
        return following

    def known(self, node):
        """Whether the node has been met. If it is on the way, all from there on hangs together and lies on a cycle."""
        place, parts = self.places.get(node), self.parts
        if place is None:
            return False
        if place < 0:
            parts[-1][2] = parts[-1][2] or node in self.found
            return True
        while parts[-1][0] > place:
            _, accepting, leads = parts.pop()
            parts[-1][1:] = parts[-1][1] or accepting, parts[-1][2] or leads
        if parts[-1][1]:
            parts[-1][2] = self.closed = True
        return True

    def leave(self, node):
        """All from the node on leaves the way, if nothing before it hangs together with it."""
        first = self.places.get(node)
        if first is None or self.parts[-1][0] < first:
            return
        _, _, leads = self.parts.pop()
        self.parts[-1][2] = self.parts[-1][2] or leads
        part = self.way[first:]
        del self.way[first:]
        self.places.update(dict.fromkeys(part, -1))
        if leads:
            self.found.update(part)


# A graph of an automaton is a tuple: for each state the set of those that have an arc to it, and, by the number of states
# further up in the same number, the set of those whose arc to it has the value 2. Its arrivals are the same as lists: of each
# state with arcs to it the states that these come from, those with the value 1 and those with the value 2.


def mark(automaton, state, sources):
    """The arcs from these states to this one, with the value 2 if it is accepting."""
    return sources | sources << automaton.states if automaton.accepting >> state & 1 else sources


def graph_of(automaton, label):
    rows = automaton.behind(label).rows
    spend(3 * automaton.states)
    return tuple(mark(automaton, state, rows.get(state, 0)) for state in range(automaton.states))


def arrivals_of(automaton, graph):
    spend(sum(5 + 3 * bin(arcs).count("1") for arcs in graph))
    strong = [arcs >> automaton.states for arcs in graph]
    plain = [(arcs & (1 << automaton.states) - 1) ^ more for arcs, more in zip(graph, strong)]
    parts = enumerate(zip(plain, strong))
    return [(state, list(states_in(one)), list(states_in(two))) for state, (one, two) in parts if one or two]


def extended(automaton, graph, arrivals):
    """The graph that goes on by the arcs of another, of which these are the arrivals."""
    states, made, arcs_taken = automaton.states, [0] * automaton.states, 0
    for state, ones, twos in arrivals:
        arcs = 0
        arcs_taken += len(ones) + len(twos)
        for source in twos:
            arcs |= graph[source]
        if arcs:
            arcs &= (1 << states) - 1
            arcs |= arcs << states
        for source in ones:
            arcs |= graph[source]
        made[state] = arcs
    spend(10 + states // 16 + max(6, states // 128) * len(arrivals) + 2 * arcs_taken)
    return tuple(made)


def graph_of_word(automaton, word):
    """The graph of a word of at least one label. Of a long word the pairs that stand in it often are taken together first, and
    then pairs of pairs, as long as there are few different ones and it costs less to go on by them."""
    spend(5 * len(word))
    parts = {label: automaton.arrivals(label) for label in word}
    first = tuple(1 << state for state in range(automaton.states))
    while len(word) > 64:
        pairs = list(zip(word[::2], word[1::2]))
        if len(set(pairs)) > min(100, len(pairs) // 4):
            break
        graphs = {pair: extended(automaton, extended(automaton, first, parts[pair[0]]), parts[pair[1]]) for pair in set(pairs)}
        larger = {pair: arrivals_of(automaton, graph) for pair, graph in graphs.items()}
        if cost(pairs, larger) > cost(word, parts):
            break
        larger[word[-1],] = parts[word[-1]]
        word, parts = pairs + [(word[-1],)] * (len(word) % 2), larger
    graph = first
    for place, part in enumerate(word):
        if place % 64 == 63 and len(set(graph)) <= 3:
            return gone_on(automaton, graph, word[place:])
        graph = extended(automaton, graph, parts[part])
    return graph


def gone_on(automaton, graph, word):
    """The graph that goes on by a word, where few sets of arcs differ: the states with the same one go on together."""
    states, made = automaton.states, [0] * automaton.states
    for arcs in set(graph) - {0}:
        ends, flagged, every = set_of(state for state in range(states) if graph[state] == arcs), 0, arcs & (1 << states) - 1
        for label in labels_of(word):
            steps = automaton.ahead(label)
            ends, flagged = steps.of(ends), steps.of(flagged)
            flagged |= ends & automaton.accepting
        for state in states_in(ends):
            made[state] |= every | every << states if flagged >> state & 1 else arcs
    return tuple(made)


def labels_of(word):
    """The labels of a word of parts: a part is a label, or has one part or two."""
    for part in word:
        if isinstance(part, tuple):
            yield from labels_of(part)
        else:
            yield part


def cost(word, parts):
    """About what it costs to go on by each part of the word."""
    return sum(count * sum(3 + len(ones) + len(twos) for _, ones, twos in parts[part]) for part, count in Counter(word).items())


def endless(automaton, graph):
    """The states from which some way along the arcs comes twice to a state, with a value 2 between."""
    spend(10 * automaton.states)
    before = Steps(dict(enumerate(arcs & (1 << automaton.states) - 1 for arcs in graph)))
    strong = Steps(dict(enumerate(arcs >> automaton.states for arcs in graph)))
    left, found = 0, (1 << automaton.states) - 1
    while left != found:
        # those that reach an arc of value 2 into what is left, in what is left
        left = found
        found = new = strong.of(left) & left
        while new:
            new = before.of(new) & left & ~found
            found |= new
    return left


def tokens_of(line):
    """The first of the kinds of fault that a line has by itself, or None; and the name of a state, or the label, the source
    and the target of a transition."""
    if BAD_BYTE.search(line):
        return "BadByte", ()
    label, comma, rest = line.partition(b",")
    if not comma:
        return "Shape" if b"->" in line else "TokenLong" if len(line) > 255 else None, (line,)
    ends = rest.split(b"->")
    if len(ends) != 2 or b"," in rest or b"->" in label:
        return "Shape", ()
    tokens = label.strip(b" \t"), ends[0].strip(b" \t"), ends[1].strip(b" \t")
    if not all(tokens):
        return "EmptyToken", ()
    return "TokenLong" if len(line) > 255 and max(map(len, tokens)) > 255 else None, tokens


class Reader:
    """Reads the lines of an automaton one after the other. Of the lines before the first transition `before` are the states;
    `listed` are those of the later state lines."""

    def __init__(self, number, limits):
        self.number, (self.most_states, self.most_transitions, self.most_bytes) = number, limits
        self.names, self.labels, self.transitions, self.before, self.listed = {}, {}, {}, [], []

    def fault(self, line, kind):
        raise Refused(f"file {self.number} line {line}: {kind}", 4)

    def take(self, at, line):
        kind, tokens = tokens_of(line)
        if kind:
            self.fault(at, kind)
        names, labels, transitions = self.names, self.labels, self.transitions
        if len(tokens) == 1:
            (self.listed if transitions else self.before).append(names.setdefault(line, len(names)))
        else:
            if not transitions and len(self.before) > 1:
                self.fault(at, "TwoInitial")
            label, source, target = tokens
            p, a = names.setdefault(source, len(names)), labels.setdefault(label, len(labels))
            transitions[p, a, names.setdefault(target, len(names))] = True
        if len(names) > self.most_states:
            self.fault(at, "TooManyStates")
        if len(labels) > LABELS:
            self.fault(at, "TooManyLabels")
        if len(transitions) > self.most_transitions:
            self.fault(at, "TooManyTransitions")

    def read(self, data):
        """The automaton and the texts of its labels, or the first fault of the text."""
        if len(data) > self.most_bytes:
            self.fault(0, "Long")
        for at, line in enumerate(data.split(b"\n"), 1):
            line = line.strip(b" \t\r")
            if line:
                self.take(at, line)
        if not self.names:
            self.fault(0, "Empty")
        # the first state that is seen is the initial one: of a state line, or the source of the first transition
        listed = (self.listed if self.transitions else self.before[1:]) or range(len(self.names))
        accepting = set_below(len(self.names), listed)
        return Automaton(len(self.names), 0, self.transitions, accepting), list(self.labels)


def join(first, first_labels, second, second_labels):
    """Both over the labels of the first and then the new ones of the second; the second's labels get those numbers."""
    numbers = {}
    for label in first_labels + second_labels:
        numbers.setdefault(label, len(numbers))
    of = [numbers[label] for label in second_labels]
    moved = [(source, of[label], target) for source, label, target in second.transitions]
    return first, Automaton(second.states, second.initial, moved, second.accepting), list(numbers)


# ---------------------------------------------------------------- the text of a certificate


class Text:
    """The lines of a certificate, taken one after another; each way to take one refuses what cannot stand there. What refuses a
    certificate tells its line or its item, and `main` puts before it of what."""

    def __init__(self, data):
        if len(data) > CERTIFICATE_BYTES:
            self.at = 0
            self.fault("Long")
        self.data, self.place, self.at = data, 0, 0

    def fault(self, kind):
        raise Refused(f"line {self.at}: {kind}", 5)

    def line(self):
        self.at += 1
        end = self.data.find(b"\n", self.place)
        if end < 0:
            self.fault("Truncated")
        line, self.place = self.data[self.place : end], end + 1
        return line

    def take(self, *kinds):
        """The next line, which is of one of the kinds; a kind is (words, numbers, tail). `words` has None in a number's place.

        The tail says what may follow: 0 nothing, 1 any number of numbers, 2 at least one, 3 at least one pair."""
        tokens = self.line().split(b" ")
        if not all(tokens):
            self.fault("Shape")
        # the words of a line are looked at before its numbers and its length
        fits = [kind for kind in kinds if all(word is None or word == token for word, token in zip(kind[0], tokens))]
        if not fits:
            self.fault("Shape")
        words, tail = fits[0]
        numbers = []
        for place, token in enumerate(tokens):
            if place >= len(words) or words[place] is None:
                numbers.append(self.number(token, place < len(words) or tail > 0))
        count = len(tokens) - len(words)
        if None in numbers or count < 0 or count > 0 and tail == 0 or count == 0 and tail > 1 or tail == 3 and count % 2:
            self.fault("Shape")
        return fits[0], numbers

    def finish(self):
        """The line `end`, and nothing behind it."""
        self.take(kind("end"))
        if self.place < len(self.data):
            self.at += 1
            self.fault("Trailing")

    def number(self, token, due):
        fine = token.isdigit() and len(token) <= 9 and (token == b"0" or token[:1] != b"0")
        if not fine and due:
            self.fault("Number")
        return int(token) if fine else None

    def ascend(self, numbers):
        if any(a >= b for a, b in zip(numbers, numbers[1:])):
            self.fault("Order")
        return numbers


def kind(text, tail=0):
    return tuple(None if word == "#" else word.encode() for word in text.split()), tail


def read_block(text, version):
    """A block as its rows: the left state of each and the runs of its right states, each as its first and its last one."""
    _, (rows,) = text.take(kind("rel #"))
    block, last = {}, -1
    for _ in range(rows):
        _, (left, *rights) = text.take(kind("row #", 3 if version == 2 else 2))
        runs = list(zip(rights[::2], rights[1::2])) if version == 2 else [(right, right) for right in rights]
        gap = 2 if version == 2 else 1
        if any(f > l for f, l in runs) or any(f < l + gap for (_, l), (f, _) in zip(runs, runs[1:])) or left <= last:
            text.fault("Order")
        last = left
        block[left] = runs
    return block


def read_ranks(text, letters):
    """The block of a delayed merge as its rows: the left state and the word of each, and the code of each right state."""
    _, (rows,) = text.take(kind("rel #"))
    block, last = {}, ()
    for _ in range(rows):
        _, numbers = text.take(kind("row #" + " #" * (letters - 1), 3))
        key, rights = tuple(numbers[:letters]), numbers[letters:]
        text.ascend(rights[::2])
        if key <= last:
            text.fault("Order")
        last = key
        block[key] = dict(zip(rights[::2], rights[1::2]))
    return block


def read_first_log(text, version):
    _, (count,) = text.take(kind("log1 #"))
    for_pair = {1: ("forward",), 2: ("backward",), 3: ("backward", "forward"), 4: ("backward", "forward")}
    log = []
    for _ in range(count):
        (words, _), numbers = text.take(kind("trim", 1), kind("merge"), kind("cut # #"))
        if words[0] == b"trim":
            log.append(("trim", text.ascend(numbers)))
        elif words[0] == b"merge":
            log.append(("merge", text.take(kind("classes", 2))[1]))
        else:
            pair, look = numbers
            if pair not in for_pair:
                text.fault("Shape")
            gone = text.take(kind("gone", 3))[1]
            text.ascend(gone[::2])
            looks = {3: (look, 1), 4: (1, look)}.get(pair, (look,))
            blocks = [(side, k, read_block(text, version)) for side, k in zip(for_pair[pair], looks)]
            log.append(("cut", pair, look, list(zip(gone[::2], gone[1::2])), blocks))
    return log


def read_second_log(text, version, mode):
    _, (count,) = text.take(kind("log2 #"))
    delayed = kind("merge delayed #" if version == 2 else "merge delayed")
    merges = [kind("merge forward #"), kind("merge backward #")] + ([delayed] if mode == "buchi" else [])
    log = []
    for _ in range(count):
        (words, _), numbers = text.take(kind("trim", 1), *merges, kind("cut"))
        if words[0] == b"trim":
            log.append(("trim", text.ascend(numbers)))
        elif words[0] == b"merge":
            by, number = words[1].decode(), numbers[0] if numbers else 1
            if by == "delayed" and not 1 <= number <= 4:
                text.fault("Shape")
            classes = text.take(kind("classes", 2))[1]
            block = read_ranks(text, number) if by == "delayed" else read_block(text, version)
            log.append(("merge", classes, by, number, block))
        else:
            log.append(("cut", text.ascend(text.take(kind("gone", 2))[1])))
    return log


def read_origin(text, mode, marked):
    start = ("base #",) if mode == "buchi" else ("start",)
    origins = start + ("next # #",)
    marks = ("live ", "under # ") if marked else ("",)
    (words, _), numbers = text.take(*(kind(mark + origin) for mark in marks for origin in origins))
    under = numbers.pop(0) if words[0] == b"under" else None
    return under, tuple(numbers)


def read_words(text, *kinds):
    return [text.take(kind(name, tail))[1] for name, tail in kinds]


def read_lasso(text):
    return read_words(text, ("prefix", 1), ("loop", 2))


def read_elements(text, mode, marked):
    (count,) = text.take(kind("elements #"))[1]
    return [read_origin(text, mode, marked) for _ in range(count)]


def read_closed(text, version, mode):
    """What is behind the logs of a yes."""
    closed = {"order": read_block(text, version), "elements": read_elements(text, mode, True)}
    closed["cover"], closed["steps"] = text.take(kind("cover", 1))[1], []
    for element, (under, _) in enumerate(closed["elements"]):
        if under is None:
            _, (named, *by) = text.take(kind("step #", 1))
            if named != element:
                text.fault("Order")
            closed["steps"].append((named, by))
    return closed


def read_certificate(data):
    """The certificate as a dictionary, or the first fault of the text."""
    text = Text(data)
    header = text.line()
    if header not in HEADERS:
        text.fault("Header")
    mode, form = header.decode().split()[2:]
    version = int(header.split()[1])
    cert = {"mode": mode, "form": form, "sizes": tuple(text.take(kind("sizes # # #"))[1])}
    if form == "no":
        cert["words"] = read_lasso(text) if mode == "buchi" else read_words(text, ("word", 1))
    else:
        cert["first"], cert["second"] = read_first_log(text, version), read_second_log(text, version, mode)
        if form == "list":
            (cert["limit"],) = text.take(kind("limit #"))[1]
            cert["elements"] = read_elements(text, mode, False)
        else:
            cert.update(read_closed(text, version, mode))
    text.finish()
    return cert


def read_cross(data):
    """The cross file as a dictionary, or the first fault of the text."""
    text = Text(data)
    if text.line() != CROSS_HEADER:
        text.fault("Header")
    cross = {"sizes": tuple(text.take(kind("sizes # # #"))[1])}
    (cross["look"],) = text.take(kind("look #"))[1]
    cross["block"] = read_block(text, 1)
    text.finish()
    return cross


def read_proof(data):
    """The proof file as a dictionary, or the first fault of the text."""
    text = Text(data)
    header = text.line()
    if header not in PROOF_HEADERS:
        text.fault("Header")
    form = header.decode().split()[2]
    proof = {"form": form, "sizes": tuple(text.take(kind("sizes # # #"))[1])}
    if form == "no":
        proof["words"] = read_lasso(text)
    else:
        proof["second"] = read_second_log(text, 2, "buchi")
        proof["letters"], proof["map"] = read_words(text, ("letters", 1), ("map", 1))
        proof["accepting"] = text.ascend(text.take(kind("accepting", 1))[1])
        proof["first"] = read_first_log(text, 2)
        if form == "closed":
            proof.update(read_closed(text, 2, "buchi"))
        else:
            proof["rows"] = {p: codes for (p,), codes in read_ranks(text, 1).items()}
    text.finish()
    return proof


# ---------------------------------------------------------------- relations and games


class Closure:
    """The reflexive and transitive closure of a block."""

    def __init__(self, block):
        spend(2 * len(block) ** 2)
        self.rows = {p: row | 1 << p for p, row in block.items()}
        for middle in self.rows:
            bit, further = 1 << middle, self.rows[middle]
            for p, row in self.rows.items():
                if row & bit:
                    self.rows[p] = row | further

    def relates(self, p, q):
        return p == q or self.rows.get(p, 0) >> q & 1 == 1


class RunsClosure:
    """As Closure, of the runs of a block; what is related is looked for when it is asked."""

    def __init__(self, block):
        self.block, self.lefts = block, list(block)

    def relates(self, p, q):
        if p == q:
            return True
        spend(10 + len(self.lefts) // 16)
        rest, todo = list(self.lefts), [p]
        while todo:
            for first, last in self.block.get(todo.pop(), ()):
                if first <= q <= last:
                    return True
                at, end = bisect_left(rest, first), bisect_right(rest, last)
                spend(10 + end - at + (len(rest) // 256 if at < end else 0))
                todo += rest[at:end]
                del rest[at:end]
        return False


class Identity:
    """Each state is related to itself."""

    @staticmethod
    def relates(p, q):
        return p == q


class Rows(dict):
    """Rows that are made when they are first asked for, each from its state."""

    def __init__(self, make):
        super().__init__()
        self.make = make

    def get(self, state, default=0):
        if state not in self:
            self[state] = self.make(state)
        return self[state]


class Game:
    """Rounds at a lookahead. Paths are shown in one automaton and answered in another, along their transitions, or against
    them where it is `turned`; `fit` gives the set of states that match a state that is shown.

    What is asked of many shown states at a time is asked of their set: paths with the same labels whose states match alike
    have the same answers, and go on together. What is asked of all labels at a time is asked of places: a place is a label
    and the state that it is shown to lead to, and sets of places are numbers too, in which the states of each of the `labels`
    follow those of the one before."""

    def __init__(self, shown, answers, turned, fit, look, block):
        self.shown, self.answers, self.turned, self.fit = shown, answers, turned, fit
        self.look, self.block, self.moves = look, block, shown.back if turned else shown.moves
        spend(len(shown.transitions) + 6 * shown.states)
        self.ended = set_of(p for p, moves in enumerate(self.moves) if not moves)
        self.alike = {}  # by the set of states that match: the shown states that it matches
        for p in range(shown.states):
            self.alike[fit(p)] = self.alike.get(fit(p), 0) | 1 << p
        self.related = {}  # by a state that answers: those that the block relates to it
        lefts = {}  # by a row of the block: the states that it is of
        for p, row in block.items():
            lefts[row] = lefts.get(row, 0) | 1 << p
        for row, own in lefts.items():
            spend(10 + 5 * bin(row).count("1"))
            for q in states_in(row):
                self.related[q] = self.related.get(q, 0) | own
        self.labels, self.level, self.once, self.kept = sorted(shown.by_label), {}, {}, {}
        bits = shown.states * len(self.labels)
        self.places = Steps(Rows(lambda p: self.side_by_side(self.show(label).rows.get(p, 0) for label in self.labels)), bits)
        self.dead_ends = self.side_by_side(self.ended for _ in self.labels)

    def show(self, label, back=False):
        return self.shown.steps_by(label, self.turned != back)

    def answer(self, label, back=False):
        return self.answers.steps_by(label, self.turned != back)

    def is_stable(self):
        """Whether each pair of the block matches and keeps its round."""
        if any(row & ~self.fit(p) for p, row in self.block.items()):
            return False
        for q, pairs in self.related.items():
            pairs &= ~self.ended
            for left in (1, self.look):
                pairs &= ~self.keeping(q, left) if pairs else 0
            if not all(self.keeps(pairs & same, self.look, 1 << q) for same in self.alike.values()):
                return False
        return True

    def keeping(self, q, left):
        """States of which each path of so many moves is answered from q, move by move as it is shown. There are more of which
        an answer that knows the whole path has one."""
        if not left:
            return 0
        lost, later = self.ended, self.answered(left - 1)
        spend(4 * len(self.labels))
        for label in self.shown.by_label:
            after = self.answer(label).rows.get(q, 0)
            missed = self.show(label).all & ~later.of(after) if after else -1
            if missed:
                lost |= self.show(label, back=True).of(missed) if after else self.show(label, back=True).all
        return (1 << self.shown.states) - 1 & ~lost

    def answered(self, left):
        """By an answering state those shown ones with which it is in the block, or of which each path of so many moves is
        answered from it move by move. As steps: what some state of a set answers."""
        if left not in self.level:

            def row(q):
                fine = self.related.get(q, 0) | self.keeping(q, left)
                return self.matched(q) & fine if fine else 0

            self.level[left] = Steps(Rows(row))
        return self.level[left]

    def matched(self, q):
        """The shown states that q matches."""
        found = 0
        for fit, same in self.alike.items():
            if fit >> q & 1:
                found |= same
        return found

    def side_by_side(self, sets):
        """The set of places with these states, a set for each label."""
        spend(len(self.labels) * (2 + self.shown.states * len(self.labels) // 4096))
        return sum(states << at * self.shown.states for at, states in enumerate(sets) if states)

    def answered_places(self, left):
        """By an answering state the places that it answers, move by move, of a path of so many moves. As steps."""
        if left not in self.once:
            later = self.answered(left - 1)

            def row(q):
                return self.side_by_side(later.of(self.answer(label).rows.get(q, 0)) for label in self.labels)

            self.once[left] = Steps(Rows(row), self.places.bits)
        return self.once[left]

    def keeps(self, shown, left, replies):
        """Whether each path of so many moves that are still to be shown from a state of the set is answered from one of the
        replies, which are where an answer may stand; they match each state of the set. What was answered once is kept."""
        spend(30)
        asked = left, key_of(replies)
        shown &= ~self.kept.get(asked, 0)
        if not shown:
            return True
        if not left or not replies or shown & self.ended:
            return False
        places = self.places.made(shown) & ~self.answered_places(left).made(replies)
        if places and left == 1 or places & self.dead_ends:
            return False
        if places and not all(self.keep_on(label, states, left - 1, replies) for label, states in self.apart(places)):
            return False
        self.kept[asked] = self.kept.get(asked, 0) | shown
        return True

    def apart(self, places):
        """The labels of a set of places, each with its states."""
        spend(len(self.labels) * (2 + self.places.bits // 4096))
        for label in self.labels:
            states = places & (1 << self.shown.states) - 1
            places >>= self.shown.states
            if states:
                yield label, states

    def keep_on(self, label, states, left, replies):
        """Whether each path that goes on by the label to one of the states is answered from one of the replies."""
        after = self.answer(label).made(replies)
        return all(self.keeps(states & same, left, after & fit) for fit, same in self.alike.items())


class RunsGame:
    """As Game in one automaton, pair by pair: of a large automaton, whose block is the runs of its rows. A set of states is a
    tuple, ascending."""

    def __init__(self, automaton, turned, look, block):
        self.automaton, self.turned, self.look, self.block = automaton, turned, look, block
        self.moves, self.by_labels, self.kept = automaton.back if turned else automaton.moves, {}, {}

    def is_stable(self):
        pairs = ((p, q) for p, runs in self.block.items() for first, last in runs for q in range(first, last + 1))
        return all(self.matching(p, (q,)) and (not self.moves[p] or self.keeps(p, self.look, (q,))) for p, q in pairs)

    def matching(self, p, states):
        """Those of the states that match p."""
        spend(3 + len(states))
        if self.turned and p == self.automaton.initial:
            states = tuple(q for q in states if q == p)
        accepts = self.automaton.accepts
        return tuple(q for q in states if accepts[q]) if accepts[p] else states

    def by_label(self, state):
        """The states that one move from this one leads to, by its label."""
        if state not in self.by_labels:
            spend(10 + 3 * len(self.moves[state]))
            found = self.by_labels[state] = {}
            for label, target in self.moves[state]:
                found.setdefault(label, []).append(target)
        return self.by_labels[state]

    def keeps(self, p, left, replies):
        """Whether each path of so many moves that is shown from p, of which there is one, is answered from a reply."""
        asked = p, left, replies
        spend(20 + len(replies))
        if asked not in self.kept:
            self.kept[asked] = all(
                self.are_answered(targets, left - 1, self.answers(label, replies)) for label, targets in self.by_label(p).items()
            )
        return self.kept[asked]

    def answers(self, label, replies):
        answers = set().union(*(self.by_label(q).get(label, ()) for q in replies))
        spend(10 + 5 * len(answers))
        return tuple(sorted(answers))

    def are_answered(self, targets, left, answers):
        """Whether each of the targets, which are shown by one label, is answered by one of these, or is later."""
        some = {}
        for target in targets:
            case = self.automaton.accepts[target], self.turned and target == self.automaton.initial
            if case not in some:
                some[case] = self.matching(target, answers)
            if not self.are_listed(target, some[case]):
                if not left or not some[case] or not self.moves[target] or not self.keeps(target, left, some[case]):
                    return False
        return True

    def are_listed(self, p, states):
        """Whether one of the states is in the row of p."""
        runs = self.block.get(p, ())
        spend(10 + 5 * len(runs))
        places = ((bisect_left(states, first), last) for first, last in runs)
        return any(place < len(states) and states[place] <= last for place, last in places)


def stable(automaton, side, look, block):
    """Whether the block is stable on this side."""
    if is_large(automaton):
        return RunsGame(automaton, side == "backward", look, block).is_stable()
    everything = (1 << automaton.states) - 1

    def fit(p):
        fine = automaton.accepting if automaton.accepting >> p & 1 else everything
        return fine & 1 << p if side == "backward" and p == automaton.initial else fine

    return Game(automaton, automaton, side == "backward", fit, look, block).is_stable()


def stable_across(first, second, look, block):
    """Whether each pair of a state of the first and a state of the second matches and keeps its round across."""

    def fit(p):
        return second.accepting if first.accepting >> p & 1 else (1 << second.states) - 1

    return Game(first, second, False, fit, look, block).is_stable()


def is_large(automaton):
    return automaton.states > SMALL


class Ranks:
    """The right states of one row of a delayed block, by their codes; a code is the rank and one, or 0."""

    def __init__(self, codes):
        self.codes, self.all, self.by_code, self.below = codes, set_of(codes), {}, {}
        for q, code in codes.items():
            self.by_code[code] = self.by_code.get(code, 0) | 1 << q

    def ranked_below(self, code):
        """Those that have a rank, and one with a lesser code."""
        if code not in self.below:
            spend(2 * len(self.codes))
            self.below[code] = set_of(q for q, c in self.codes.items() if 0 < c < code)
        return self.below[code]


def unanswered(automaton, rows, label, keys, row):
    """The right states of the row that do not answer by the label into each of the rows with these keys, with a lesser rank
    where they have one above 0."""
    behind, missed = automaton.behind(label), 0
    for key in keys:
        after = rows.get(key)
        spend(10 + 3 * len(row.by_code))
        if after is None:
            return row.all
        missed |= row.all & ~behind.of(after.all)
        for code, states in row.by_code.items():
            if code > 1:
                missed |= states & ~behind.of(after.ranked_below(code))
    return missed


def delayed_right(automaton, labels, block):
    """Whether triples and codes are right, whatever further label is announced."""
    rows = {key: Ranks(codes) for key, codes in block.items()}
    for (p, *ahead), row in rows.items():
        if automaton.accepting >> p & 1 and 0 in row.by_code or row.by_code.get(1, 0) & ~automaton.accepting:
            return False
        for label in [ahead[0]] if ahead else range(labels):
            spend(10 + (labels if ahead else 0))
            targets = states_in(automaton.ahead(label).rows.get(p, 0))
            rests = [(*ahead[1:], more) for more in range(labels)] if ahead else [()]
            if unanswered(automaton, rows, label, ((target, *rest) for target in targets for rest in rests), row):
                return False
    return True


def state_relation(states, labels, letters, block):
    """The pairs of states whose triple stands in the block for each word."""
    words = labels ** (letters - 1)
    if words == 0:
        return dict.fromkeys(range(states), (1 << states) - 1)
    counts = {}
    for (p, *_), rights in block.items():
        row = counts.setdefault(p, {})
        for q in rights:
            row[q] = row.get(q, 0) + 1
    return {p: set_of(q for q, count in row.items() if count == words) for p, row in counts.items()}


# ---------------------------------------------------------------- steps of a log


def keep(automaton, kept):
    """The listed states with what lies between them, and the initial state, listed or not."""
    if len(kept) == automaton.states:
        return automaton
    listed = set(kept)
    numbers = {state: number for number, state in enumerate(sorted(listed | {automaton.initial}))}
    moves = [(numbers[p], a, numbers[q]) for p, a, q in automaton.transitions if p in listed and q in listed]
    accepting = set_below(len(numbers), (numbers[q] for q in states_in(automaton.accepting) if q in listed))
    return Automaton(len(numbers), numbers[automaton.initial], moves, accepting)


def merge(automaton, classes):
    count = max(classes) + 1
    if count == automaton.states:
        return automaton
    moves = {(classes[p], a, classes[q]) for p, a, q in automaton.transitions}
    accepting = set_below(count, (classes[q] for q in states_in(automaton.accepting)))
    return Automaton(count, classes[automaton.initial], moves, accepting)


def cut(automaton, gone):
    """Without these transitions, which ascend. What is known of the steps by other labels stays known."""
    moves, begin = [], 0
    for t in gone:
        moves += automaton.transitions[begin:t]
        begin = t + 1
    moves += automaton.transitions[begin:]
    labels = {automaton.transitions[t][1] for t in gone}
    after = Automaton(automaton.states, automaton.initial, moves, automaton.accepting)
    after.steps = {key: steps for key, steps in automaton.steps.items() if key[0] not in labels}
    return after


def class_shape(count, classes):
    """Whether there are so many classes, numbered as they first appear."""
    seen = 0
    for number in classes:
        if number > seen:
            return False
        seen = max(seen, number + 1)
    return len(classes) == count


def in_block(block, states):
    return all(p < states and runs[-1][1] < states for p, runs in block.items())


def in_ranks(block, states, labels):
    return all(
        p < states and all(a < labels for a in ahead) and all(q < states for q in rights) for (p, *ahead), rights in block.items()
    )


def as_sets(block):
    """The right states of each row as a set; the last of each run has been looked at before."""
    sets = {}
    for p, runs in block.items():
        sets[p] = 0
        for first, last in runs:
            sets[p] |= (1 << last + 1) - (1 << first)
    return sets


def cut_rules(automaton, pair, gone, blocks):
    """Rules 7 and 8 of a cut of the first log: the rule that is broken, or None."""
    closures = [RunsClosure(block) if is_large(automaton) else Closure(block) for _, _, block in blocks]
    sources = Identity if pair == 1 else closures[0]
    targets = Identity if pair == 2 else closures[-1]
    moves = [(automaton.transitions[t], automaton.transitions[b]) for t, b in gone]
    for (p, a, r), (q, b, s) in moves:
        if a != b or not sources.relates(p, q) or not targets.relates(r, s):
            return 7
    for (p, _, r), (q, _, s) in moves:
        if targets.relates(s, r) if pair in (1, 3) else sources.relates(q, p):
            return 8
    return None


def first_step(automaton, mode, step):
    """The rule that the step of the first log breaks, or the automaton after it."""
    if step[0] == "trim":
        if any(state >= automaton.states for state in step[1]):
            return 1, None
        lost = automaton.useful(mode) & ~set_below(automaton.states, step[1])
        return (2, None) if lost else (None, keep(automaton, step[1]))
    if step[0] == "merge":
        return (None, merge(automaton, step[1])) if class_shape(automaton.states, step[1]) else (3, None)
    _, pair, look, gone, blocks = step
    count = len(automaton.transitions)
    named = all(t < count and b < count for t, b in gone) and all(in_block(block, automaton.states) for _, _, block in blocks)
    if not 1 <= look <= 6 or not named:
        return 1, None
    if not is_large(automaton):
        blocks = [(side, k, as_sets(block)) for side, k, block in blocks]
    if not all(stable(automaton, side, k, block) for side, k, block in blocks):
        return 4, None
    rule = cut_rules(automaton, pair, gone, blocks)
    return (rule, None) if rule else (None, cut(automaton, [t for t, _ in gone]))


def second_step(automaton, labels, step):
    """The rule that the step of the second log breaks, or the automaton after it."""
    if step[0] == "trim":
        return (1, None) if any(state >= automaton.states for state in step[1]) else (None, keep(automaton, step[1]))
    if step[0] == "cut":
        fine = all(t < len(automaton.transitions) for t in step[1])
        return (None, cut(automaton, step[1])) if fine else (1, None)
    _, classes, by, number, block = step
    states = automaton.states
    named = in_ranks(block, states, labels) if by == "delayed" else 1 <= number <= 6 and in_block(block, states)
    if not named:
        return 1, None
    if not class_shape(automaton.states, classes):
        return 3, None
    if by == "delayed":
        if not delayed_right(automaton, labels, block):
            return 5, None
        block = state_relation(states, labels, number, block)
    else:
        block = as_sets(block)
        if not stable(automaton, by, number, block):
            return 4, None
    closure = Closure(block)
    members = sorted(range(automaton.states), key=lambda state: classes[state])
    for _, group in groupby(members, key=lambda state: classes[state]):
        group = list(group)
        if not all(closure.relates(p, q) and closure.relates(q, p) for p, q in zip(group, group[1:])):
            return 6, None
    return None, merge(automaton, classes)


# ---------------------------------------------------------------- elements


def runs_in(mask):
    """The runs of states that follow one another in a set, each as its first and its last one."""
    runs = []
    for state in states_in(mask):
        if runs and runs[-1][1] == state - 1:
            runs[-1][1] = state
        else:
            runs.append([state, state])
    return runs


class Unions:
    """Unions of sets that follow one another in a list, put together from two whose number is a power of two."""

    def __init__(self, sets):
        self.levels = [sets]

    def over(self, first, last):
        level = (last - first + 1).bit_length() - 1
        while len(self.levels) <= level:
            spend(max(2, len(self.levels[0]) // 256) * len(self.levels[0]))
            below, half = self.levels[-1], 1 << len(self.levels) - 1
            self.levels.append([one | other for one, other in zip(below, below[half:])])
        return self.levels[level][first] | self.levels[level][last + 1 - (1 << level)]


class Distinct:
    """Tuples of numbers, sets among them, each once and in the order in which they come."""

    def __init__(self):
        self.tuples, self.by_hash = [], {}

    def add(self, numbers):
        """Whether the tuple was not there yet. It is now."""
        same = self.by_hash.setdefault(hash(tuple(hash(key_of(number)) for number in numbers)), [])
        if numbers in same:
            return False
        same.append(numbers)
        self.tuples.append(numbers)
        return True


class Buchi:
    """Elements as an arc (from, to, flag) with a graph."""

    def __init__(self, first, second):
        self.first, self.second, self.order, self.runs = first, second, {}, None
        self.graphs, self.last = {}, (None, {})

    def extend(self, graph, label):
        """The graph that goes on; of the last graph all that were made of it are kept."""
        if self.last[0] is not graph:
            self.last = graph, {}
        made = self.last[1]
        if label not in made:
            made[label] = extended(self.second, graph, self.second.arrivals(label))
        return made[label]

    def base(self, t):
        source, label, target = self.first.transitions[t]
        if label not in self.graphs:
            self.graphs[label] = graph_of(self.second, label)
        return source, target, self.first.accepts[target], self.graphs[label]

    def next(self, x, t):
        _, label, target = self.first.transitions[t]
        return x[0], target, x[2] or self.first.accepts[target], self.extend(x[3], label)

    @staticmethod
    def at(x):
        return x[1]

    @staticmethod
    def sets(x):
        """What tells the element from others, a tuple of numbers."""
        return (*x[:3], *x[3])

    def starts(self):
        """How many elements the others begin with, and these."""
        count = len(self.first.transitions)
        return count, map(self.base, range(count))

    def covers(self, g, h):
        """Whether each arc of g has one of h from the same state to one that the order relates its target to."""
        if self.runs is None:
            self.runs = {t: runs_in(row) for t, row in self.order.items()}
        unions = Unions(h)
        spend(10 + 3 * len(g))
        for t, arcs in enumerate(g):
            if arcs and not (self.order.get(t, 0) >> t & 1 and not arcs & ~h[t]):
                for first, last in self.runs.get(t, ()):
                    spend(10)
                    arcs &= ~unions.over(first, last)
                    if not arcs:
                        break
                if arcs:
                    return False
        return True

    def subsumes(self, x, y):
        return x[:2] == y[:2] and x[2] >= y[2] and self.covers(x[3], y[3])

    def failing(self, live):
        """The place of the first live element that has no lasso with some live element, or None."""
        turns, initial = {}, self.second.initial
        for _, y in live:
            if y[0] == y[1] and y[2]:
                spend(2 * self.second.states)
                turns.setdefault(y[0], Distinct()).add(y[3])
        goods = {p: {endless(self.second, graph) for graph in graphs.tuples} for p, graphs in turns.items()}
        for place, x in live:
            if x[0] == self.first.initial:
                spend(2 * self.second.states + len(goods.get(x[1], ())))
                row = set_of(q for q, arcs in enumerate(x[3]) if arcs >> initial & 1)
                if any(not row & good for good in goods.get(x[1], ())):
                    return place
        return None


class Finite:
    """Elements as a state with a set of states."""

    def __init__(self, first, second):
        self.first, self.second, self.order = first, second, {}

    def start(self):
        return self.first.initial, 1 << self.second.initial

    def next(self, x, t):
        _, label, target = self.first.transitions[t]
        return target, self.second.ahead(label).of(x[1])

    @staticmethod
    def at(x):
        return x[0]

    @staticmethod
    def sets(x):
        """What tells the element from others, a tuple of numbers."""
        return x

    def starts(self):
        return 1, [self.start()]

    def subsumes(self, x, y):
        spend(5 + 4 * bin(x[1]).count("1"))
        return x[0] == y[0] and all(self.order.get(q, 0) & y[1] for q in states_in(x[1]))

    def failing(self, live):
        for place, x in live:
            if self.first.accepts[x[0]] and not x[1] & self.second.accepting:
                return place
        return None


# ---------------------------------------------------------------- the check


def broken(item, rule):
    raise Refused(f"item {item}: rule {rule}", 5)


def make_elements(search, elements, item):
    """The elements, each by rules 1, 10 and 11 in its turn; the first has this item."""
    transitions, made = search.first.transitions, []
    for number, (under, origin) in enumerate(elements):
        spend(20)
        named = [n for n in (under, *origin[:-1]) if n is not None]
        if any(n >= len(elements) for n in named) or any(t >= len(transitions) for t in origin[-1:]):
            broken(item + number, 1)
        if len(origin) == 2:
            parent, t = origin
            if parent >= number:
                broken(item + number, 10)
            if transitions[t][0] != search.at(made[parent]):
                broken(item + number, 11)
            made.append(search.next(made[parent], t))
        else:
            made.append(search.base(*origin) if origin else search.start())
    return made


def check_yes(search, cert, item):
    second = search.second
    if not in_block(cert["order"], second.states):
        broken(item, 1)
    search.order = as_sets(cert["order"])
    if not stable(second, "forward", 1, search.order):
        broken(item, 9)
    item += 1
    marks = [under for under, _ in cert["elements"]]
    count = len(marks)
    made = make_elements(search, cert["elements"], item)

    def live_over(number, x):
        spend(10)
        return marks[number] is None and search.subsumes(made[number], x)

    for number, under in enumerate(marks):
        if under is not None and not live_over(under, made[number]):
            broken(item + number, 12)
    item += count
    several, starts = search.starts()
    if any(number >= count for number in cert["cover"]):
        broken(item, 1)
    if len(cert["cover"]) != several or not all(live_over(n, x) for n, x in zip(cert["cover"], starts)):
        broken(item, 13)
    for element, by in cert["steps"]:
        item += 1
        out = search.first.out(search.at(made[element]))
        if any(number >= count for number in by):
            broken(item, 1)
        if len(by) != len(out) or not all(live_over(n, search.next(made[element], t)) for n, t in zip(by, out)):
            broken(item, 14)
    place = search.failing([(number, made[number]) for number in range(count) if marks[number] is None])
    if place is not None:
        broken(item - len(cert["steps"]) - count + place, 15)


def check_list(search, cert, item):
    made = make_elements(search, cert["elements"], item + 1)
    if len(made) != cert["limit"] + 1:
        broken(item, 18)
    seen = Distinct()
    for number, x in enumerate(made):
        spend(10 + 2 * search.second.states)
        if not seen.add(search.sets(x)):
            broken(item + 1 + number, 18)


def states_after(automaton, word):
    """The states that runs on the word lead to."""
    mask = 1 << automaton.initial
    for label in word:
        mask = automaton.ahead(label).of(mask)
    return mask


def accepts_word(automaton, word):
    return states_after(automaton, word) & automaton.accepting != 0


def accepts_lasso(automaton, prefix, turn):
    """Whether from a state that the prefix leads to arcs of the loop's graph come twice to a state, with a value 2 between."""
    return states_after(automaton, prefix) & endless(automaton, graph_of_word(automaton, turn)) != 0


def accepts_by_places(automaton, prefix, turn):
    """As accepts_lasso, by a search of the graph whose nodes are the places of the lasso, each with a state. Where few states
    are at a place that costs less, and of a large automaton there is no other way."""
    word, states = prefix + turn, automaton.states

    def after(node):
        place, state = divmod(node, states)
        following = place + 1 if place + 1 < len(word) else len(prefix)
        return [following * states + target for target in automaton.targets_by(state, word[place])]

    most = float("inf") if is_large(automaton) else PLACES + PLACES_PER_LABEL * len(word)
    found = Cycles(lambda node: automaton.accepts[node % states], after, most).any([automaton.initial])
    return accepts_lasso(automaton, prefix, turn) if found is None else found


def check_no(first, second, labels, words, accepts):
    """The lines that tell of a valid no, and its status. It has a prefix and a loop, or a word."""
    for item, word in enumerate(words, 1):
        if any(label >= len(labels) for label in word):
            broken(item, 1)
    if not accepts(first, *words):
        broken(len(words), 16)
    if accepts(second, *words):
        broken(len(words), 17)
    names = ("prefix", "loop") if len(words) == 2 else ("word",)
    texts = [b",".join(labels[label] for label in word) for word in words]
    lines = [name.encode() + (b": " + text if text else b":") for name, text in zip(names, texts)]
    return [b"not included" + (b"" if len(words) == 2 else b", finite"), *lines], 1


def go_through(automaton, log, item, carried_out):
    """The automaton that the steps of a log make, and the item of the last; the first has the item behind this one."""
    for step in log:
        item += 1
        rule, after = carried_out(automaton, step)
        if rule:
            broken(item, rule)
        automaton = after
    return automaton, item


def check(first, second, labels, cert):
    """The lines that tell the verdict of a valid certificate, and its status."""
    if cert["sizes"] != (first.states, second.states, len(labels)):
        broken(0, 1)
    finite = cert["mode"] == "finite"
    if cert["form"] == "no":
        return check_no(first, second, labels, cert["words"], accepts_word if finite else accepts_lasso)
    first, item = go_through(first, cert["first"], 0, lambda made, step: first_step(made, cert["mode"], step))
    second, item = go_through(second, cert["second"], item, lambda made, step: second_step(made, len(labels), step))
    search = (Finite if finite else Buchi)(first, second)
    if cert["form"] == "list":
        check_list(search, cert, item + 1)
        return [b"limit %d" % cert["limit"]], 2
    check_yes(search, cert, item + 1)
    return [b"included" + (b", finite" if finite else b"")], 0


def check_cross(first, second, labels, cross):
    """The line that tells the verdict of a cross file that keeps the rules, and its status."""
    if cross["sizes"] != (first.states, second.states, len(labels)):
        broken(0, 1)
    if not 1 <= cross["look"] <= 6:
        broken(1, 1)
    rows = cross["block"]
    if any(p >= first.states or runs[-1][1] >= second.states for p, runs in rows.items()):
        broken(2, 1)
    block = as_sets(rows)
    if not block.get(first.initial, 0) >> second.initial & 1:
        broken(2, 19)
    if not stable_across(first, second, cross["look"], block):
        broken(2, 20)
    return [b"included by simulation"], 0


# ---------------------------------------------------------------- the check of a proof file


def trimmed(automaton):
    return keep(automaton, list(states_in(automaton.endlessly_useful)))


def relabelled(automaton, classes):
    """With the class of each label in its place."""
    if max(classes, default=-1) + 1 == len(classes):
        return automaton
    moves = dict.fromkeys((p, classes[a], q) for p, a, q in automaton.transitions)
    return Automaton(automaton.states, automaton.initial, moves, automaton.accepting)


def have_same_columns(automaton, classes):
    """Whether the labels of each class have the same moves."""
    columns = {}
    for label, number in enumerate(classes):
        column = automaton.by_label.get(label, [])
        spend(5 + len(column))
        if columns.setdefault(number, column) != column:
            return False
    return True


def through_front(first, second, labels, proof):
    """What the two automata become, and the last item of the front."""
    second, item = go_through(second, proof["second"], 0, lambda made, step: second_step(made, labels, step))
    letters, classes, listed = proof["letters"], proof["map"], proof["accepting"]
    if not class_shape(labels, letters):
        broken(item + 1, 3)
    if not have_same_columns(second, letters):
        broken(item + 1, 21)
    first, second = trimmed(relabelled(first, letters)), relabelled(second, letters)
    if not class_shape(first.states, classes):
        broken(item + 2, 3)
    first = merge(first, classes)
    if any(number >= first.states for number in listed):
        broken(item + 3, 1)
    accepting = set_below(first.states, listed)
    if first.accepting & ~accepting:
        broken(item + 3, 22)
    first = trimmed(Automaton(first.states, first.initial, first.transitions, accepting))
    first, item = go_through(first, proof["first"], item + 3, lambda made, step: first_step(made, "buchi", step))
    return first, second, item


def check_product(first, second, rows, item):
    """The `rel` line of a product, which has this item, and each of its pairs."""
    after = {(q, label): target for q, label, target in second.transitions}
    spend(4 * len(second.transitions))
    if len(after) < len(second.transitions):
        broken(item, 23)
    if second.initial not in rows.get(first.initial, ()):
        broken(item, 24)
    for p, ranks in rows.items():
        for q, rank in ranks.items():
            item += 1
            if p >= first.states or q >= second.states:
                broken(item, 1)
            moves = first.leaving(p)
            spend(15 + 6 * len(moves))
            pairs = [(target, after.get((q, label))) for _, label, target in moves]
            if not all(to_q in rows.get(to_p, ()) for to_p, to_q in pairs):
                broken(item, 25)
            if any(not second.accepts[to_q] and rows[to_p][to_q] + first.accepts[to_p] > rank for to_p, to_q in pairs):
                broken(item, 26)


def check_delayed(first, second, rows, item):
    """The `rel` line of a delayed simulation, which has this item, and each of its pairs."""
    if any(p >= first.states or max(codes) >= second.states for p, codes in rows.items()):
        broken(item, 1)
    if second.initial not in rows.get(first.initial, ()):
        broken(item, 24)
    ranks = {p: Ranks(codes) for p, codes in rows.items()}
    for p, row in ranks.items():
        spend(20)
        wrong = row.by_code.get(1, 0) & ~second.accepting
        if first.accepts[p]:
            wrong |= row.by_code.get(0, 0)
        for _, label, target in first.leaving(p):
            wrong |= unanswered(second, ranks, label, [target], row)
        if wrong:
            least = next(states_in(wrong))
            broken(item + 1 + list(row.codes).index(least), 27)
        item += len(row.codes)


def check_proof(first, second, labels, proof):
    """The lines that tell the verdict of a valid proof file, and its status."""
    if proof["sizes"] != (first.states, second.states, len(labels)):
        broken(0, 1)
    if proof["form"] == "no":
        return check_no(first, second, labels, proof["words"], accepts_by_places)
    first, second, item = through_front(first, second, len(labels), proof)
    if proof["form"] == "closed":
        check_yes(Buchi(first, second), proof, item + 1)
    else:
        evidence = check_product if proof["form"] == "product" else check_delayed
        evidence(first, second, proof["rows"], item + 1)
    return [b"included"], 0


# by the option: the limits of the automata, what the third file is called, and how it is read and checked
KINDS = {
    None: (LIMITS, "certificate", read_certificate, check),
    "--cross": (LIMITS, "certificate", read_cross, check_cross),
    "--proof": (PROOF_LIMITS, "proof", read_proof, check_proof),
}


def load(name):
    try:
        with open(name, "rb") as file:
            data = file.read()
    except OSError:
        raise Refused("read fault", 6) from None
    WORK.allow_more(STEPS_PER_BYTE * max(0, len(data) - SMALL_FILE))
    return data


def main(words):
    patient = words[:1] == ["--patient"]
    words = words[1:] if patient else words
    option = words[0] if words and words[0] in KINDS else None
    names = words[1:] if option else words
    if len(names) != 3:
        print(__doc__, file=sys.stderr)
        return 3
    WORK.allow(float("inf") if patient else FREE_STEPS)
    limits, called, reader, checker = KINDS[option]
    try:
        first, first_labels = Reader(1, limits[1]).read(load(names[0]))
        second, second_labels = Reader(2, limits[2]).read(load(names[1]))
        evidence = reader(load(names[2]))
        lines, status = checker(*join(first, first_labels, second, second_labels), evidence)
    except Refused as refused:
        told = f"{called} {refused.text}" if refused.status == 5 else refused.text
        lines, status = [told.encode()], refused.status
    sys.stdout.buffer.write(b"".join(line + b"\n" for line in lines))
    return status


if __name__ == "__main__":
    sys.exit(main(sys.argv[1:]))
