"""The second checker on proof files: random ones of each form and with random fronts, which it accepts or refuses as it
should, and whose verdicts no short lasso contradicts; and ones that are wrong on purpose."""
import contextlib
import random
import unittest
from collections import Counter

import hostile
import proofs
from helping import Case, Output, ask, needs_program, second_check

import check_cert  # isort: skip  (which helping puts on the path)

IDENTITY_OFFSET = 3  # the items `letters`, `map` and `accepting`, which a certificate does not have


class Proofs(Case):
    true = set()  # the texts of which this has been shown

    def judged(self, first, second, proof):
        names = [self.write(name, text) for name, text in (("A", first), ("B", second), ("P", proof))]
        return second_check("--proof", *names)

    def assert_refused(self, texts, item, rule):
        self.assertEqual(self.judged(*texts), (5, f"proof item {item}: rule {rule}\n"), texts)

    def assert_true(self, first, second):
        """No lasso of words of at most three labels is accepted by the first alone."""
        if (first, second) not in self.true:
            one, other, labels = proofs.models(first, second)
            self.assertEqual(proofs.separating(one, other, len(labels), 3), [], (first, second))
            self.true.add((first, second))

    def assert_included(self, texts):
        self.assertEqual(self.judged(*texts), (0, "included\n"), texts)
        self.assert_true(*texts[:2])


def question(rnd, form, several=0):
    """Texts of two automata, of which the second has equal columns, and what they are; the first has more than so many
    moves."""
    base = rnd.randrange(1, 3)
    letters = [*range(base), *(rnd.randrange(base) for _ in range(rnd.randrange(3)))]
    first = proofs.random_model(rnd, rnd.randrange(1, 6), len(letters), several + rnd.randrange(2, 13))
    states = rnd.randrange(1, 5)
    if form == "product":
        second = proofs.deterministic(rnd, states, base)
    else:
        second = proofs.random_model(rnd, states, base, rnd.randrange(2, 3 * states * base + 2))
        part = {"delayed": 0.7, "closed": 0.4}[form]
        second = second._replace(accepting={q for q in range(states) if rnd.random() < part})
    texts = proofs.text_of(first), proofs.text_of(proofs.with_copies(second, letters))
    return texts, proofs.models(*texts)


def certified(case, texts):
    """The parts of the certificate of version 2 that the program writes, or None where it is no yes."""
    names = [case.write(name, text) for name, text in zip("AB", texts)]
    status, _ = ask("include", *names, case.folder / "C", "--letters", 1 + len(texts[0]) % 2)
    return proofs.Parts((case.folder / "C").read_text()) if status == 0 else None


def sizes_of(first, second, labels):
    return first.states, second.states, len(labels)


@needs_program
class Right(Proofs):
    """Right files are accepted, and what is accepted is true."""

    def fronts(self, rnd, form):
        """Questions with a front, many of which have steps of a certificate."""
        while True:
            texts, (first, second, labels) = question(rnd, form)
            parts = certified(self, texts) if rnd.random() < 0.4 else None
            log2 = parts.log2 if parts and rnd.random() < 0.7 else []
            if parts and proofs.useful(first) == set(range(first.states)) and rnd.random() < 0.7:
                front = proofs.Front(first, second, len(labels), log2, log1=lambda _, parts=parts: parts.log1)
            else:
                front = proofs.front_at_random(rnd, first, second, len(labels), log2)
            yield texts, (first, second, labels), front

    def check_pairs(self, form, rows_of, seed, count, least):
        rnd, accepted, kinds = random.Random(seed), 0, Counter()
        for texts, (first, second, labels), front in self.fronts(rnd, form):
            rows = rows_of(front.first, front.second)
            if rows is not None:
                proof = proofs.proof_text(form, sizes_of(first, second, labels), front.lines(), proofs.pair_lines(rows))
                self.assert_included((*texts, proof))
                accepted += 1
                kinds.update(kinds_of(front, rows))
            count -= 1
            if not count:
                break
        self.assertTrue(accepted >= least and min(kinds[kind] for kind in KINDS) >= 5, (accepted, kinds))

    def test_products(self):
        self.check_pairs("product", proofs.product_rows, 11, 700, 150)

    def test_delayed_simulations(self):
        self.check_pairs("delayed", proofs.delayed_rows, 12, 500, 100)

    def test_closed_lists(self):
        rnd, counts = random.Random(13), Counter()
        fronts = self.fronts(rnd, "closed")
        while sum(counts.values()) < 300:
            texts, (first, second, labels), front = next(fronts)
            made = proofs.closed_lines(rnd, front.first, front.second)
            if made is None:
                continue
            lines, bad = made
            proof = proofs.proof_text("closed", sizes_of(first, second, labels), front.lines(), lines)
            counts[bad is None] += 1
            if bad is None:
                self.assert_included((*texts, proof))
            else:
                self.assert_refused((*texts, proof), front.last + 2 + bad, 15)
        self.assertTrue(min(counts.values()) > 50, counts)

    def test_lassos(self):
        rnd, counts = random.Random(14), Counter()
        for _ in range(150):
            texts, (first, second, labels) = question(rnd, rnd.choice(["product", "closed"]))
            words = proofs.words_up_to(len(labels), 5)
            one, other = proofs.Lassos(first), proofs.Lassos(second)
            for _ in range(12):
                prefix, loop = rnd.choice(words), rnd.choice(words[1:])
                lines = [" ".join(map(str, ["prefix", *prefix])), " ".join(map(str, ["loop", *loop]))]
                proof = proofs.proof_text("no", sizes_of(first, second, labels), lines)
                if not one.accepts(prefix, loop) or other.accepts(prefix, loop):
                    rule = 17 if one.accepts(prefix, loop) else 16
                    self.assert_refused((*texts, proof), 2, rule)
                else:
                    rule = None
                    named = [",".join(labels[a] for a in word) for word in (prefix, loop)]
                    told = f"not included\nprefix: {named[0]}\nloop: {named[1]}\n".replace("prefix: \n", "prefix:\n")
                    self.assertEqual(self.judged(*texts, proof), (1, told))
                counts[rule] += 1
        self.assertTrue(min(counts[rule] for rule in (None, 16, 17)) > 50, counts)


KINDS = (
    "letters", "map", "accepting", "trim in log1", "merge in log1", "cut in log1", "trim in log2", "merge in log2", "ranks",
)  # fmt: skip


def kinds_of(front, rows):
    """What a proof has that others may not have."""
    yield from {f"{step[0].split(' ')[0]} in log1" for step in front.log1}
    yield from {f"{step[0].split(' ')[0]} in log2" for step in front.log2}
    if max(front.letters) + 1 < len(front.letters):
        yield "letters"
    if max(front.map) + 1 < len(front.map):
        yield "map"
    if len(front.accepting) > 1:
        yield "accepting"
    if len({code for codes in rows.values() for code in codes.values()}) > 1:
        yield "ranks"


@needs_program
class Moved(Proofs):
    """Certificates made into proof files with a front that changes nothing, right ones and damaged ones: what the program says
    of the certificate the second checker says of the proof file."""

    def moved(self, rnd):
        """A question whose first automaton is trimmed, and its certificate."""
        while True:
            texts, (first, second, labels) = question(rnd, rnd.choice(["product", "delayed", "closed"]), rnd.choice([0, 0, 10]))
            text = proofs.text_of(proofs.trim(first, proofs.useful(first)))
            texts = text, texts[1]
            first, second, labels = proofs.models(*texts)
            if proofs.useful(first) == set(range(first.states)):
                parts = certified(self, texts)
                if parts:
                    return texts, first, parts

    def both(self, texts, first, parts, sections, section=2):
        """What the program says of the certificate of these sections (log1, log2 and what is behind them), and what the second
        checker says of the proof file; where the first tells an item or a line, as that of the proof file. The section with
        this number has another line than the parts."""
        log1, log2, rest = sections
        sizes = "sizes {} {} {}".format(*parts.sizes)
        self.write("C", "\n".join(["rabit-cert 2 buchi yes", sizes, *log1, *log2, *rest, "end"]) + "\n")
        said = ask("check", self.folder / "A", self.folder / "B", self.folder / "C")
        front = proofs.Front(first, first, parts.sizes[2]).lines()[1:4]
        lines = ["rabit-proof 1 closed", sizes, *log2, *front, *log1, *rest, "end"]
        proof = "\n".join(lines) + "\n"
        words = said[1].strip().split(" ")
        if words[0] == "certificate":
            number = int(words[2].rstrip(":"))
            number = self.moved_item(number, parts) if words[1] == "item" else self.moved_line(number, sections, section)
            said = said[0], " ".join(["proof", words[1], f"{number}:", *words[3:]]) + "\n"
        return said, self.judged(*texts, proof)

    @staticmethod
    def moved_item(item, parts):
        one, two = len(parts.log1), len(parts.log2)
        if item == 0 or item > one + two:
            return item + IDENTITY_OFFSET if item else 0
        return item + two + IDENTITY_OFFSET if item <= one else item - one

    @staticmethod
    def moved_line(line, sections, section):
        """The line of the proof file where that of the certificate is at fault in this section, or just behind it."""
        if section == 2:
            return line + IDENTITY_OFFSET
        return line - len(sections[0]) if section else line + len(sections[1]) + IDENTITY_OFFSET

    def test_whole(self):
        rnd, counts = random.Random(21), Counter()
        for _ in range(120):
            texts, first, parts = self.moved(rnd)
            said, judged = self.both(texts, first, parts, [*parts.lines(), parts.rest])
            self.assertEqual(judged, said, texts)
            self.assertEqual(judged, (0, "included\n"))
            self.assert_true(*texts)
            counts.update(step[0].split(" ")[0] + f" in log{log}" for log in (1, 2) for step in (parts.log1, parts.log2)[log - 1])
            counts["no logs"] += not parts.log1 and not parts.log2
        self.assertTrue(min(counts[kind] for kind in ("no logs", "trim in log1", "cut in log1", "merge in log2")) > 5, counts)

    def test_damaged(self):
        rnd, rules, names = random.Random(22), Counter(), Counter()
        for _ in range(260):
            texts, first, parts = self.moved(rnd)
            for _ in range(5):
                sections = [list(lines) for lines in (*parts.lines(), parts.rest)]
                number = rnd.choice([number for number in range(3) if len(sections[number]) > 1])
                section = sections[number]
                at = rnd.randrange(len(section))
                counted = section[at].split(" ")[0] in ("log1", "log2")
                section[at] = damaged(rnd, section[at], keep_length=counted)
                said, judged = self.both(texts, first, parts, sections, number)
                self.assertEqual(judged, said, (texts, sections))
                if judged[0] == 0:
                    self.assert_true(*texts)
                else:
                    *_, last = judged[1].split()
                    (rules if " item " in judged[1] else names).update([int(last) if last.isdigit() else last])
        often = [rule for rule in range(1, 16) if rule not in (2, 8, 10)]
        self.assertTrue(min(rules[rule] for rule in often) >= 5, rules)
        self.assertTrue(min(names[name] for name in ("Shape", "Number", "Order")) >= 5, names)


    def test_damaged_on_purpose(self):
        rnd, rules = random.Random(23), Counter()
        while min(rules[rule] for rule in (2, 8, 10)) < 6:
            texts, first, parts = self.moved(rnd)
            states, rest = list(range(first.states)), list(parts.rest)
            whole = parts.log1
            for rule in (2, 8, 10):
                parts.log1 = [list(step) for step in whole]
                if rule == 2:
                    states.remove(rnd.choice(states))
                    parts.log1.insert(0, [" ".join(["trim", *map(str, states)])])
                elif rule == 8 and parts.log1 and parts.log1[0][0].startswith("cut"):
                    t = parts.log1[0][1].split(" ")[1]
                    parts.log1[0][1] = f"gone {t} {t}"
                elif rule == 10:
                    begin = next(at for at, line in enumerate(rest) if line.startswith("elements"))
                    for at in [at for at, line in enumerate(rest) if " next " in line][:1]:
                        *words, _, t = rest[at].split(" ")
                        rest[at] = " ".join([*words, str(at - begin - 1), t])
                said, judged = self.both(texts, first, parts, [*parts.lines(), rest])
                self.assertEqual(judged, said, (texts, rule))
                rules.update([rule] if judged[1].endswith(f"rule {rule}\n") else [])


def damaged(rnd, line, keep_length=False):
    """The line with a number changed, left out or exchanged, or with a word put in."""
    tokens = line.split(" ")
    place, way = rnd.randrange(len(tokens)), rnd.randrange(8)
    if keep_length:
        return " ".join([*tokens, "0"]) if way < 4 else line + "x"
    if way < 5:
        tokens[place if len(tokens) == 1 else rnd.randrange(1, len(tokens))] = str(rnd.choice([0, 1, 2, rnd.randrange(8)]))
    elif way == 5:
        del tokens[place]
    elif way == 6:
        other = rnd.randrange(len(tokens))
        tokens[place], tokens[other] = tokens[other], tokens[place]
    else:
        tokens.insert(place, rnd.choice(["x", "", "01", "end", "1000000000", "0"]))
    return " ".join(tokens)


class Wrong(Proofs):
    """Each rule of a front and of a pair block broken on purpose."""

    def cases(self, seed, count):
        rnd = random.Random(seed)
        while count:
            form = rnd.choice(["product", "delayed"])
            texts, (first, second, labels) = question(rnd, form, rnd.choice([0, 4]))
            front = proofs.front_at_random(rnd, first, second, len(labels))
            rows = (proofs.product_rows if form == "product" else proofs.delayed_rows)(front.first, front.second)
            if rows and len(rows) > rnd.choice([0, 1, 1, 1]):
                count -= 1
                yield rnd, form, texts, sizes_of(first, second, labels), front, rows

    def assert_wrong(self, texts, form, sizes, front, rows, item, rule):
        self.assert_refused((*texts, proofs.proof_text(form, sizes, front.lines(), proofs.pair_lines(rows))), item, rule)

    def test_fronts(self):
        rules = Counter()
        for rnd, form, texts, sizes, front, rows in self.cases(31, 150):
            item, kept = front.item, (front.letters, front.map, front.accepting)
            columns = [[(p, q) for p, a, q in front.second.moves if a == letter] for letter in front.letters]
            apart = [(a, b) for a in range(sizes[2]) for b in range(a) if columns[a] != columns[b]]
            wrong_sizes = list(sizes)
            wrong_sizes[rnd.randrange(3)] += rnd.choice([-1, 1])
            self.assert_wrong(texts, form, wrong_sizes, front, rows, 0, 1)
            for place, at in (("letters", item), ("map", item + 1)):
                numbers = getattr(front, place)
                for worse in ([*numbers, 0], numbers[:-1], [1, *numbers[1:]], [*numbers[:-1], max(numbers) + 2]):
                    setattr(front, place, worse)
                    self.assert_wrong(texts, form, sizes, front, rows, at, 3)
                    rules[place] += 1
                front.letters, front.map, front.accepting = kept
            if apart:
                a, b = rnd.choice(apart)
                classes = list(range(sizes[2]))
                classes[a] = b
                front.letters = proofs.renumbered(classes)
                self.assert_wrong(texts, form, sizes, front, rows, item, 21)
                rules[21] += 1
                front.letters = kept[0]
            front.accepting = [*rnd.choice([[], kept[2]]), max(front.map) + 1 + rnd.randrange(2)]
            self.assert_wrong(texts, form, sizes, front, rows, item + 2, 1)
            if front.needed:
                missing = rnd.choice(front.needed)
                front.accepting = [number for number in kept[2] if number != missing]
                self.assert_wrong(texts, form, sizes, front, rows, item + 2, 22)
                rules[22] += 1
        self.assertTrue(min(rules[kind] for kind in ("letters", "map", 21, 22)) >= 20, rules)

    def test_pairs(self):
        rules = Counter()
        for rnd, form, texts, sizes, front, rows in self.cases(32, 900):
            rows = {p: dict(codes) for p, codes in rows.items()}
            p = rnd.choice(sorted(rows))
            q, way = rnd.choice(sorted(rows[p])), rnd.choice([0, 0, 0, 1, 1, 2, 3])
            if rnd.random() < 0.1:
                p, q, way = front.first.initial, front.second.initial, 1
            if way == 0:
                rows[p][q] = rnd.choice([0, 1, 2, max(0, rows[p][q] - 1)])
            elif way == 1 and len(rows) > 1:
                del rows[p][q]
                rows = {p: codes for p, codes in rows.items() if codes}
            elif way == 2:
                rows[p][front.second.states + rnd.randrange(2)] = 1
            else:
                rows[front.first.states + rnd.randrange(2)] = {0: 1}
            item = front.last + 1
            outside = any(p >= front.first.states or max(codes) >= front.second.states for p, codes in rows.items())
            wrong = proofs.wrong_pair(form, front.first, front.second, rows)
            if form == "delayed" and outside:
                expected = item, 1
            elif front.second.initial not in rows.get(front.first.initial, ()):
                expected = item, 24
            else:
                expected = wrong and (item + 1 + wrong[0], wrong[1])
            if expected:
                self.assert_wrong(texts, form, sizes, front, rows, *expected)
                rules[form, expected[1]] += 1
            else:
                proof = proofs.proof_text(form, sizes, front.lines(), proofs.pair_lines(rows))
                self.assert_included((*texts, proof))
                rules[form, None] += 1
        wanted = [("product", rule) for rule in (1, 24, 25, 26, None)] + [("delayed", rule) for rule in (1, 24, 27, None)]
        self.assertTrue(min(rules[kind] for kind in wanted) >= 5, rules)

    def test_two_moves_by_a_letter(self):
        rnd, broken = random.Random(33), 0
        for _ in range(60):
            texts, (first, second, labels) = question(rnd, "delayed")
            front = proofs.front_at_random(rnd, first, second, len(labels))
            doubled = len({(p, a) for p, a, _ in front.second.moves}) < len(front.second.moves)
            rows = {front.first.initial: {front.second.initial: 0}}
            if doubled:
                self.assert_wrong(texts, "product", sizes_of(first, second, labels), front, rows, front.last + 1, 23)
                rows = {front.first.states: {0: 0}}
                self.assert_wrong(texts, "product", sizes_of(first, second, labels), front, rows, front.last + 1, 23)
                broken += 1
        self.assertGreater(broken, 20)

    def test_words_of_a_no(self):
        for words, item, rule in (
            (("prefix", "loop 0"), None, None), (("prefix 1", "loop 0"), 2, 16), (("prefix", "loop 1"), 2, 16),
            (("prefix 2", "loop 0"), 1, 1), (("prefix", "loop 2"), 2, 1), (("prefix 2", "loop 2"), 1, 1),
            (("prefix 0 0 999999999", "loop 0"), 1, 1), (("prefix", "loop 0 5"), 2, 1), (("prefix 0 0", "loop 0 0 0"), None, None),
        ):
            texts = "[0]\na,[0]->[0]\n[0]\n", "[0]\nb,[0]->[0]\n[0]\n", proofs.proof_text("no", (1, 1, 2), words)
            if item is None:
                self.assertEqual(self.judged(*texts)[0], 1)
            else:
                self.assert_refused(texts, item, rule)


class Text(Proofs):
    """Faults of the text, each name of them, and what else is printed."""

    FIRST, SECOND = "[0]\na,[0]->[0]\nb,[0]->[0]\n[0]\n", "[0]\na,[0]->[1]\nb,[0]->[1]\na,[1]->[0]\nb,[1]->[0]\n[0]\n"
    FRONT = ["log2 0", "letters 0 0", "map 0", "accepting 0", "log1 0"]
    FILES = {
        "product": [*FRONT, "rel 1", "row 0 0 1 1 0"],
        "delayed": [*FRONT, "rel 1", "row 0 0 1 1 2"],
        "closed": [
            "log2 1", "merge delayed 1", "classes 0 0", "rel 2", "row 0 0 1 1 2", "row 1 0 1 1 2", *FRONT[1:], "rel 1", "row 0 0 0",
            "elements 1", "live base 0", "cover 0", "step 0 0",
        ],
    }  # fmt: skip

    def proof(self, form):
        return proofs.proof_text(form, (1, 2, 2), self.FILES[form])

    def answer(self, proof):
        return self.judged(self.FIRST, self.SECOND, proof)

    def test_right_ones(self):
        for form in self.FILES:
            self.assertEqual(self.answer(self.proof(form)), (0, "included\n"), form)
        self.assert_refused((self.FIRST, self.SECOND, self.proof("product").replace("row 0 0 1 1 0", "row 0 0 0 1 0")), 5, 26)

    def test_faults(self):
        for form, old, new, line, name in (
            ("product", "rabit-proof 1 product", "rabit-proof 1 yes", 1, "Header"),
            ("product", "rabit-proof 1 product", "rabit-proof 2 product", 1, "Header"),
            ("closed", "rabit-proof 1 closed", "rabit-cert 2 buchi yes", 1, "Header"),
            ("delayed", "rabit-proof 1 delayed", "rabit-proof 1 delayed ", 1, "Header"),
            ("delayed", "rabit-proof 1 delayed\n", "\n", 1, "Header"),
            ("product", "sizes 1 2 2", "sizes 1 2", 2, "Shape"), ("product", "sizes 1 2 2", "sizes 1 02 2", 2, "Number"),
            ("product", "log2 0", "log1 0", 3, "Shape"), ("product", "log2 0", "log2 0 x", 3, "Shape"),
            ("product", "log2 0", "log2 1", 4, "Shape"), ("closed", "merge delayed 1", "merge delayed", 4, "Shape"),
            ("closed", "merge delayed 1", "merge delayed 5", 4, "Shape"), ("closed", "merge delayed 1", "merge", 4, "Shape"),
            ("closed", "row 1 0 1 1 2", "row 0 0 1 1 2", 8, "Order"), ("product", "letters 0 0", "letters 0 x", 4, "Number"),
            ("product", "letters 0 0", "letters 0  0", 4, "Shape"), ("product", "letters 0 0", "letter 0 0", 4, "Shape"),
            ("product", "letters 0 0\n", "", 4, "Shape"), ("product", "map 0", "map 0 01", 5, "Number"),
            ("product", "map 0\n", "map 0\nmap 0\n", 6, "Shape"), ("product", "map 0", "map 1000000000", 5, "Number"),
            ("product", "accepting 0", "accepting 0 0", 6, "Order"), ("product", "accepting 0", "accepting 1 0", 6, "Order"),
            ("product", "accepting 0", "accepting 1 x 0", 6, "Number"), ("product", "accepting 0", "accepting 0 ", 6, "Shape"),
            ("product", "log1 0", "log1 1", 8, "Shape"), ("product", "log1 0", "log1 x", 7, "Number"),
            ("product", "log1 0", "log1 1\nmerge forward 3", 8, "Shape"), ("product", "rel 1", "rel 1 1", 8, "Shape"),
            ("product", "rel 1", "rel 2", 10, "Shape"), ("product", "rel 1", "rel 0", 9, "Shape"),
            ("product", "row 0 0 1 1 0", "row 0", 9, "Shape"), ("product", "row 0 0 1 1 0", "row 0 0", 9, "Shape"),
            ("product", "row 0 0 1 1 0", "row 0 0 1 1", 9, "Shape"), ("product", "row 0 0 1 1 0", "row 0 1 0 0 1", 9, "Order"),
            ("product", "row 0 0 1 1 0", "row 0 0 1 0 1", 9, "Order"), ("product", "row 0 0 1 1 0", "row 0 0 x 1 0", 9, "Number"),
            ("delayed", "rel 1", "rel 2\nrow 0 0 1", 10, "Order"), ("delayed", "rel 1", "rel 2\nrow 5 0 1", 10, "Order"),
            ("delayed", "row 0 0 1 1 2", "row x 0 1 1 2", 9, "Number"), ("product", "end", "end x", 10, "Shape"),
            ("closed", "live base 0", "live start", 16, "Shape"), ("closed", "live base 0", "under x", 16, "Number"),
            ("closed", "step 0 0", "step 1 0", 18, "Order"), ("closed", "row 0 0 0", "row 0 1 0", 14, "Order"),
            ("closed", "elements 1", "elements 0", 16, "Shape"), ("closed", "row 0 0 0", "row 0 0", 14, "Shape"),
            ("closed", "step 0 0\n", "step 0 0\nstep 0 0\n", 19, "Shape"), ("product", "\nend\n", "\nend", 10, "Truncated"),
            ("product", "\nend\n", "\n", 10, "Truncated"), ("product", "\nend\n", "\nrow  x", 10, "Truncated"),
            ("product", "end\n", "end\n\n", 11, "Trailing"), ("product", "end\n", "end\nx", 11, "Trailing"),
        ):  # fmt: skip
            proof = self.proof(form)
            self.assertEqual(proof.count(old) > 0, True, (form, old))
            told = f"proof line {line}: {name}\n"
            self.assertEqual(self.answer(proof.replace(old, new, 1)), (5, told), (form, old, new))
        for proof, line, name in (
            ("", 1, "Truncated"), ("rabit-proof 1 no", 1, "Truncated"), ("rabit-proof 1 no\nsizes 1 1 2\nprefix\nloop\nend\n", 4, "Shape"),
            ("rabit-proof 1 no\nsizes 1 1 2\nprefix x\nloop 0\nend\n", 3, "Number"), ("rabit-proof 1 no\nsizes 1 1 2\nword 0\nend\n", 3, "Shape"),
        ):  # fmt: skip
            self.assertEqual(self.answer(proof), (5, f"proof line {line}: {name}\n"), proof)

    def test_long(self):
        self.addCleanup(setattr, check_cert, "CERTIFICATE_BYTES", check_cert.CERTIFICATE_BYTES)
        check_cert.CERTIFICATE_BYTES = len(self.proof("product"))
        self.assertEqual(self.answer(self.proof("product")), (0, "included\n"))
        self.assertEqual(self.answer(self.proof("product") + "x"), (5, "proof line 0: Long\n"))

    def test_limits_of_automata(self):
        count = 1 << 18
        states = "".join(f"s{state}\n" for state in range(count))
        labels = "".join(f"{label},0->0\n" for label in range(256))
        many = "".join(f"a,0->{state}\n" for state in range(2048))
        proof = proofs.proof_text("no", (1, 1, 1), ["prefix", "loop 0"])
        for first, second, told in (
            (states, self.SECOND, None), (states + "more\n", self.SECOND, f"file 1 line {count + 1}: TooManyStates\n"),
            (labels, self.SECOND, None), (labels + "x,0->0\n", self.SECOND, "file 1 line 257: TooManyLabels\n"),
            (self.FIRST, many, None), (self.FIRST, many + "\nmore\n", "file 2 line 2050: TooManyStates\n"),
            (self.FIRST, labels, None), (self.FIRST, labels + "x,0->0\n", "file 2 line 257: TooManyLabels\n"),
            (self.FIRST, "", "file 2 line 0: Empty\n"), ("a,0\n", "", "file 1 line 1: Shape\n"),
        ):  # fmt: skip
            self.assertEqual(self.judged(first, second, proof), (4, told) if told else (5, "proof item 0: rule 1\n"))
        for place, name, size in ((1, "A", 1 << 26), (2, "B", 1 << 24)):
            for more, status in ((0, 5), (1, 4)):
                names = [self.write(*pair) for pair in (("A", self.FIRST), ("B", self.SECOND), ("P", proof))]
                with open(self.folder / name, "ab") as file:
                    file.write(b" " * (size + more - file.tell()))
                told = f"file {place} line 0: Long\n" if more else "proof item 0: rule 1\n"
                self.assertEqual(second_check("--proof", *names), (status, told))

    def test_words(self):
        names = [self.write(name, text) for name, text in zip("AB", (self.FIRST, self.SECOND))]
        with contextlib.redirect_stderr(Output()):
            for words in (["--proof"], ["--proof", *names], ["--proof", *names, *names], ["--proof", "--patient", *names]):
                self.assertEqual(second_check(*words), (3, "") if len(words) != 4 else (6, "read fault\n"), words)
        self.assertEqual(second_check("--proof", *names, self.folder / "none"), (6, "read fault\n"))
        proof = self.write("P", self.proof("product"))
        self.assertEqual(second_check("--patient", "--proof", *names, proof), (0, "included\n"))
        self.assertEqual(second_check(*names, proof), (5, "certificate line 1: Header\n"))


class Large(Proofs):
    """Automata that are too large for a set of states for each of them."""

    def test_relations(self):
        rnd, counts = random.Random(41), Counter()
        for _ in range(3000):
            states = rnd.randrange(1, 6)
            made = proofs.random_model(rnd, states, 2, rnd.randrange(4 * states + 1))
            made = check_cert.Automaton(states, rnd.randrange(states), made.moves, check_cert.set_of(made.accepting))
            side, look, part = rnd.choice(["forward", "backward"]), rnd.randrange(1, 4), rnd.random()
            pairs = [(p, q) for p in range(states) for q in range(states) if rnd.random() < part]
            runs = {p: [(q, q) for o, q in pairs if o == p] for p in range(states) if p in dict(pairs)}
            sets = check_cert.as_sets(runs)
            right = check_cert.stable(made, side, look, sets)
            self.assertIs(check_cert.RunsGame(made, side == "backward", look, runs).is_stable(), right, (side, look, made.moves, pairs))
            one, other = check_cert.Closure(sets), check_cert.RunsClosure(runs)
            for p in range(states):
                for q in range(states):
                    self.assertIs(other.relates(p, q), one.relates(p, q))
            counts[right] += 1
        self.assertTrue(min(counts.values()) > 300, counts)

    def test_as_if_all_were_large(self):
        self.addCleanup(setattr, check_cert, "SMALL", check_cert.SMALL)
        rnd, cuts = random.Random(42), 0
        while cuts < 25:
            texts, (first, second, labels) = question(rnd, "product", 6)
            front = proofs.front_at_random(rnd, first, second, len(labels))
            rows = proofs.product_rows(front.first, front.second)
            if rows and any(step[0].startswith("cut") for step in front.log1):
                proof = proofs.proof_text("product", sizes_of(first, second, labels), front.lines(), proofs.pair_lines(rows))
                check_cert.SMALL = 0
                self.assert_included((*texts, proof))
                cuts += 1

    def test_a_large_one(self):
        count = 3000
        moves = [("ab"[p % 2], p, (p + 1) % count) for p in range(count)] + [("a", p, 7 * p % count) for p in range(0, count, 3)]
        first = "\n".join(["[0]", *(f"{a},[{p}]->[{q}]" for a, p, q in moves), *(f"[{p}]" for p in range(0, count, 5))]) + "\n"
        made, second, labels = proofs.models(first, Text.SECOND)
        last = max(made.moves)
        t = made.moves.index(last)
        same = [f"rel {count}", *(f"row {p} {p} {p}" for p in range(count))]
        front = ["log2 0", "letters 0 0", "map " + " ".join(map(str, range(count))), " ".join(["accepting", *map(str, sorted(made.accepting))])]
        for gone, rule in ((f"{t} {t}", 8), (f"{t} 0", 7)):
            log1 = ["log1 1", "cut 1 2", f"gone {gone}", *same]
            proof = proofs.proof_text("product", (count, 2, 2), [*front, *log1, "rel 1", "row 0 0 0"])
            self.assert_refused((first, Text.SECOND, proof), 4, rule)
        rows = {p: {0: 0, 1: 0} for p in range(count)}
        front.append("log1 0")
        proof = proofs.proof_text("product", (count, 2, 2), front, proofs.pair_lines(rows))
        self.assertEqual(self.judged(first, Text.FIRST.replace("[0]\n[0]", "[0]"), proof)[0], 5)
        all_accept = Text.SECOND + "[1]\n"
        self.assertEqual(self.judged(first, all_accept, proof), (0, "included\n"))


class Work(Proofs):
    def test_files_that_cost_much(self):
        self.addCleanup(setattr, check_cert, "FREE_STEPS", check_cert.FREE_STEPS)
        self.addCleanup(setattr, check_cert, "STEPS_PER_BYTE", check_cert.STEPS_PER_BYTE)
        check_cert.FREE_STEPS, check_cert.STEPS_PER_BYTE, given_up, count = 150_000, 0, 0, 0
        for name, texts in hostile.proof_files():
            with self.subTest(name):
                status, told = self.judged(*texts)
                left = check_cert.WORK.left
                self.assertEqual(left < 0, status == check_cert.NOT_CHECKED)
                self.assertIn(status, (0, 1, 5, check_cert.NOT_CHECKED))
                if left < 0:
                    self.assertEqual(told, "not checked: more than 150000 steps of work; --patient goes on\n")
            given_up, count = given_up + (left < 0), count + 1
        self.assertTrue(count >= 25 and given_up >= 20, (count, given_up))


if __name__ == "__main__":
    unittest.main()
