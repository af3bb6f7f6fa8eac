"""`draw` and `explain`: certificates of the program in pictures and in words."""
import html
import json
import random
import re
import unittest

from helping import TOP, Case, ask, ba_accepts, call, needs, needs_program, program, random_ba
from rabit_tool import automata, certificates, drawing, explaining, files, logs, nouns, runs

MUTEX = TOP / "examples" / "mutex"


@needs_program
class Explain(Case):
    def pair(self, rnd, states=5, one_accepts=False):
        second = random_ba(rnd, states, "ab", dense=2 * one_accepts)
        if one_accepts:
            moves = [line for line in second.split("\n") if "," in line]
            second = "\n".join([*moves, f"[{rnd.randrange(states)}]", ""])
        return self.write("a.ba", random_ba(rnd, states, "ab")), self.write("b.ba", second)

    def walks(self, automaton, moves, labels):
        """Whether the moves, as names, follow one another in the automaton along the labels."""
        named = {(automaton.names[p], automaton.labels[a], automaton.names[q]) for p, a, q in automaton.transitions}
        chained = all(one[2] == two[0] for one, two in zip(moves, moves[1:]))
        return chained and all(tuple(move) in named for move in moves) and [move[1] for move in moves] == labels

    def test_counterexamples_are_runs(self):
        rnd, counts, ended, going = random.Random(31), 0, 0, 0
        for number in range(200):
            first, second = self.pair(rnd, 5, number % 2 == 1)
            if ask("include", first, second, self.folder / "c")[0] != 1:
                continue
            told = explaining.explain([first, second, self.folder / "c"], program())
            one, two = self.read(first), automata.join(self.read(first), self.read(second))
            stem, cycle, prefix, loop = told["run"]["stem"], told["run"]["cycle"], told["prefix"], told["loop"]
            turns = (prefix + loop * (len(stem) + len(cycle) + 1))[: len(stem) + len(cycle)]
            self.assertTrue(self.walks(one, stem + cycle, turns))
            self.assertEqual((stem + cycle)[-1][2], cycle[0][0])
            self.assertEqual((len(cycle) % len(loop), len(stem) >= len(prefix)), (0, True))
            passed = {move[0] for move in cycle}
            self.assertTrue(set(told["run"]["accepting"]) <= passed & {one.names[q] for q in one.accepting})
            why, at = told["rejected"], {two.initial}
            for number, shown in enumerate(why["sets"]):
                self.assertEqual(shown, [two.names[q] for q in sorted(at)])
                at = two.after(at, two.labels.index((prefix + loop * 99)[number]))
            self.assertEqual(why["ends"], why["sets"][-1] == [])
            self.assertEqual(bool(why["turning"]), not why["ends"])
            ended, going, counts = ended + why["ends"], going + (not why["ends"]), counts + 1
        self.assertTrue(ended > 10 and going > 10 and counts > 40, (ended, going, counts))

    def test_the_loops_turns_are_told(self):
        first = self.write("a.ba", "0\nx,0->1\na,1->2\nb,2->3\na,3->4\nb,4->5\na,5->4\n5\n")
        second = self.write("b.ba", "0\nx,0->0\na,0->0\nb,0->1\n0\n")
        self.write("c", "rabit-cert 1 buchi no\nsizes 6 2 3\nprefix 0\nloop 1 2\nend\n")
        names = [first, second, self.folder / "c"]
        lines = call("explain", *names, "--program", program())[1].split("\n")
        at = lines.index("its run, on the prefix")
        wanted = [
            "its run, on the prefix", "  0 --x--> 1", "in the loop's 1st turn", "  1 --a--> 2", "  2 --b--> 3",
            "in the loop's 2nd turn", "  3 --a--> 4", "  4 --b--> 5", "and then without end, from the loop's 3rd turn on",
            "  5 --a--> 4", "  4 --b--> 5", "  which passes 5: accepting",
        ]  # fmt: skip
        self.assertEqual(lines[at : at + len(wanted)], wanted)
        self.assertEqual([explaining.ordinal(n) for n in (1, 2, 3, 4, 11, 12, 21, 112)],
                         ["1st", "2nd", "3rd", "4th", "11th", "12th", "21st", "112th"])  # fmt: skip
        # the one move of the prefix is drawn in its colour, those of the loop in the loop's
        text = drawing.drawn_with(self.read(first), certificates.load(str(names[2])), "c")
        self.assertEqual(text.count(f'color="{drawing.PREFIX}", fontcolor'), 1)
        self.assertEqual(text.count(f'color="{drawing.LOOP}", fontcolor'), 5)

    def test_moves_of_both_parts_are_told_in_the_legend(self):
        ring = self.read(self.write("a.ba", "0\na,0->0\n"))
        for prefix, is_both in (("prefix 0", True), ("prefix", False)):
            path = self.write("c", f"rabit-cert 1 buchi no\nsizes 1 1 1\n{prefix}\nloop 0\nend\n")
            text = drawing.drawn_with(ring, certificates.load(str(path)), "c")
            self.assertEqual((drawing.BOTH in text, "a move of both has both colours" in text), (is_both,) * 2)

    def test_words(self):
        rnd, counts = random.Random(32), 0
        for _ in range(80):
            first, second = self.pair(rnd)
            if ask("include", first, second, self.folder / "c", "--finite")[0] != 1:
                continue
            told = explaining.explain([first, second, self.folder / "c"], program())
            self.assertTrue(self.walks(self.read(first), told["run"]["stem"], told["word"]))
            self.assertEqual(told["run"]["cycle"], [])
            two = self.read(second)
            accepting = {two.names[q] for q in two.accepting}
            self.assertFalse(accepting & set(told["rejected"]["sets"][-1]))
            text = "\n".join(explaining.text_of(told))
            self.assertIn("All runs have ended" if told["rejected"]["ends"] else "None of the last is accepting.", text)
            counts += 1
        self.assertGreater(counts, 20)

    def test_a_yes_in_numbers(self):
        rnd, steps = random.Random(33), 0
        for version in (1, 2):
            for _ in range(40):
                first, second = self.pair(rnd, 8)
                options = ["--letters", "2"] if version == 2 else []
                if ask("include", first, second, self.folder / "c", *options)[0] != 0:
                    continue
                told = explaining.explain([first, second, self.folder / "c"], program())
                lines = (self.folder / "c").read_text().split("\n")
                self.assertEqual((told["version"], told["verdict"]), (version, "included"))
                self.assertIn(f"elements {told['elements']}", lines)
                self.assertEqual(told["live"], sum(line.startswith("live ") for line in lines))
                for which in ("first", "second"):
                    sizes = [told[which]] + [step["after"] for step in told["reduced"][which]]
                    self.assertEqual(sizes[:-1], [step["before"] for step in told["reduced"][which]])
                    steps += len(sizes) - 1
                # what is left of the second automaton is what the order speaks of
                left = told["reduced"]["second"][-1]["after"] if told["reduced"]["second"] else told["second"]
                rows = certificates.load(str(self.folder / "c"))["order"]
                self.assertEqual(len(rows), left["states"])
                explaining.text_of(told)
        self.assertGreater(steps, 60)

    def test_the_tutorial(self):
        ask("include", MUTEX / "broken.ba", MUTEX / "exclusion.ba", self.folder / "no.cert")
        status, output, _ = call(
            "explain", MUTEX / "broken.ba", MUTEX / "exclusion.ba", self.folder / "no.cert", "--program", program()
        )
        self.assertEqual(status, 0)
        for line in (
            "not included",
            "A: 32 states, 60 transitions, 32 accepting",
            "  prefix turn0,turn1,flag1,enter1,flag0,enter0,leave0",
            "  waits/inside/flags11/turn0 --enter0--> inside/inside/flags11/turn0",
            "  after flag0 (5): {in1}",
            "All runs have ended after letter 6.",
        ):
            self.assertIn(line, output.split("\n"))
        ask("include", MUTEX / "peterson.ba", MUTEX / "exclusion.ba", self.folder / "yes.cert")
        words = [
            "explain", MUTEX / "peterson.ba", MUTEX / "exclusion.ba", self.folder / "yes.cert", "--program", program()
        ]
        self.assertIn("  states merged: 20 to 16 states, 34 to 26 transitions\n", call(*words)[1])
        told = json.loads(call(*words, "--json")[1])
        self.assertEqual((told["elements"], told["live"], told["order"]), (293, 256, 3))
        ask("include", MUTEX / "peterson.ba", MUTEX / "exclusion.ba", self.folder / "list.cert", "--limit", 100)
        words[3] = self.folder / "list.cert"
        self.assertIn("The search met its limit, 100: 101 elements", call(*words)[1])
        ask("cross", MUTEX / "peterson.ba", MUTEX / "exclusion.ba", self.folder / "yes.cross")
        words[3] = self.folder / "yes.cross"
        self.assertIn("20 pairs of a state of A and one of B that follows it, looking 3 moves ahead", call(*words)[1])

    def test_one_of_a_thing_is_told_in_the_singular(self):
        first, second = self.write("a.ba", "0\na,0->1\na,1->0\na,0->0\n"), self.write("b.ba", "0\na,0->0\n")
        names = [first, second, self.folder / "c"]
        ask("include", *names)
        output = call("explain", *names, "--program", program())[1]
        for line in ("states merged: 2 to 1 state, 3 to 1 transition", "1 element, 1 of them live;", "has 1 pair."):
            self.assertIn(line, output)
        self.assertIn("included: 1 element, 1 of them live", drawing.summary(certificates.load(str(names[2]))))
        ask("cross", second, *names[1:])
        output = call("explain", second, *names[1:], "--program", program())[1]
        self.assertIn("has 1 pair of a state of A", output)
        self.assertEqual((nouns.counted(0, "state"), nouns.counted(1, "state")), ("0 states", "1 state"))

    def test_what_the_program_refuses_is_not_told(self):
        first, second = self.write("a.ba", "0\na,0->0\n"), self.write("b.ba", "0\nb,0->0\n")
        text = "rabit-cert 1 buchi no\nsizes 1 1 2\nprefix\nloop {}\nend\n"
        for label, status in ((0, 0), (1, 5), (7, 5)):
            words = [first, second, self.write("c", text.format(label)), "--program", program()]
            self.assertEqual(call("explain", *words)[0], status)
        self.assertIn(
            "rule 16", call("explain", first, second, self.write("c", text.format(1)), "--program", program())[2]
        )
        self.assertEqual(
            call("explain", first, second, self.write("c", "rabit-cert 1\n"), "--program", program())[0], 5
        )
        self.assertEqual(call("explain", first, second, self.folder / "none", "--program", program())[0], 6)
        self.assertEqual(call("explain", first, second, first, "--program", program())[0], 5)
        self.assertEqual(call("explain", first, second, self.write("c", text.format(0)), "--program", "/none")[0], 9)

    def test_damaged_certificates(self):
        rnd, texts = random.Random(34), []
        for number in range(12):
            first, second = self.pair(rnd, 6)
            ask("include", first, second, self.folder / "c", *(["--letters", "2"] if number % 2 else []))
            texts.append((self.read(first), (self.folder / "c").read_bytes()))
        for _ in range(1500):
            made, data = rnd.choice(texts)
            data = bytearray(data)
            for _ in range(rnd.randrange(1, 3)):
                at = rnd.randrange(len(data))
                data[at : at + rnd.randrange(2)] = rnd.choice([b"", b"9", b"0", b" ", b"\n", b"x", b"999999999"])
            try:
                drawing.drawn_with(made, certificates.read(bytes(data)), "c")
            except files.Refusal as refusal:
                self.assertEqual(refusal.status, 5)


class Runs(unittest.TestCase):
    def test_runs_are_found_where_they_are(self):
        rnd = random.Random(35)
        for _ in range(300):
            made = automata.read_ba(files.encoded(random_ba(rnd, 5, "ab")))
            if len(made.labels) < 2:
                continue
            prefix, loop = [rnd.randrange(2) for _ in range(rnd.randrange(3))], [
                rnd.randrange(2) for _ in range(rnd.randrange(1, 4))
            ]
            named = [[made.labels[label] for label in word] for word in (prefix, loop)]
            run = runs.accepting_run(made, runs.Lasso(prefix, loop))
            self.assertEqual(run is not None, ba_accepts(made, *named))
            word = prefix + loop
            sets = runs.sets_along(made, word)
            right = len(sets) == len(word) + 1 and bool(sets[-1] & made.accepting)
            self.assertEqual(runs.word_run(made, word) is not None, right)


class Draw(Case):
    @needs_program
    @needs("dot", "graphviz")
    def test_pictures(self):
        ask("include", MUTEX / "broken.ba", MUTEX / "exclusion.ba", self.folder / "no.cert")
        self.assertEqual(call("draw", MUTEX / "broken.ba", self.folder / "no.cert", "-o", self.folder / "no.svg")[0], 0)
        svg = (self.folder / "no.svg").read_text()
        self.assertGreaterEqual(svg.count(drawing.PREFIX), 7)
        self.assertGreaterEqual(svg.count(drawing.LOOP), 4)
        ask("cross", MUTEX / "peterson.ba", MUTEX / "exclusion.ba", self.folder / "yes.cross")
        self.assertEqual(
            call("draw", MUTEX / "peterson.ba", self.folder / "yes.cross", "-o", self.folder / "yes.png")[0], 0
        )
        self.assertEqual((self.folder / "yes.png").read_bytes()[:8], b"\x89PNG\r\n\x1a\n")
        self.assertEqual(call("draw", MUTEX / "broken.ba")[1].count('class="node"'), 32)

    @needs_program
    @needs("dot", "graphviz")
    def test_no_picture_is_wider_than_screens(self):
        for first, second in (("peterson", "exclusion"), ("broken", "exclusion")):
            made, names = self.folder / "made.png", [MUTEX / f"{name}.ba" for name in (first, second)]
            ask("include", *names, self.folder / "c")
            self.assertEqual(call("draw", names[0], self.folder / "c", "-o", made)[0], 0)
            self.assertLess(int.from_bytes(made.read_bytes()[16:20], "big"), 3000)

    @needs_program
    @needs("dot", "graphviz")
    def test_names_are_drawn_as_they_are(self):
        one = self.write("a.ba", "q\na\\N&amp;,q->q\n\\E\t&x,q->\\N\\G&lt;\\\nb,\\N\\G&lt;\\->q\nq\n")
        other = self.write("b.ba", "q\nb,q->q\nq\n")
        in_cells = {"a\\N&amp;", "\\E &x", "\\N\\G&lt;\\"}
        for second, shown in ((one, in_cells), (other, {" a\\N&amp;"})):
            ask("include", one, second, self.folder / "c")
            drawn = call("draw", one, self.folder / "c")[1]
            texts = {html.unescape(text).replace("\xa0", " ") for text in re.findall("<text[^>]*>([^<]*)<", drawn)}
            self.assertLessEqual({"a\\N&amp;", "\\E\t&x", "\\N\\G&lt;\\"} | shown, texts)

    def test_a_state_has_one_arrow_to_itself(self):
        made = self.read(self.write("a.ba", "0\nx,0->0\n<y>,0->0\nz,0->0\n"))
        for prefix, loop, edge in (
            ("", "0", f'<font color="{drawing.LOOP}">x</font><br/>&lt;y&gt;<br/>z>, color="{drawing.LOOP}", penwidth=2'),
            (" 0", "0", f'<font color="{drawing.PREFIX}">x</font><br/>&lt;y&gt;<br/>z>, color="{drawing.BOTH}"'),
        ):
            path = self.write("c", f"rabit-cert 1 buchi no\nsizes 1 1 3\nprefix{prefix}\nloop {loop}\nend\n")
            text = drawing.drawn_with(made, certificates.load(str(path)), "c")
            self.assertEqual((text.count("s0 -> s0"), edge in text), (1, True), text)
        self.assertIn('s0 -> s0 [label="x\\n<y>\\nz"];', drawing.dot(made))

    @needs_program
    def test_texts(self):
        ask("include", MUTEX / "peterson.ba", MUTEX / "exclusion.ba", self.folder / "yes.cert")
        text = drawing.drawn_with(
            self.read(MUTEX / "peterson.ba"), certificates.load(str(self.folder / "yes.cert")), "yes.cert"
        )
        self.assertIn("included: 293 elements, 256 of them live", text)
        self.assertIn("… 232 more", text)
        self.assertEqual(text.count("<tr>"), 1 + drawing.ROWS + 1)
        ask("include", MUTEX / "broken.ba", MUTEX / "exclusion.ba", self.folder / "word.cert", "--finite")
        text = drawing.drawn_with(
            self.read(MUTEX / "broken.ba"), certificates.load(str(self.folder / "word.cert")), "word.cert"
        )
        self.assertEqual((text.count(f'color="{drawing.PREFIX}", fontcolor'), drawing.LOOP in text), (6, False))

    def test_statuses(self):
        path = self.write("a.ba", "0\na,0->0\n")
        no = self.write("c", "rabit-cert 1 buchi no\nsizes 1 1 2\nprefix\nloop 1\nend\n")
        self.assertEqual(call("draw", path, "-o", self.folder / "a.jpg")[0], 3)
        self.assertEqual(call("draw", self.folder / "none")[0], 6)
        self.assertEqual(call("draw", path, no)[0], 5)
        self.assertEqual(
            call("draw", path, self.write("d", "rabit-cert 1 buchi no\nsizes 2 1 2\nprefix\nloop 0\nend\n"))[0], 5
        )

    def test_steps_are_taken_as_the_format_says(self):
        made = automata.read_ba(b"0\na,0->1\na,1->2\na,2->0\nb,1->1\n0\n1\n")
        after = logs.taken(
            made, [{"step": "trim", "states": [1, 2]}, {"step": "merge", "by": None, "classes": [0, 1, 1]}]
        )
        self.assertEqual((after[1].names, after[1].initial, after[1].accepting), (["0", "1", "2"], 0, {1}))
        self.assertEqual(after[1].transitions, [(1, 0, 2), (1, 1, 1)])
        self.assertEqual((after[2].names, after[2].transitions), (["0", "1 = 2"], [(1, 0, 1), (1, 1, 1)]))
        with self.assertRaises(files.Refusal):
            logs.taken(made, [{"step": "cut", "gone": [4]}])


if __name__ == "__main__":
    unittest.main()
