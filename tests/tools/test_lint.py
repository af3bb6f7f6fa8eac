"""`lint`, and `ba-lint` by its older name."""
import os
import random
import subprocess
import unittest

from helping import DATA, TOP, Case, ask, ba_accepts, call, needs_program, program, random_ba
from rabit_tool import automata, files, linting, names


class Warnings(Case):
    def warned(self, text):
        return [line for line, _ in linting.warnings(files.encoded(text))], "\n".join(
            t for _, t in linting.warnings(files.encoded(text))
        )

    def test_each_warning(self):
        cases = [
            ("", 0, "no line at all"),
            ("\n \n", 0, "no line at all"),
            ("[0]\n", 0, "no transition: no lasso is accepted"),
            ("\ufeff[0]\na,[0]->[0]\n", 1, "a byte order mark"),
            ("[0]\na,[0]->[0]\n[0]\nb,[0]\n", 4, "a comma, but no label,source->target"),
            ("[0]\na,[0]->[0]\n[0]->[0]\n", 3, "an arrow without a comma"),
            ("[0]\na,->[0]\n", 2, "a name or a label is missing"),
            ("[0]\na\x01,[0]->[0]\n", 2, "a control character"),
            ("[0]\n" + "a" * 256 + ",[0]->[0]\n", 2, "more than 255 bytes"),
            ("[0]\n[1]\na,[0]->[0]\n", 3, "2 state lines before the first transition"),
            ("[0]\na,[1]->[0]\n", 0, "the initial state [0] has no move: no lasso is accepted"),
            ("[O]\na,[0]->[0]\n", 0, "has no move: no lasso is accepted; is [0] meant?"),
            ("[0]\na,[0]->[0]\n[O]\n", 3, "the accepting state [O] is in no transition; is [0] meant?"),
            (
                "[0]\na,[0]->[0]\na,[1]->[1]\n[1]\n",
                0,
                "no accepting state is reached from [0]: no lasso is accepted (accepting: [1])",
            ),
            (
                "[0]\na,[0]->[0]\na,[0]->[1]\n[1]\n",
                0,
                "lies on a cycle: no lasso is accepted (accepting and reached: [1])",
            ),
            ("HOA: v1\n", 1, "the HOA format"),
            ("never { T: skip }\n", 1, "a never claim"),
            ("1 0\n0 1 -1\n", 1, "LBT's format"),
            ("<?xml version='1.0'?><structure>\n", 1, "GOAL's format"),
            ("rabit-cert 1 buchi no\n", 1, "a certificate"),
            ("digraph g {\n", 1, "a text for graphviz"),
        ]
        for text, line, said in cases:
            with self.subTest(text):
                lines, words = self.warned(text)
                self.assertIn(said, words)
                self.assertIn(line, lines)

    def test_each_note(self):
        cases = [
            ("0\na,0->0\na,0->0\n0\n", (3, "the transition a,0->0 stands there twice")),
            ("0\na,0->0\n0\n0\n", (4, "the accepting state 0 stands there twice")),
            (
                "0\na,0->0\na,wait->0\nb,0->stop\nb,stop->0\nb,stop->wait\na,0->Wait\n0\n",
                (0, "the state Wait is named once; is wait meant?"),
            ),
            ("0\na,0->0\na,1->2\n0\n", (0, "never reached: 1, 2")),
            ("0\na,0->1\na,1->0\n", (0, "it accepts each lasso over its labels")),
        ]
        for text, note in cases:
            with self.subTest(text):
                self.assertIn(note, linting.notes(files.encoded(text)))
                self.assertEqual(linting.warnings(files.encoded(text)), [])

    def test_what_the_program_refuses_as_too_large(self):
        def ring(count, labels=1):
            return "0\n" + "".join(f"a{i % labels},{i}->{(i + 1) % count}\n" for i in range(count))

        cases = [
            ("".join(f"a{i},0->0\n" for i in range(257)), "TooManyLabels: 257 labels: a file may have 256"),
            (ring(2049), "TooManyStates: 2049 states: a first file may have 2048, a second one 512"),
            (ring(300, 300), "TooManyLabels"),
            (
                "".join(f"a,{i}->{j}\n" for i in range(257) for j in range(256)),
                "TooManyTransitions: 65792 transitions: a file may have 65536",
            ),
            ("0\na,0->0\n" + "x" * 256 + "\n", "TokenLong"),
        ]
        for text, said in cases:
            self.assertIn(said, self.warned(text)[1])
        fine = "".join(f"a{i},0->{j}\n" for i in range(256) for j in range(10))
        self.assertEqual((self.warned(fine), self.warned(ring(2048))[0]), (([], ""), []))
        small, large = self.write("small.ba", ring(3)), self.write("large.ba", ring(601))
        said = "TooManyStates as a second file: 601 states, and it may have 512\n"
        for files_named, status in (([large], 0), ([large, small], 0), ([small, large], 1)):
            found = call("lint", *files_named)
            self.assertEqual((found[0], found[1].count(said), found[1].count("note: " + said)), (status, 1, 1 - status))

    def test_other_texts_are_told_once(self):
        prose = "Dear reader,\nthis is a letter, and no automaton.\nIt goes on -> here\nfor some lines.\n"
        self.assertEqual(self.warned(prose), ([0], "this is no automaton: no line is label,source->target"))
        self.assertIn("`rabit-tool import` makes .ba of it", self.warned("HOA: v1\n")[1])
        self.assertNotIn("rabit-tool import", self.warned("rabit-cert 1 buchi no\n")[1])

    def test_of_many_lines_fifty_are_told(self):
        move = "a,[0]->[0]\n"
        status, output, _ = call("lint", self.write("a.ba", "[0]\n" + move * 60000 + "[0]\n"))
        lines = output.splitlines()
        self.assertEqual((status, len([line for line in lines if "stands there twice" in line])), (0, 50))
        self.assertTrue(lines[-1].endswith("a.ba: note: and 59949 more like these"), lines[-1])
        status, output, _ = call("lint", self.write("b.ba", "[0]\n" + "x,y\n" * 52))
        self.assertEqual((status, len(output.splitlines())), (1, 50 + 2))
        self.assertIn("b.ba: no transition", output)
        self.assertTrue(output.endswith("b.ba: and 2 more like these\n"), output)

    def test_nothing_to_say(self):
        text = b"[0]\na,[0]->[1]\nb,[1]->[0]\n[0]\n"
        self.assertEqual((linting.warnings(text), linting.notes(text)), ([], []))

    def test_near_names(self):
        for pair in (
            ("[O]", "[0]"),
            ("l1", "ll"),
            ("0", "[0]"),
            ("Wait", "wait"),
            ("enter_a", "enter_b"),
            ("waitng", "waiting"),
            ("wiat_x", "wait_x"),
        ):
            self.assertTrue(names.near(*pair), pair)
            self.assertTrue(names.near(*pair[::-1]), pair)
        for pair in (
            ("[1]", "[2]"), ("a", "b"), ("a", "a"), ("state10", "state12"), ("state1", "state12"), ("enter", "leave")
        ):
            self.assertFalse(names.near(*pair), pair)

    def test_labels_of_two_files(self):
        one, two = self.write("1.ba", "0\nenter_a,0->0\nx,0->0\n"), self.write("2.ba", "0\nenter_b,0->0\nx,0->0\n")
        status, output, _ = call("lint", one, two)
        self.assertEqual(status, 0)
        self.assertIn(f"{one}: note: labels that {two} has not: enter_a; is enter_b for enter_a meant?\n", output)
        self.assertIn(f"{two}: note: labels that {one} has not: enter_b; is enter_a for enter_b meant?\n", output)


class Statuses(Case):
    def test_statuses(self):
        good, bad = self.write("good.ba", "0\na,0->1\nb,1->0\n0\n"), self.write("bad.ba", "0\n")
        for words, status in (
            ((good,), 0), ((bad,), 1), ((good, bad), 1), ((good, self.folder / "none"), 1), ((good, self.folder), 1)
        ):
            self.assertEqual(call("lint", *words)[0], status)
            done = subprocess.run([str(TOP / "tools" / "ba-lint"), *words], stdout=subprocess.PIPE, check=False)
            self.assertEqual(done.returncode, status)
        self.assertEqual(call("lint")[0], 3)
        done = subprocess.run(
            [str(TOP / "tools" / "ba-lint")], stdout=subprocess.PIPE, stderr=subprocess.PIPE, check=False
        )
        self.assertEqual((done.returncode, done.stdout), (2, b""))
        done = subprocess.run([str(TOP / "tools" / "ba-lint"), "--help"], stdout=subprocess.PIPE, check=False)
        self.assertEqual((done.returncode, b"rabit-tool lint" in done.stdout), (0, True))

    def test_examples(self):
        found = sorted([*TOP.glob("examples/*.ba"), *TOP.glob("examples/*/*.ba")])
        self.assertGreater(len(found), 4)
        self.assertEqual(call("lint", *found)[0], 0)

    def test_other_formats(self):
        for path in [*(DATA / "hoa").glob("*.hoa"), *(DATA / "never").glob("*.never"), *(DATA / "lbt").glob("*.lbt")]:
            status, output, _ = call("lint", path)
            self.assertEqual((status, "which is not read" in output), (1, True), path)


@needs_program
class Meaning(Case):
    def test_what_accepts_nothing_is_warned_of(self):
        rnd, counts = random.Random(21), [0, 0]
        for _ in range(150):
            text = random_ba(rnd, 5, "ab")
            path, made = self.write("a.ba", text), automata.read_ba(files.encoded(text))
            status = ask("empty", path, self.folder / "e.ba", self.folder / "c.cert")[0]
            warned = any("no lasso is accepted" in said for _, said in linting.warnings(files.encoded(text)))
            self.assertEqual(warned, status == 0, text)
            counts[warned] += 1
            self.assertFalse(warned and ba_accepts(made, [], ["a"]))
        self.assertTrue(min(counts) > 20, counts)

    def test_what_accepts_all_is_noted(self):
        rnd, counts = random.Random(22), [0, 0]
        os.environ["RABIT"] = program()
        self.addCleanup(os.environ.pop, "RABIT")
        for _ in range(150):
            text = random_ba(rnd, 3, "a" if rnd.random() < 0.5 else "ab")
            path = self.write("a.ba", text)
            if linting.warnings(files.encoded(text)):
                continue
            status = ask("universal", path, self.folder / "u.ba", self.folder / "c.cert")[0]
            noted = "note: it accepts each lasso over its labels\n" in call("lint", path)[1]
            self.assertEqual(noted, status == 0, text)
            counts[noted] += 1
        self.assertTrue(min(counts) > 10, counts)


if __name__ == "__main__":
    unittest.main()
