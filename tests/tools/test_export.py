"""`export`: HOA that `import` reads back as the same automaton, and texts for graphviz."""
import random
import unittest

from helping import Case, ask, call, needs, needs_program, random_ba
from rabit_tool import automata, drawing, exporting, files, importing, letters

ODD = ["[0]", 'a "name"', "back\\slash", "x\ty", "é", "HOA: v1", "{0}", "1", "--END--", "/*"]


def alphabet(rnd):
    """Labels of a random kind."""
    kind = rnd.randrange(4)
    if kind == 0:
        return "abc"
    if kind == 1:
        return letters.letter_names(rnd.sample(["p", "q", "x > 1", "%", ""], rnd.randrange(4)))
    return ODD if kind == 2 else [f"l{i}" for i in range(rnd.choice([1, 2, 200]))]


class RoundTrip(Case):
    @needs_program
    def test_500_random_automata_come_back_equal(self):
        rnd, moved = random.Random(11), 0
        for number in range(500):
            path = self.write("a.ba", random_ba(rnd, 8, alphabet(rnd), ODD if rnd.random() < 0.2 else None))
            self.assertEqual(call("export", path, "--hoa", "-o", self.folder / "a.hoa")[0], 0)
            self.assertEqual(call("import", self.folder / "a.hoa", "-o", self.folder / "b.ba")[0], 0)
            self.assertEqual(self.equal(path, self.folder / "b.ba"), "equal", f"{number}: {path.read_text()}")
            moved += bool(self.read(path).transitions)
        self.assertGreater(moved, 350)

    def test_names_come_back(self):
        rnd = random.Random(12)
        for _ in range(300):
            text = random_ba(rnd, 8, alphabet(rnd), ODD if rnd.random() < 0.5 else None)
            made = automata.read_ba(files.encoded(text))
            back = importing.imported(files.encoded(exporting.hoa(made)))
            kept = [made.names[state] for state in range(len(made.names)) if state in made.reached()]
            self.assertEqual(set(back.names), set(kept))

            def moves(of):
                return {(of.names[p], of.labels[a], of.names[q]) for p, a, q in of.transitions if p in of.reached()}

            self.assertEqual(moves(back), moves(made))
            self.assertEqual(
                {back.names[q] for q in back.accepting}, {made.names[q] for q in made.accepting} & set(kept)
            )

    def test_letters_over_propositions_stay_such(self):
        made = automata.read_ba(b"0\n!p&q,0->0\np&q,0->0\n")
        self.assertIn('AP: 2 "p" "q"', exporting.hoa(made))
        self.assertNotIn("rabit-letters", exporting.hoa(made))
        self.assertIsNone(letters.propositions_of(["q&p"]))
        self.assertIsNone(letters.propositions_of(["p", "q"]))
        self.assertIsNone(letters.propositions_of(["p%zz"]))
        self.assertEqual(letters.propositions_of(["!p%2C", "p%2C"]), ["p,"])

    def test_formulas_tell_their_letters(self):
        rnd = random.Random(14)
        for _ in range(500):
            count = rnd.randrange(9)
            chosen = {letter for letter in range(1 << count) if rnd.random() < rnd.choice([0.1, 0.5, 0.95])}
            cubes = letters.cubes(chosen, count)
            numbers = range(1 << count)
            told = {v for v in numbers if any(all((v >> i & 1) == holds for i, holds in cube) for cube in cubes)}
            self.assertEqual(told, chosen)
            self.assertLessEqual(len(cubes), len(chosen))
        self.assertEqual(exporting.formula(range(4), 2), "t")
        self.assertEqual(exporting.formula([1, 3], 2), "0")
        self.assertEqual(exporting.formula([0, 3], 2), "!0&!1 | 0&1")

    def test_statuses(self):
        self.assertEqual(
            call("export", self.write("bad.ba", "a,b\n"))[::2], (4, f"rabit-tool: {self.folder}/bad.ba line 1: Shape\n")
        )
        labels = "".join(f"l{i},0->0\n" for i in range(257))
        self.assertEqual(call("export", self.write("many.ba", labels))[0], 4)
        self.assertEqual(call("export", self.folder / "none.ba")[0], 6)
        self.assertEqual(call("export", self.write("a.ba", "0\n"), "--hoa", "--dot")[0], 3)


@needs_program
class Reading(Case):
    def test_faults_are_those_of_the_program(self):
        rnd, counts = random.Random(15), {}
        pieces = ["", ",", "->", "\n", " ", "\t", "\r", "\x01", "\x7f", "[0]", "a", "\n\n", "x" * 256, "\n[1]\n", "é"]
        for _ in range(600):
            text = random_ba(rnd, 3, "ab")
            for _ in range(rnd.randrange(3)):
                at = rnd.randrange(len(text))
                text = text[:at] + rnd.choice(pieces) + text[at + rnd.randrange(4) :]
            if rnd.random() < 0.2:
                text = rnd.choice(["", "\n\n \t\n", "[0]\n[1]\n" + text, text.rstrip("\n")])
            path = self.write("a.ba", text)
            status, printed = ask("reduce", path)
            try:
                automata.read_ba(files.encoded(text), "file 1")
                told = None
            except files.Refusal as refusal:
                told = refusal.text
            self.assertEqual(told, printed.strip() if status == 4 else None, repr(text))
            counts[(told or "none").split(" ")[-1]] = counts.get((told or "none").split(" ")[-1], 0) + 1
        self.assertGreaterEqual(len(counts), 7, counts)
        self.assertGreater(counts["none"], 100)


class Graphviz(Case):
    @needs("dot", "graphviz")
    def test_texts_for_graphviz(self):
        rnd = random.Random(13)
        odd = [*ODD, "<b>&amp;</b>", "\\N", "a\\nb", "\udcff"]
        for _ in range(25):
            made = automata.read_ba(files.encoded(random_ba(rnd, 8, odd[:5], odd)))
            svg = drawing.pictured(drawing.dot(made), "svg").decode()
            self.assertEqual(svg.count('class="node"'), len(made.names))
            pairs = {(p, q) for p, _, q in made.transitions}
            self.assertEqual(svg.count('class="edge"'), len(pairs) + 1)

    def test_text(self):
        status, output, _ = call("export", self.write("a.ba", '0\na"b,0->x\\y\nx\\y\n'), "--dot")
        self.assertEqual(status, 0)
        self.assertIn('s0 -> s1 [label="a\\"b"]', output)
        self.assertIn('s1 [label="x\\\\y", peripheries=2]', output)
        self.assertIn("start -> s0", output)


if __name__ == "__main__":
    unittest.main()
