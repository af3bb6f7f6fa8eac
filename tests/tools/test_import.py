"""`import`: each feature and each refusal, against the program and against the definition of acceptance."""
import random
import subprocess
import sys
import unittest

from helping import DATA, TOOL, Case, accepts, ba_accepts, call, needs_program
from rabit_tool import automata, files, importing, letters


class Features(Case):
    @needs_program
    def test_each_feature_of_hoa(self):
        found = sorted((DATA / "hoa").glob("*.hoa"))
        self.assertGreaterEqual(len(found), 20)
        for path in found:
            with self.subTest(path.stem):
                status, _, errors = call("import", path, "-o", self.folder / "made.ba")
                self.assertEqual((status, errors), (0, ""))
                self.assertEqual(self.equal(self.folder / "made.ba", path.with_suffix(".ba")), "equal")

    @needs_program
    def test_never_claims_lbt_and_goal(self):
        found = sorted(path for kind in ("never", "lbt", "gff") for path in (DATA / kind).glob(f"*.{kind}"))
        self.assertGreaterEqual(len(found), 10)
        for path in found:
            with self.subTest(path.name):
                self.assertEqual(call("import", path, "-o", self.folder / "made.ba")[0], 0)
                self.assertEqual(call("import", path.with_suffix(".hoa"), "-o", self.folder / "same.ba")[0], 0)
                self.assertEqual(self.equal(self.folder / "made.ba", self.folder / "same.ba"), "equal")

    def test_each_refusal(self):
        lines = (DATA / "refused" / "expected").read_text().splitlines()
        self.assertEqual(
            {line.split(" ")[0].rstrip(":") for line in lines} | {"expected"}, {p.name for p in (DATA / "refused").iterdir()}
        )
        for line in lines:
            with self.subTest(line):
                status, output, errors = call("import", DATA / "refused" / line.split(" ")[0].rstrip(":"))
                self.assertEqual((status, output), (4, ""))
                self.assertTrue(errors.startswith(f"rabit-tool: {DATA / 'refused' / line}: "), errors)

    def test_a_byte_order_mark_before_each_format(self):
        for kind in ("hoa", "never", "lbt", "gff"):
            for path in sorted((DATA / kind).glob(f"*.{kind}")):
                with self.subTest(path.name):
                    marked = self.write("marked", files.decoded(b"\xef\xbb\xbf" + path.read_bytes()))
                    self.assertEqual(call("import", marked), call("import", path))
        # one mark alone
        twice = self.write("twice", "\ufeff\ufeffHOA: v1 Acceptance: 0 t --BODY-- --END--")
        self.assertEqual(call("import", twice)[0], 4)

    def test_comments_in_comments_before_hoa(self):
        path = DATA / "hoa" / "aliases.hoa"
        for comment in ("/* one */", "/* one /* in */ another */", "/* never { */\n /* // */"):
            commented = self.write("commented", comment + "\n" + path.read_text(encoding="utf-8"))
            self.assertEqual(call("import", commented), call("import", path))

    def test_letters_and_names(self):
        path = DATA / "hoa" / "names-that-ba-cannot-have.hoa"
        self.assertEqual(call("import", path)[1].split("\n")[0], "[0]")
        made = automata.read_ba(files.encoded(call("import", path)[1]))
        self.assertEqual(made.names, ["[0]", "[1]", "[2]", '"quoted" \\ name', "[4]"])
        made = automata.read_ba(files.encoded(call("import", DATA / "hoa" / "names-twice.hoa")[1]))
        self.assertEqual(made.names, ["[0]", "[1]", "same'"])
        self.assertEqual(letters.letter_names(["q", "p"]), ["!p&!q", "!p&q", "p&!q", "p&q"])
        self.assertEqual(letters.letter_names([]), ["t"])


def hoa_text(edges, starts, states, propositions, wanted, sets, on_states):
    """The text of an automaton whose edges are (source, letter, target, marks)."""
    lines = ["HOA: v1", *(f"Start: {state}" for state in starts)]
    lines.append(f"AP: {propositions} " + " ".join(f'"p{i}"' for i in range(propositions)))
    condition = "&".join(f"Inf({i})" for i in wanted) or "t"
    lines += [f"Acceptance: {sets} {condition}", "--BODY--"]
    for state in range(states):
        lines.append(f"State: {state} {{{' '.join(map(str, on_states[state]))}}}")
        for source, letter, target, marks in edges:
            if source == state:
                label = "&".join(("" if letter >> i & 1 else "!") + str(i) for i in range(propositions)) or "t"
                lines.append(f"[{label}] {target} {{{' '.join(map(str, marks))}}}")
    return "\n".join([*lines, "--END--", ""])


class Meaning(unittest.TestCase):
    def test_random_automata_accept_the_same_lassos(self):
        rnd, accepted, refused = random.Random(7), 0, 0
        for _ in range(400):
            states, propositions, sets = rnd.randrange(1, 5), rnd.randrange(0, 3), rnd.randrange(0, 4)
            wanted = rnd.sample(range(sets), rnd.randrange(sets + 1))
            numbers = range(1 << propositions)

            def marks(few):
                return [mark for mark in range(sets) if rnd.random() < few]

            edges = [
                (rnd.randrange(states), rnd.choice(numbers), rnd.randrange(states), marks(0.4)) for _ in range(
                    rnd.randrange(3 * states + 1)
                )
            ]
            on_states = [marks(rnd.choice([0, 0.3])) for _ in range(states)]
            starts = [rnd.randrange(states) for _ in range(rnd.randrange(4))]
            text = hoa_text(edges, starts, states, propositions, wanted, sets, on_states)
            made = automata.read_ba(automata.write_ba(importing.imported(files.encoded(text))))
            names = letters.letter_names([f"p{i}" for i in range(propositions)])
            marked = [(p, names[letter], q, {*own, *on_states[p]}) for p, letter, q, own in edges]
            for _ in range(12):
                prefix = [rnd.choice(names) for _ in range(rnd.randrange(3))]
                loop = [rnd.choice(names) for _ in range(rnd.randrange(1, 4))]
                right = accepts(marked, starts, wanted, prefix, loop)
                self.assertEqual(ba_accepts(made, prefix, loop), right, f"{text}\n{prefix} {loop}")
                accepted, refused = accepted + right, refused + (not right)
        self.assertGreater(accepted, 300)
        self.assertGreater(refused, 300)

    def test_more_propositions_and_missing_letters(self):
        text = b'HOA: v1 Start: 0 AP: 1 "p" Acceptance: 1 Inf(0) --BODY-- State: 0 {0} [0] 0 --END--'
        made = importing.imported(text, ["q", "p"])
        self.assertEqual(made.labels, ["p&!q", "p&q"])
        made = importing.imported(text, [], True)
        self.assertEqual((made.labels, len(made.names), made.accepting), (["!p", "p"], 2, {0}))
        self.assertTrue(ba_accepts(made, [], ["p"]))
        self.assertFalse(ba_accepts(made, ["!p"], ["p"]))
        made = importing.imported(b"HOA: v1 AP: 1 \"p\" Acceptance: 0 t --BODY-- --END--", [], True)
        self.assertEqual((made.labels, made.accepting), (["!p", "p"], set()))

    def test_the_standard_input(self):
        text = b"HOA: v1 Start: 0 AP: 1 \"p\" Acceptance: 1 Inf(0) --BODY-- State: 0 {0} [0] 0 --END--"
        words = [sys.executable, str(TOOL), "import", "-"]
        done = subprocess.run(words, input=text, stdout=subprocess.PIPE, check=False)
        self.assertEqual((done.returncode, done.stdout), (0, automata.write_ba(importing.imported(text))))

    def test_a_text_in_ba_is_told_to_be_one(self):
        with self.assertRaises(files.Refusal) as found:
            importing.read_any(b"0\na,0->0\n")
        self.assertIn("this is .ba already", found.exception.text)
        with self.assertRaises(files.Refusal) as found:
            importing.read_any(b"0\n")
        self.assertNotIn("this is .ba already", found.exception.text)

    def test_labels_of_an_automaton(self):
        rnd, labels, accepted, refused = random.Random(8), ["p1", "other", "p0", "!p0", "p2"], 0, 0
        for _ in range(150):
            states, propositions = rnd.randrange(1, 5), rnd.randrange(0, 4)
            numbers = range(1 << propositions)
            edges = [
                (rnd.randrange(states), rnd.choice(numbers), rnd.randrange(states), rnd.choice([[], [0]]))
                for _ in range(rnd.randrange(8 * states + 1))
            ]
            text = hoa_text(edges, [0], states, propositions, [0], 1, [[]] * states)
            made = importing.imported(files.encoded(text), labels=labels, complete=rnd.random() < 0.5)
            self.assertLessEqual(set(made.labels), set(labels))
            for _ in range(8):
                prefix = [rnd.choice(labels) for _ in range(rnd.randrange(3))]
                loop = [rnd.choice(labels) for _ in range(rnd.randrange(1, 4))]
                # at a label the proposition of its name holds, and no other
                words = [
                    [sum(1 << i for i in range(propositions) if label == f"p{i}") for label in part]
                    for part in (prefix, loop)
                ]
                right = accepts(edges, [0], [0], *words)
                self.assertEqual(ba_accepts(made, prefix, loop), right, f"{text}\n{prefix} {loop}")
                accepted, refused = accepted + right, refused + (not right)
        self.assertGreater(accepted, 100)
        self.assertGreater(refused, 100)


class Robust(Case):
    def test_deep_formulas(self):
        depth = 20000
        label = "(" * depth + "!" * depth + "0" + ")" * depth
        hoa = f'HOA: v1 Start: 0 AP: 1 "p" Acceptance: 0 t --BODY-- State: 0 [{label}] 0 --END--'
        never = "never {\nT: do :: " + label.replace("0", "p") + " -> goto T od }"
        lbt = "1 0\n0 1 -1\n0 " + "! " * depth + "& p0 " * depth + "p0\n-1\n"
        for text in (hoa, never, lbt):
            self.assertEqual(call("import", self.write("deep", text))[0], 0, text[:30])

    def test_too_much(self):
        edges = "\n".join(
            f"State: {state} " + " ".join(f"[t] {target}" for target in range(100)) for state in range(100)
        )
        head = 'HOA: v1 Start: 0 AP: 8 "a" "b" "c" "d" "e" "f" "g" "h" Acceptance: 0 t --BODY--\n'
        status, _, errors = call("import", self.write("many.hoa", f"{head}{edges}\n--END--"))
        self.assertEqual((status, "many.hoa: TooManyTransitions: " in errors), (4, True), errors)
        states = "\n".join(f"State: {state} [t] {(state + 1) % 3000}" for state in range(3000))
        path = self.write("long.hoa", f"HOA: v1 Start: 0 AP: 0 Acceptance: 0 t --BODY--\n{states}\n--END--")
        status, _, errors = call("import", path, "-o", self.folder / "long.ba")
        self.assertEqual((status, "more than `rabit include` takes" in errors), (0, True), errors)

    def test_many_states_of_one_name(self):
        states = "\n".join(f'State: {state} "x" [t] {(state + 1) % 5000}' for state in range(5000))
        text = f"HOA: v1 Start: 0 AP: 0 Acceptance: 0 t --BODY--\n{states}\n--END--"
        self.assertEqual(importing.imported(files.encoded(text)).names[:2], ["[0]", "[1]"])
        long = "n" * 253
        text = (
            'HOA: v1 Start: 0 AP: 0 Acceptance: 1 Inf(0) --BODY-- '
            f'State: 0 "{long}" [t] 1 {{0}} [t] 1 [t] 0 {{0}} State: 1 "{long}/0" [t] 0 [t] 0 {{0}} --END--'
        )
        names = importing.imported(files.encoded(text)).names
        self.assertTrue(len(set(names)) == len(names) == 4 and all(map(automata.can_be_named, names)), names)

    def test_files(self):
        path = self.write("a.hoa", (DATA / "hoa" / "incomplete.hoa").read_text())
        self.assertEqual(call("import", path, "-o", path)[0], 7)
        self.assertEqual(path.read_text(), (DATA / "hoa" / "incomplete.hoa").read_text())
        self.assertEqual(call("import", self.folder / "none")[0], 6)
        self.assertEqual(call("import", self.folder)[0], 6)
        self.assertEqual(call("import", path, "-o", self.folder / "no" / "such")[0], 7)
        self.assertEqual(call("import")[0], 3)
        self.assertEqual(call("import", path, "--look")[0], 3)

    def test_more_propositions_than_eight(self):
        claim = self.write("claim", "never { accept: do :: p -> goto accept od }")
        self.assertEqual(call("import", claim, "--ap", "a,b,c,d,e,f,g")[0], 0)
        refusal = f"rabit-tool: {claim}: TooManyPropositions: with those that are added more than eight\n"
        self.assertEqual(call("import", claim, "--ap", "a,b,c,d,e,f,g,h"), (4, "", refusal))

    def test_labels_that_do_not_fit(self):
        system = self.write("system.ba", "0\nenter,0->1\nleave,1->0\n")
        claim = self.write("claim", "never { accept: do :: !entr -> goto accept od }")
        own = DATA / "hoa" / "own-letters.hoa"
        for words, status, said in (
            ([claim, "--labels-of", system], 4, f"{claim}: Proposition: entr is the name of no label"),
            ([claim, "--ap", "x", "--labels-of", system], 4, f"{claim}: Proposition: entr is"),
            ([own, "--labels-of", system], 4, f"{own}: Propositions: the letters have names of their own"),
            ([claim, "--labels-of", self.folder / "none"], 6, f"{self.folder}/none: No such file or directory"),
            ([claim, "--labels-of", self.write("bad.ba", "0\na,0\n")], 4, f"{self.folder}/bad.ba line 2: Shape"),
        ):
            found, output, errors = call("import", *words)
            self.assertEqual((found, output), (status, ""), words)
            self.assertTrue(errors.startswith(f"rabit-tool: {said}"), errors)
        claim = self.write("claim", "never { accept: do :: !enter -> goto accept od }")
        made = call("import", claim, "--labels-of", system)
        self.assertEqual(made, (0, "accept\nleave,accept->accept\naccept\n", ""))
        self.assertEqual(call("import", claim, "--labels-of", system, "-o", system)[0], 7)
        self.assertEqual(system.read_text(), "0\nenter,0->1\nleave,1->0\n")

    def test_damaged_texts_are_refused_or_read(self):
        rnd = random.Random(3)
        sources = [path for kind in ("hoa", "never", "lbt", "gff") for path in (DATA / kind).glob(f"*.{kind}")]
        texts, statuses = [path.read_bytes() for path in sorted(sources)], {0: 0, 4: 0}
        for _ in range(1500):
            data = bytearray(rnd.choice(texts))
            for _ in range(rnd.randrange(1, 4)):
                at = rnd.randrange(len(data))
                data[at : at + rnd.randrange(3)] = rnd.choice(
                    [b"", b"0", b"!", b"(", b")", b"{", b"\"", b" ", b"9" * 12, b"\xff", b"&", b"t"]
                )
            try:
                importing.imported(bytes(data))
                statuses[0] += 1
            except files.Refusal as refusal:
                self.assertRegex(refusal.text, r"^(line [1-9]\d*: )?[A-Z][A-Za-z]*: ")
                statuses[refusal.status] += 1
        self.assertTrue(all(count > 100 for count in statuses.values()), statuses)


if __name__ == "__main__":
    unittest.main()
