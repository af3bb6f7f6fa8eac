"""What spin and lbt make of formulas of linear temporal logic, imported: both accept the same, and what the formula
says."""
import random
import subprocess
import unittest

from helping import DATA, Case, ask, call, needs, needs_program, second_check

OPERATORS = {"&": "&&", "|": "||", "U": "U", "V": "V", "i": "->", "e": "<->"}
PROPOSITIONS = ("p0", "p1", "p2")


def stored():
    """The formulas of the file: a list of (whether some, none or all words satisfy it, spin's text, lbt's text)."""
    lines = (DATA / "formulas").read_text().splitlines()
    return [tuple(line.split("\t")) for line in lines if not line.startswith("#")]


def formula(rnd, depth):
    """A random formula, as spin and as lbt write it, over p0 and p1."""
    kind = rnd.randrange(8) if depth else 0
    if kind < 2:
        name = f"p{rnd.randrange(2)}"
        return name, name
    if kind < 5:
        sign = rnd.choice(["!", "F", "G"])
        one, other = formula(rnd, depth - 1)
        return f"({ {'!': '!', 'F': '<>', 'G': '[]'}[sign] } {one})", f"{sign} {other}"
    sign = rnd.choice(sorted(OPERATORS))
    (one, other), (two, last) = formula(rnd, depth - 1), formula(rnd, depth - 1)
    return f"({one} {OPERATORS[sign]} {two})", f"{sign} {other} {last}"


def until(held, wanted, after):
    """By place, whether what is wanted comes and the other holds up to there; `after[place]` is the place after it."""
    value = [False] * len(after)
    for _ in after:
        value = [wanted[at] or held[at] and value[after[at]] for at in range(len(after))]
    return value


def meaning(tokens, letters, after):
    """By place of a lasso, whether the formula that begins the tokens holds there; the tokens are taken so far.

    A letter is the set of the propositions that hold."""
    sign = tokens.pop(0)
    if sign in ("t", "f"):
        return [sign == "t"] * len(after)
    if sign in PROPOSITIONS:
        return [sign in letter for letter in letters]
    one = meaning(tokens, letters, after)
    no, yes = [not value for value in one], [True] * len(after)
    if sign == "!":
        return no
    if sign == "X":
        return [one[place] for place in after]
    if sign == "F":
        return until(yes, one, after)
    if sign == "G":
        return [not value for value in until(yes, no, after)]
    two = meaning(tokens, letters, after)
    if sign == "U":
        return until(one, two, after)
    if sign == "V":
        return [not value for value in until(no, [not value for value in two], after)]
    pairs = list(zip(one, two))
    if sign == "i":
        return [not first or last for first, last in pairs]
    return [{"&": first and last, "|": first or last, "e": first == last}[sign] for first, last in pairs]


def satisfies(printed, text):
    """Whether the lasso that the program printed satisfies the formula, as lbt writes it, by the definition."""
    parts = [line.partition(":")[2].strip() for line in printed.split("\n")[1:3]]
    prefix, loop = ([letter.split("&") for letter in part.split(",") if letter] for part in parts)
    places = range(len(prefix) + len(loop))
    after = [place + 1 if place + 1 < len(places) else len(prefix) for place in places]
    return meaning(text.split(), prefix + loop, after)[0]


@needs("spin")
@needs("lbt")
@needs_program
class Translators(Case):
    def made(self, name, words, text):
        """The automaton that a translator makes, as a file in `.ba` of this name."""
        done = subprocess.run(
            words,
            input=text,
            stdout=subprocess.PIPE,
            stderr=subprocess.DEVNULL,
            text=True,
            cwd=str(self.folder),
            check=True,
        )
        path, target = self.write(name, done.stdout), self.folder / f"{name}.ba"
        status, _, errors = call("import", path, "--ap", ",".join(PROPOSITIONS), "-o", target)
        self.assertEqual((status, errors), (0, ""), done.stdout)
        return target

    def made_by_spin(self, name, text, sign):
        """As `made`, of the sign and the formula in spin's writing, or in lbt's behind `lbt:`."""
        if text.startswith("lbt: "):
            return self.made(name, ["lbt"], f"{sign} {text[5:]}\n")
        return self.made(name, ["spin", "-f", f"{sign} ({text})"], None)

    def translated(self, spin, lbt):
        """What spin and lbt make of a formula, and of its negation."""
        return (
            self.made_by_spin("one", spin, ""),
            self.made("other", ["lbt"], f"{lbt}\n"),
            self.made_by_spin("not-one", spin, "!"),
            self.made("not-other", ["lbt"], f"! {lbt}\n"),
        )

    def check(self, first, second, certificate, answer):
        """Asserts that both checkers accept the certificate of this answer, a status and what was printed."""
        self.assertEqual(ask("check", first, second, certificate), answer)
        self.assertEqual(second_check(first, second, certificate), answer)

    def check_formula(self, kind, spin, lbt):
        one, other, not_one, not_other = self.translated(spin, lbt)
        certificates = self.folder / "1.cert", self.folder / "2.cert"
        for first, second in ((one, other), (not_one, not_other)):
            self.assertEqual(ask("equal", first, second, *certificates), (0, "equal\n"))
            self.check(first, second, certificates[0], (0, "included\n"))
            self.check(second, first, certificates[1], (0, "included\n"))
        for first, second in ((one, not_other), (other, not_one)):
            status, printed = ask("include", first, second, certificates[0])
            answer = (0, "included") if kind == "none" else (1, "not included")
            self.assertEqual((status, printed.split("\n")[0]), answer)
            self.check(first, second, certificates[0], (status, printed))
            self.assertTrue(status == 0 or satisfies(printed, lbt), printed)
        for automaton, is_empty in ((one, kind == "none"), (not_one, kind == "all")):
            status, printed = ask("empty", automaton, self.folder / "empty.ba", certificates[0])
            self.assertEqual((status, printed.split("\n")[0]), (0, "empty") if is_empty else (1, "not empty"))

    def test_stored_formulas(self):
        formulas = stored()
        self.assertGreaterEqual(len({spin for _, spin, _ in formulas if not spin.startswith("lbt:")}), 60)
        self.assertEqual({kind for kind, _, _ in formulas}, {"some", "none", "all"})
        for kind, spin, lbt in formulas:
            with self.subTest(spin):
                self.check_formula(kind, spin, lbt)

    def test_random_formulas(self):
        rnd, apart = random.Random(61), 0
        for _ in range(25):
            one, other = formula(rnd, 3)
            spin = self.made("spin", ["spin", "-f", one], None)
            lbt, negated = self.made("lbt", ["lbt"], other + "\n"), self.made("negated", ["lbt"], f"! {other}\n")
            self.assertEqual(self.equal(spin, lbt), "equal", one)
            if ask("empty", spin, self.folder / "e.ba", self.folder / "c.cert")[0] == 1:
                status, printed = ask("include", spin, negated, self.folder / "c.cert")
                self.assertTrue(status == 1 and satisfies(printed, other), one)
                apart += 1
        self.assertGreater(apart, 15)


class Meaning(unittest.TestCase):
    def test_formulas_on_lassos(self):
        for text, prefix, loop, right in (
            ("U p0 p1", "p0,p0", "p1", True),
            ("U p0 p1", "p0,!p0", "p1", False),
            ("V p0 p1", "", "!p0&p1", True),
            ("V p0 p1", "p1", "p0&!p1", False),
            ("G F p0", "p0", "!p0,p0,!p0", True),
            ("F G p0", "p0", "p0,!p0", False),
            ("X e p0 p1", "p0&!p1", "!p0&!p1", True),
            ("i G p0 f", "p0", "p0", False),
        ):
            printed = f"not included\nprefix: {prefix}\nloop: {loop}\n"
            self.assertIs(satisfies(printed, text), right, (text, printed))


if __name__ == "__main__":
    unittest.main()
