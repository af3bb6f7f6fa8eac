"""The tutorial's protocol in Promela: spin and the program agree on what it keeps, by way of never claims."""
import re
import subprocess
import unittest

from helping import TOP, Case, ask, call, needs, needs_program

MUTEX = TOP / "examples" / "mutex"
# by name: a formula over the labels, and whether the right and the broken protocol keep it
PROPERTIES = {
    "exclusion": ("([] (enter0 -> (leave0 V ! enter1))) && ([] (enter1 -> (leave1 V ! enter0)))", True, False),
    "flag_answered": ("[] (flag0 -> <> enter0)", True, True),
    "turn_answered": ("[] (turn0 -> <> enter0)", True, False),
    "always_again": ("[] <> enter0", False, False),
    "fair": ("([] <> flag0) -> ([] <> enter0)", True, True),
    "alternation": ("[] (leave0 -> (enter1 V ! enter0))", False, False),
    "at_last_idle": ("<> [] ! flag0", False, False),
}


def run(*words, folder):
    """What the words print; they have to end with status 0."""
    done = subprocess.run([str(word) for word in words], cwd=str(folder), stdout=subprocess.PIPE, text=True, check=True)
    return done.stdout


@needs("spin")
@needs_program
class Peterson(Case):
    def claim(self, name, formula):
        """The file of what spin makes of the formula, a never claim of this name."""
        text = run("spin", "-f", formula, folder=self.folder)
        return self.write(f"{name}.never", text.replace("never", f"never {name}", 1))

    def imported(self, claim):
        """The file of the claim in `.ba`, over the labels of the protocol."""
        target = claim.with_suffix(".ba")
        status, output, errors = call("import", claim, "--labels-of", MUTEX / "peterson.ba", "-o", target)
        self.assertEqual((status, output, errors), (0, "", ""))
        return target

    def test_the_program_decides_the_claims(self):
        certificate = self.folder / "c.cert"
        for name, (formula, *kept) in PROPERTIES.items():
            wanted = self.imported(self.claim(name, formula))
            excluded = self.imported(self.claim(f"no_{name}", f"! ({formula})"))
            for protocol, holds in zip(("peterson", "broken"), kept):
                with self.subTest(f"{protocol}, {name}"):
                    system = MUTEX / f"{protocol}.ba"
                    status, printed = ask("include", system, wanted, certificate)
                    answer = (0, "included") if holds else (1, "not included")
                    self.assertEqual((status, printed.split("\n")[0]), answer)
                    self.assertEqual(ask("check", system, wanted, certificate), (status, printed))
                    # as spin asks it: no run of the system is one of the claim for the negation
                    both = self.write("both.ba", ask("intersect", system, excluded)[1])
                    status, printed = ask("empty", both, self.folder / "empty.ba", certificate)
                    self.assertEqual((status, printed.split("\n")[0]), (0, "empty") if holds else (1, "not empty"))
        # what the tutorial asks for implies the formula and says more: nobody leaves who has not entered
        status, printed = ask("include", MUTEX / "exclusion.ba", self.folder / "exclusion.ba", certificate)
        self.assertEqual((status, printed), (0, "included\n"))
        self.assertEqual(ask("include", self.folder / "exclusion.ba", MUTEX / "exclusion.ba", certificate)[0], 1)

    @needs("gcc")
    def test_spin_decides_the_same(self):
        claims = [self.claim(name, f"! ({formula})").read_text() for name, (formula, *_) in PROPERTIES.items()]
        model = (MUTEX / "peterson.pml").read_text()
        self.write("model.pml", model + "\n".join(claims))
        for at, defined in enumerate(([], ["-DBROKEN"])):
            run("spin", *defined, "-a", "model.pml", folder=self.folder)
            run("gcc", "-w", "-O0", "-o", "pan", "pan.c", folder=self.folder)
            for name, (_, *kept) in PROPERTIES.items():
                with self.subTest(f"{name} {defined}"):
                    printed = run("./pan", "-a", "-N", name, folder=self.folder)
                    self.assertIn(f"({name})", printed)
                    self.assertEqual(re.search(r"errors: (\d)", printed).group(1), "0" if kept[at] else "1")

    @needs("gcc")
    def test_the_model_has_the_states_of_the_automata(self):
        # without the step that was taken last the model has the states of the automata, and no others
        model = (MUTEX / "peterson.pml").read_text().replace("byte last", "hidden byte last")
        self.assertIn("hidden", model)
        self.write("model.pml", model)
        for protocol, defined in (("peterson", []), ("broken", ["-DBROKEN"])):
            run("spin", *defined, "-a", "model.pml", folder=self.folder)
            run("gcc", "-w", "-O0", "-DNOREDUCE", "-DSAFETY", "-o", "pan", "pan.c", folder=self.folder)
            stored = re.search(r"(\d+) states, stored", run("./pan", folder=self.folder)).group(1)
            self.assertEqual(int(stored), len(self.read(MUTEX / f"{protocol}.ba").names))


if __name__ == "__main__":
    unittest.main()
