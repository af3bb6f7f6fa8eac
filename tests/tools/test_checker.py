"""The second checker: its test of stability by the definition, and its count of work on files made to cost much."""
import math
import random
import resource
import subprocess
import sys
import unittest

import hostile
from helping import TOP, Case, second_check

import check_cert  # isort: skip  (which helping puts on the path)


def is_answered(made, look, block, matches, state, ends, left, turned):
    """Whether each path of so many moves from the state, or to it where turned, is answered from one of the ends."""
    shown = (made.back if turned else made.moves)[state]
    if not left or not shown:
        return False
    for label, target in shown:
        steps = made.behind(label) if turned else made.ahead(label)
        after = [q for q in check_cert.states_in(steps.of(check_cert.set_of(ends))) if matches(target, q)]
        if any(block.get(target, 0) >> q & 1 for q in after):
            continue
        if not is_answered(made, look, block, matches, target, after, left - 1, turned):
            return False
    return True


def is_stable(made, side, look, block):
    """Whether the block is stable, by the definition and nothing else."""
    turned = side == "backward"

    def matches(p, q):
        if turned and p == made.initial and q != p:
            return False
        return not made.accepting >> p & 1 or bool(made.accepting >> q & 1)

    pairs = [(p, q) for p, row in block.items() for q in check_cert.states_in(row)]
    moves = made.back if turned else made.moves
    return all(
        matches(p, q) and (not moves[p] or is_answered(made, look, block, matches, p, [q], look, turned)) for p, q in pairs
    )


class Stability(unittest.TestCase):
    def test_small_relations(self):
        rnd, counts, by_look = random.Random(81), {True: 0, False: 0}, 0
        for _ in range(4000):
            states, labels = rnd.randrange(1, 6), rnd.randrange(1, 3)
            several = rnd.randrange(2 * states * labels + 1)
            moves = {(rnd.randrange(states), rnd.randrange(labels), rnd.randrange(states)) for _ in range(several)}
            accepting = check_cert.set_of(q for q in range(states) if rnd.random() < 0.7)
            made = check_cert.Automaton(states, rnd.randrange(states), moves, accepting)
            side, look, part = rnd.choice(["forward", "backward"]), rnd.randrange(1, 5), rnd.random()
            block = {p: check_cert.set_of(q for q in range(states) if rnd.random() < part) for p in range(states)}
            right = is_stable(made, side, look, block)
            self.assertIs(check_cert.stable(made, side, look, block), right, (side, look, block, moves))
            counts[right] += 1
            by_look += right and not is_stable(made, side, 1, block)
        self.assertTrue(min(counts.values()) > 300 and by_look > 20, (counts, by_look))

    def test_relations_with_many_answers(self):
        rnd, counts = random.Random(82), {True: 0, False: 0}
        for _ in range(150):
            states, many = 40, range(10, 40)
            # 0 is shown: its ways lead to 2 and back there; 3 answers by many states, of which few are related to 2
            moves = {(0, 0, 1), (1, 0, 2), (2, 0, 2)} | {(3, 0, q) for q in many if rnd.random() < 0.95}
            moves |= {(q, 0, q if rnd.random() < 0.9 else rnd.choice(many)) for q in many}
            made = check_cert.Automaton(states, 0, moves, (1 << states) - 1)
            block = {0: 1 << 3, 2: check_cert.set_of(rnd.sample(many, 2))}
            right = is_stable(made, "forward", 2, block)
            self.assertIs(check_cert.stable(made, "forward", 2, block), right, (block, moves))
            counts[right] += 1
        self.assertTrue(min(counts.values()) > 15, counts)

    def test_a_relation_that_long_paths_keep(self):
        rnd, states = random.Random(1), 100
        moves = {
            (state, label, target) for state in range(states) for label in range(4)
            for target in rnd.sample(range(states), 12)
        }  # fmt: skip
        made = check_cert.Automaton(states, 0, moves, (1 << states) - 1)
        block = {p: 1 << (p + 1) % states for p in range(states)}
        check_cert.WORK.allow(check_cert.FREE_STEPS)
        self.addCleanup(check_cert.WORK.allow, math.inf)
        self.assertTrue(check_cert.stable(made, "forward", 6, block))
        self.assertFalse(check_cert.stable(made, "forward", 1, block))


class Work(Case):
    def asked(self, texts, steps, *options):
        """The status and what is printed of the files, where so many steps may be taken, and how many are left."""
        names = [self.write(name, text) for name, text in zip("ABC", texts)]
        kept = check_cert.FREE_STEPS, check_cert.STEPS_PER_BYTE
        check_cert.FREE_STEPS, check_cert.STEPS_PER_BYTE = steps, 0
        try:
            status, printed = second_check(*options, *(["--cross"] if len(texts) > 3 else []), *names)
        finally:
            check_cert.FREE_STEPS, check_cert.STEPS_PER_BYTE = kept
        return status, printed, check_cert.WORK.left

    def test_files_that_cost_much(self):
        given_up = count = 0
        for name, texts in hostile.families():
            with self.subTest(name):
                self.assertLessEqual(max(map(len, texts[:3])), 1 << 16)
                status, printed, left = self.asked(texts, 60_000)
                self.assertEqual(left < 0, status == check_cert.NOT_CHECKED)
                self.assertIn(status, (0, 1, 2, 5, check_cert.NOT_CHECKED))
                if left < 0:
                    self.assertEqual(printed, "not checked: more than 60000 steps of work; --patient goes on\n")
            given_up, count = given_up + (left < 0), count + 1
        self.assertTrue(count >= 30 and given_up >= 20, (count, given_up))

    def test_sets_with_one_hash(self):
        for name, texts in hostile.collisions():
            with self.subTest(name):
                self.assertLessEqual(max(map(len, texts)), 1 << 16)
                names = [str(self.write(name, text)) for name, text in zip("ABC", texts)]
                done = subprocess.run(
                    [sys.executable, str(TOP / "tools" / "check_cert.py"), *names], stdout=subprocess.PIPE, check=False,
                    preexec_fn=lambda: resource.setrlimit(resource.RLIMIT_CPU, (10, 10)),
                )  # fmt: skip
                self.assertIn(done.returncode, (1, 5, check_cert.NOT_CHECKED))

    def test_tuples_with_one_hash(self):
        rings = [[number + 61 * k for k in range(length)] for number, length in enumerate((9, 8, 7, 5))]
        graphs = [tuple(1 << ring[turn % len(ring)] for ring in rings) for turn in range(2520)]
        self.assertEqual((len(set(graphs)), len(set(map(hash, graphs)))), (2520, 1))
        distinct = check_cert.Distinct()
        self.assertTrue(all(distinct.add(graph) for graph in graphs))
        self.assertFalse(any(distinct.add(graph) for graph in graphs))
        self.assertEqual((distinct.tuples, max(map(len, distinct.by_hash.values()))), (graphs, 1))

    def test_the_same_files_have_the_same_answer(self):
        texts = dict(hostile.families())["finite 200"]
        status, printed, left = self.asked(texts, 10_000_000)
        used = 10_000_000 - left
        self.assertNotEqual(status, check_cert.NOT_CHECKED)
        self.assertEqual(self.asked(texts, used), (status, printed, 0))
        self.assertEqual(self.asked(texts, used - 1)[0], check_cert.NOT_CHECKED)
        self.assertEqual(self.asked(texts, 1, "--patient"), (status, printed, math.inf))


if __name__ == "__main__":
    unittest.main()
