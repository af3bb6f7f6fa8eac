"""`many`: five hundred questions, a run that is killed, two hosts, and checks that refuse."""
import json
import os
import random
import re
import shutil
import signal
import stat
import subprocess
import sys
import time
import unittest

from helping import TOOL, Case, Output, Slow, ask, call, needs, needs_program, program, random_ba
from rabit_tool import batch, many, results, worker

# stands for ssh: the host is a name alone, and its commands run here, in a folder and an environment of their own
SSH = """#!/bin/sh
while [ $# -gt 0 ]; do case "$1" in --) shift; break;; -[oiplFS]) shift 2;; -*) shift;; *) break;; esac; done
host=$1; shift
[ "$1" = -- ] && shift
echo "$host" >> {log}
cd {folder} && exec env -i PATH=/usr/bin:/bin HOME={folder} sh -c "$*"
"""


@needs("parallel")
@needs_program
class Many(Case):
    def questions(self, count, seed, states=6):
        """The list of so many random questions, and its path."""
        rnd, lines = random.Random(seed), []
        for number in range(count):
            self.write(f"{number}.ba", random_ba(rnd, states, "ab"))
        for number in range(count):
            lines.append(f"{self.folder}/{number}.ba {self.folder}/{rnd.randrange(count)}.ba")
        return lines, self.write("list", "\n".join(lines) + "\n")

    def started(self, *words):
        return subprocess.Popen(
            [sys.executable, str(TOOL), "many", *map(str, words)], stderr=subprocess.PIPE, env={
                **os.environ, "RABIT": program()
            }
        )

    def run_many(self, *words):
        process = self.started(*words)
        told = process.communicate(timeout=100)[1].decode()
        return process.returncode, told

    def rows(self, out):
        return results.loaded(str(out))[0].rows

    def check_rows(self, lines, out):
        """Each row has what the program says of its question, and its certificate is the program's."""
        rows = self.rows(out)
        self.assertEqual(sorted(rows), list(range(1, len(lines) + 1)))
        for number, line in enumerate(lines, 1):
            first, second = line.split()
            status, printed = ask("include", first, second, self.folder / "c")
            row = rows[number]
            self.assertEqual((row["first"], row["second"], row["status"]), (first, second, str(status)))
            self.assertEqual((row["verdict"], row["check"]), (printed.split("\n")[0], "accepted"))
            self.assertEqual((out / "certificates" / f"{number}.cert").read_bytes(), (self.folder / "c").read_bytes())

    def test_500_questions_and_a_killed_run(self):
        lines, path = self.questions(500, 41)
        out, words = self.folder / "out", ("--together", 4, "--jobs", 4)
        counts = []
        for kind in (signal.SIGKILL, signal.SIGTERM):
            process = self.started(path, "--out", out, *words, *(["--resume"] if counts else []))
            table, least = out / "table.tsv", (counts or [1])[-1] + 12
            until = time.monotonic() + 60
            while process.poll() is None and time.monotonic() < until:
                if table.exists() and table.read_bytes().count(b"\n") > least:
                    break
                time.sleep(0.02)
            process.send_signal(kind)
            process.communicate(timeout=30)
            self.assertEqual(process.returncode, -9 if kind == signal.SIGKILL else 130)
            counts.append(table.read_bytes().count(b"\n"))
        self.assertTrue(1 < counts[0] < counts[1] < 501, counts)
        # a row that was written in part, as where the machine stops
        with open(out / "table.tsv", "ab") as file:
            file.write(b"499\tunfinished")
        self.assertEqual(self.run_many(path, "--out", out, *words)[0], 3)
        status, told = self.run_many(path, "--out", out, "--together", 8, "--resume")
        self.assertEqual(status, 0, told)
        self.assertRegex(told.strip().split("\n")[-1], r"^(\d+) of \1 in \d+ s \(\d+\.\d a second\): ")
        self.check_rows(lines, out)
        self.assertEqual(len((out / "table.tsv").read_text().split("\n")), 502)
        self.assertEqual(self.run_many(path, "--out", out, "--resume"), (0, ""))
        status, told = self.run_many(path, "--out", out, "--resume", "--second")
        self.assertEqual((status, "without --second" in told), (3, True), told)

    def test_two_hosts_and_the_second_checker(self):
        lines, path = self.questions(40, 42)
        for host in ("one", "two"):
            (self.folder / host).mkdir()
        ssh = self.write("ssh", SSH.format(log=self.folder / "log", folder=self.folder / "one"))
        ssh.chmod(ssh.stat().st_mode | stat.S_IXUSR)
        hosts, out = self.write("hosts", "2/one\n2/two\n"), self.folder / "out"
        words = (path, "--out", out, "--hosts", hosts, "--ssh", ssh, "--second", "--together", 4)
        status, told = self.run_many(*words)
        self.assertEqual(status, 0, told)
        self.check_rows(lines, out)
        self.assertEqual({row["second check"] for row in self.rows(out).values()}, {"accepted"})
        asked = (self.folder / "log").read_text().split()
        self.assertTrue(asked.count("one") > 1 and asked.count("two") > 1, asked)
        self.assertEqual(list((self.folder / "one").iterdir()), [])

    def test_what_has_no_verdict(self):
        good, bad = self.write("good.ba", "0\na,0->0\n"), self.write("bad.ba", "0\na,0\n")
        odd = self.write("two words.ba", "0\na,0->0\n")
        text = f"# a comment\n\n{good} {good}\n{bad} {good}\n{good} {self.folder}/none.ba\n{odd}\t{good}\n"
        path, out = self.write("list", text), self.folder / "out"
        status, told = self.run_many(path, "--out", out)
        rows = self.rows(out)
        self.assertEqual(status, 1)
        self.assertEqual(
            [rows[number]["verdict"] for number in (1, 2, 4)], ["included", "file 1 line 2: Shape", "included"]
        )
        self.assertEqual(rows[3]["verdict"], f"error: {self.folder}/none.ba: No such file or directory")
        self.assertIn("rabit-tool: 2 questions have no verdict: numbers 2, 3\n", told)
        # what could not be read is asked again
        self.write("none.ba", "0\nb,0->0\n")
        self.assertEqual(self.run_many(path, "--out", out, "--resume")[0], 1)
        self.assertEqual(self.rows(out)[3]["verdict"], "not included")
        self.assertEqual(len((out / "table.tsv").read_text().split("\n")), 7)

    def test_other_commands_options_and_time(self):
        good = self.write("good.ba", "0\na,0->0\n")
        path = self.write("list", f"{good} {good}\n")
        status, told = self.run_many(path, "--command", "cross --look 2", "--second")
        self.assertEqual(status, 0, told)
        row = self.rows(self.folder / "list.results")[1]
        self.assertEqual(
            [row[c] for c in ("verdict", "check", "second check")], ["included by simulation", "accepted", "accepted"]
        )
        shutil.rmtree(self.folder / "list.results")
        slow = self.write("slow", f"#!/bin/sh\n[ $2 = --look ] && [ -e first ] && sleep 50\nexec {program()} \"$@\"\n")
        slow.chmod(slow.stat().st_mode | stat.S_IXUSR)
        status, _ = self.run_many(
            path, "--command", "include --look 6 --limit 3 --finite", "--timeout", "0.5", "--program", slow
        )
        self.assertEqual((status, self.rows(self.folder / "list.results")[1]["verdict"]), (1, "more than 0.5 seconds"))
        shutil.rmtree(self.folder / "list.results")
        self.assertEqual(self.run_many(path, "--command", "include --finite")[0], 0)
        self.assertEqual(self.rows(self.folder / "list.results")[1]["verdict"], "included, finite")

    def test_a_program_that_is_wrong_is_found_out(self):
        call_it = program() + ' "$@"'
        liar = f"#!/bin/sh\n[ $1 = include ] && {{ {call_it} >/dev/null; echo included; exit 0; }}\nexec {call_it}\n"
        path = self.write("liar", liar)
        path.chmod(path.stat().st_mode | stat.S_IXUSR)
        one, two = self.write("1.ba", "0\na,0->0\n"), self.write("2.ba", "0\nb,0->0\n")
        status, told = self.run_many(
            self.write("list", f"{one} {two}\n"), "--program", path, "--second", "--out", self.folder / "out"
        )
        self.assertEqual((status, "1 question has a certificate that a check refused: number 1\n" in told), (1, True), told)
        row = self.rows(self.folder / "out")[1]
        self.assertEqual((row["check"], row["second check"]), ("refused: not included",) * 2)

    def test_a_certificate_that_the_second_checker_gives_up(self):
        said, wanted = "not checked: more than 5 steps of work; --patient goes on", [0, "included"]
        self.assertEqual(batch.said_by_check([15, said], wanted), "not checked")
        self.assertEqual(batch.said_by_check([15, "included"], wanted), "refused: included")
        self.assertEqual(batch.said_by_check([5, said], wanted), "refused: " + said)
        self.assertEqual(batch.said_by_check(wanted, wanted), "accepted")
        one, out = self.write("1.ba", "0\na,0->0\n"), self.folder / "out"
        path = self.write("list", f"{one} {one}\n")
        self.assertEqual(self.run_many(path, "--second", "--out", out)[0], 0)
        table = out / "table.tsv"
        table.write_text(table.read_text().replace("accepted\taccepted", "accepted\tnot checked"))
        status, told = self.run_many(path, "--second", "--out", out, "--resume")
        self.assertEqual(status, 1)
        self.assertIn("1 question has a certificate that check_cert.py gave up: number 1\n", told)
        self.assertEqual(call("report", out)[0], 0)
        self.assertIn("The second checker gave up the certificate of question 1.", (out / "report.html").read_text())

    def test_a_program_without_verdicts(self):
        one, out = self.write("1.ba", "0\na,0->0\n"), self.folder / "out"
        path = self.write("list", f"{one} {one}\n")
        for name, said in (("false", "error: status 1 without a verdict"), ("true", "error: status 0 without a verdict")):
            status, told = self.run_many(path, "--program", shutil.which(name), "--out", out)
            self.assertEqual((status, self.rows(out)[1]["verdict"]), (1, said), told)
            self.assertIn("1 question has no verdict: number 1\n", told)
            shutil.rmtree(out)
        path_of = self.write("wordy", "#!/bin/sh\necho not included; exit 0\n")
        path_of.chmod(0o755)
        self.assertEqual(self.run_many(path, "--program", path_of, "--out", out)[0], 1)
        self.assertEqual(self.rows(out)[1]["verdict"], "error: status 0 without a verdict: not included")
        shutil.rmtree(out)
        path_of.write_text("#!/bin/sh\necho included; exit 0\n")
        status, told = self.run_many(path, "--program", path_of, "--out", out)
        self.assertEqual((status, self.rows(out)[1]["check"]), (1, "refused: no certificate"), told)

    def test_words_that_the_program_refuses(self):
        one, out = self.write("1.ba", "0\na,0->0\n"), self.folder / "out"
        path = self.write("list", f"{one} {one}\n")
        for words in ("include --look 9", "cross --limit 3", "solve"):
            status, told = self.run_many(path, "--command", words, "--out", out)
            self.assertEqual((status, told.count("\n"), (out / "table.tsv").exists()), (3, 1, False), told)
            self.assertIn(f"does not take the words {words}\n", told)

    def test_what_parallel_says_is_said_once(self):
        kept, sys.stderr = sys.stderr, Output()
        try:
            batch.tell_once([b"ssh: no host\n", b"\n", b"ssh: no host\n", b"other\n"])
            told = sys.stderr.text()
        finally:
            sys.stderr = kept
        self.assertEqual(told, "rabit-tool: ssh: no host\nrabit-tool: other\n")

    def test_a_host_without_the_program(self):
        one = self.write("1.ba", "0\na,0->0\n")
        out, ssh = self.folder / "out", self.write("ssh", SSH.format(log=self.folder / "log", folder=self.folder))
        ssh.chmod(ssh.stat().st_mode | stat.S_IXUSR)
        copy = self.folder / "rabit"
        shutil.copy(program(), copy)
        gone = self.write("gone", ssh.read_text().replace("while", f"rm -f {copy}\nwhile", 1))
        gone.chmod(gone.stat().st_mode | stat.S_IXUSR)
        words = (
            self.write("list", f"{one} {one}\n"),
            "--out",
            out,
            "--program",
            copy,
            "--hosts",
            self.write("hosts", "1/one\n"),
        )
        self.assertEqual(self.run_many(*words, "--ssh", gone)[0], 1)
        self.assertEqual(self.rows(out)[1]["verdict"], f"error: no program: {copy}")
        shutil.copy(program(), copy)
        self.assertEqual(self.run_many(*words, "--ssh", ssh, "--resume")[0], 0)

    def test_a_host_that_is_down(self):
        lines, path = self.questions(20, 44)
        ssh = self.write("ssh", SSH.format(log=self.folder / "log", folder=self.folder))
        text = ssh.read_text().replace('echo "$host"', '[ "$host" = two ] && exit 255\necho "$host"')
        down = self.write("down", text)
        down.chmod(down.stat().st_mode | stat.S_IXUSR)
        words = ("--hosts", self.write("hosts", "1/one\n1/two\n"), "--ssh", down, "--out", self.folder / "out")
        status, told = self.run_many(path, *words)
        self.assertEqual(status, 0, told)
        self.check_rows(lines, self.folder / "out")

    def test_a_run_that_is_stopped_leaves_nothing(self):
        path = self.questions(3, 45)[1]
        for kind in (signal.SIGTERM, signal.SIGINT, signal.SIGHUP):
            slow = Slow(self)
            process = self.started(path, "--out", self.folder / kind.name, "--jobs", 3, "--program", slow.path)
            slow.wait_for(3)
            process.send_signal(kind)
            told = process.communicate(timeout=90)[1].decode()
            self.assertEqual(process.returncode, 130, told)
            self.assertIn("stopped; --resume goes on with the 3 that are left\n", told)
            slow.check_gone()
            slow.told.unlink()

    def test_two_runs_in_one_folder(self):
        path, out = self.write("list", "a b\n"), self.folder / "out"
        with many.locked(str(out)):
            self.assertEqual(self.run_many(path, "--out", out)[0], 3)


class Worker(Case):
    def begun(self, slow):
        """The process that parallel would begin, whose question is in the hands of the slow program."""
        text = worker.packed(b"0\na,0->0\n")
        question = {"number": 1, "program": str(slow.path), "words": [], "check": "check", "second": None}
        question.update(seconds=None, first=text, other=text)
        process = subprocess.Popen(
            ["sh", "-c", batch.worker_command(None, sys.executable)],
            stdin=subprocess.PIPE,
            stdout=subprocess.PIPE,
            start_new_session=True,
        )
        self.addCleanup(process.wait)
        self.addCleanup(process.stdout.close)
        self.addCleanup(process.stdin.close)
        process.stdin.write(json.dumps(question).encode() + b"\n")
        process.stdin.flush()
        slow.wait_for(1)
        return process

    def test_however_a_worker_ends_nothing_stays(self):
        def told(*signals):
            return lambda process: [os.killpg(process.pid, number) for number in signals]

        ways = {
            "it is killed": told(signal.SIGKILL),
            "it is told to end": told(signal.SIGTERM),
            "it is told so again at once": told(signal.SIGTERM, signal.SIGTERM, signal.SIGHUP, signal.SIGTERM),
            "it is told and killed": told(signal.SIGTERM, signal.SIGKILL),
            "nobody reads its answers": lambda process: process.stdout.close(),
        }
        for name, way in ways.items():
            with self.subTest(name):
                slow = Slow(self)
                way(self.begun(slow))
                slow.check_gone()
                slow.told.unlink()


class Refusals(Case):
    def test_words(self):
        path = self.write("list", "a b\n")
        commands = [["--command", text] for text in ("drill 1 2 3", "include x", "", "include 'x")]
        numbers = [["--jobs", "0"], ["--together", "-1"], ["--timeout", "nan"], ["--jobs", "x"], ["--timeout", "0"]]
        for words in commands + numbers:
            self.assertEqual(call("many", path, "--out", self.folder / "o", *words)[0], 3, words)
            self.assertFalse((self.folder / "o").exists())
        self.assertEqual(call("many", path, "--jobs", "0")[2].count("rabit-tool: --jobs, "), 1)
        self.assertEqual(call("many")[0], 3)
        self.assertEqual(call("many", self.folder / "none")[0], 6)
        self.assertEqual(call("many", path, "--hosts", self.write("hosts", "\n"))[0], 6)

    def test_lists(self):
        for text, line in (("a b\nc\n", 2), ("a b c\n", 1), ("a\t\n", 1), ("a\tb\tc\n", 1), ("a \0\n", 1)):
            status, _, errors = call("many", self.write("list", text))
            self.assertEqual((status, re.search(r"line (\d+)", errors).group(1)), (4, str(line)), text)
        self.assertEqual(call("many", self.write("list", "# nothing\n"))[0], 4)

    def test_the_progress_line_ends_in_something(self):
        run = batch.Batch.__new__(batch.Batch)
        run.told, run.begun, run.answered, run.left, run.counts = 0.0, time.monotonic(), set(), [1, 2], {}
        kept, sys.stderr = sys.stderr, Output()
        try:
            run.tell(last=True)
            told = sys.stderr.text()
        finally:
            sys.stderr = kept
        self.assertEqual(told, "0 of 2 in 0 s (0.0 a second): no answer\n")

    def test_lines_that_are_no_answers(self):
        whole = b'{"number": 1, "host": "h"}'
        for line in (b"", b"1", b"[]", b"{}", b"null", b'"x"', b'{"number": 1}', whole[:-1], b"Welcome\n", b"\xff"):
            self.assertIsNone(batch.answer_of(line))
        self.assertEqual(batch.answer_of(whole), {"number": 1, "host": "h"})

    @needs("parallel")
    @needs_program
    def test_other_folders(self):
        path, out = self.write("list", "a b\n"), self.folder / "out"
        out.mkdir()
        for name, text in (("questions.json", "{}"), ("questions.json", "[]"), ("questions.json", "{")):
            (out / name).write_text(text)
            self.assertEqual(call("many", path, "--out", out, "--resume", "--program", program())[0], 4, text)
            self.assertEqual(call("report", out)[0], 4)
        self.assertIn("no folder that `many` left", call("report", self.folder)[2])
        (out / "questions.json").unlink()
        (out / "certificates").write_text("")
        self.assertEqual(call("many", path, "--out", out, "--program", program())[0], 7)
        self.assertEqual(call("many", path, "--out", self.write("file", ""), "--program", program())[0], 7)


if __name__ == "__main__":
    unittest.main()
