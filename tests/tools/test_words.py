"""The command line, its man page and its completions; and how long modules and functions are."""
import ast
import os
import shutil
import subprocess
import sys
import unittest

from helping import TOOL, TOP, Case, call, needs, needs_program, program
from rabit_tool import main


def options(name):
    """The long options of a command, and where it has -o that too."""
    return {word for action in main.parser_of(name)[0]._actions for word in action.option_strings} - {"-h"}


class Words(Case):
    def test_usage(self):
        for words, status in (([], 3), (["drill"], 3), (["--help"], 0), (["help"], 0)):
            self.assertEqual(call(*words)[0], status)
        self.assertTrue(all(f"  {name} " in call("--help")[1] for name in main.COMMANDS))
        for name in main.COMMANDS:
            status, output, _ = call(name, "--help")
            self.assertEqual((status, f"rabit-tool {name}" in output), (0, True))
            status, _, errors = call(name, "--such")
            self.assertEqual((status, errors.startswith(f"usage: rabit-tool {name}")), (3, True))

    def test_help_of_a_command_and_the_version(self):
        for name in main.COMMANDS:
            self.assertEqual(call("help", name), (0, call(name, "--help")[1], ""))
        version = (TOP / "VERSION").read_text().strip()
        self.assertEqual(call("--version"), (0, f"rabit-tool {version}\n", ""))
        self.assertIn("A B CERT", " ".join(call("explain", "--help")[1].split("\n")[0:1]))

    def test_man_page_names_each_option(self):
        page = (TOP / "docs" / "rabit-tool.1").read_text().replace("\\-", "-")
        synopsis = page[page.index(".SH SYNOPSIS") : page.index(".SH DESCRIPTION")]
        parts = dict(part.split("\n", 1) for part in synopsis.split(".B rabit-tool ")[1:])
        self.assertEqual(set(parts), set(main.COMMANDS))
        for name, part in parts.items():
            for option in options(name) - {"--help", "--output"}:
                self.assertIn(option, part, name)
                self.assertGreater(page.count(option), 1, option)
            self.assertEqual({word for word in part.split() if word.startswith("--")} - options(name), set())

    def test_completions(self):
        script = f"source {TOP}/tools/rabit-tool-completion.bash; COMP_WORDS=({{}}); COMP_CWORD={{}}; _rabit_tool; "
        script += "printf '%s\\n' \"${{COMPREPLY[@]}}\""

        def completed(words, at):
            done = subprocess.run(
                ["bash", "-c", script.format(words, at)],
                stdout=subprocess.PIPE,
                text=True,
                cwd=str(self.folder),
                check=True,
            )
            return set(done.stdout.split())

        self.assertEqual(completed("rabit-tool ''", 1), {*main.COMMANDS, "help", "--version"})
        self.assertEqual(completed("rabit-tool help ''", 2), set(main.COMMANDS))
        for name in main.COMMANDS:
            self.assertEqual(
                completed(f"rabit-tool {name} --", 2), {word for word in options(name) if word.startswith("--")}, name
            )
        self.write("a.ba", "")
        self.assertEqual(completed("rabit-tool draw a", 2), {"a.ba"})
        self.assertEqual(completed("rabit-tool many --command ''", 3), {"include", "cross"})

    @needs("man", "man-db")
    def test_man_page_is_one(self):
        done = subprocess.run(
            ["man", "--warnings", "-E", "UTF-8", "-l", "-Tutf8", str(TOP / "docs" / "rabit-tool.1")],
            stdout=subprocess.PIPE, stderr=subprocess.PIPE, text=True, check=False, env={**os.environ, "MANWIDTH": "99"}
        )  # fmt: skip
        self.assertEqual((done.returncode, done.stderr), (0, ""))

    def test_pipes_and_full_outputs(self):
        path = self.write("a.ba", "".join(f"l{i},0->{j}\n" for i in range(100) for j in range(100)))
        done = subprocess.run(
            ["bash", "-c", f"{sys.executable} {TOOL} export {path} --dot | head -c 5"],
            stdout=subprocess.PIPE,
            stderr=subprocess.PIPE,
            check=False,
        )
        self.assertEqual((done.stdout, done.stderr), (b"digra", b""))
        done = subprocess.run(
            ["bash", "-c", f"{sys.executable} {TOOL} export {path} > /dev/full"], stderr=subprocess.PIPE, check=False
        )
        self.assertEqual((done.returncode, done.stderr), (7, b"rabit-tool: the output: No space left on device\n"))

    @needs_program
    def test_the_program_is_found(self):
        """By the option, by the variable, beside an installed tool, and not where none of these is."""
        self.write("a.ba", "0\na,0->0\n")
        subprocess.run(
            [program(), "include", "a.ba", "a.ba", "c"], cwd=str(self.folder), stdout=subprocess.PIPE, check=True
        )
        top = self.folder / "usr"
        shutil.copytree(TOP / "tools" / "rabit_tool", top / "share" / "rabit" / "rabit_tool")
        (top / "bin").mkdir()
        shutil.copy(TOOL, top / "bin" / "rabit-tool")
        plain = {"PATH": "/usr/bin:/bin"}

        def explained(*words, **more):
            words = [sys.executable, str(top / "bin" / "rabit-tool"), "explain", "a.ba", "a.ba", "c", *words]
            nothing, folder = subprocess.DEVNULL, str(self.folder)
            done = subprocess.run(words, cwd=folder, env={**plain, **more}, stdout=nothing, stderr=nothing, check=False)
            return done.returncode

        self.assertEqual(explained(), 9)
        self.assertEqual(explained("--program", program()), 0)
        self.assertEqual(explained(RABIT=program()), 0)
        self.assertEqual(explained(RABIT="/none"), 9)
        shutil.copy(program(), top / "bin" / "rabit")
        self.assertEqual(explained(), 0)


class Shape(unittest.TestCase):
    def test_modules_and_functions_are_short_and_told(self):
        found = sorted((TOP / "tools" / "rabit_tool").glob("*.py"))
        self.assertGreater(len(found), 15)
        for path in found:
            text = path.read_text()
            self.assertLessEqual(text.count("\n"), 300, path.name)
            tree = ast.parse(text, feature_version=(3, 8))
            self.assertTrue(ast.get_docstring(tree), path.name)
            for node in ast.walk(tree):
                if isinstance(node, (ast.FunctionDef, ast.ClassDef)):
                    lines = node.end_lineno - node.lineno + 1
                    self.assertTrue(
                        lines <= 40 or isinstance(node, ast.ClassDef), f"{path.name}: {node.name} has {lines} lines"
                    )


if __name__ == "__main__":
    unittest.main()
