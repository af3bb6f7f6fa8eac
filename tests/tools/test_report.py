"""`report`: the page of what `many` left, its drawings, and the page in a browser."""
import html.parser
import pathlib
import random
import re
import shutil
import subprocess
import unittest

from helping import Case, ask, call, needs, needs_program, random_ba
from rabit_tool import page, results

EMPTY = {"br", "meta", "input", "polygon", "ellipse", "path", "line"}


class Tags(html.parser.HTMLParser):
    """Checks that what is opened is closed, and keeps the ids and what the page asks for from elsewhere."""

    def __init__(self, text):
        super().__init__()
        self.open, self.ids, self.links, self.counts = [], [], [], {}
        self.feed(text)

    def handle_starttag(self, tag, attrs):
        self.counts[tag] = self.counts.get(tag, 0) + 1
        found = dict(attrs)
        self.ids += [found["id"]] if "id" in found else []
        self.links += [found[name] for name in ("src", "href", "xlink:href") if name in found]
        if tag not in EMPTY:
            self.open.append(tag)

    def handle_startendtag(self, tag, attrs):
        self.counts[tag] = self.counts.get(tag, 0) + 1

    def handle_endtag(self, tag):
        if not self.open or self.open.pop() != tag:
            raise AssertionError(f"</{tag}> closes nothing")


def left_by_many(case, count, seed):
    """A folder as `many` leaves it, of questions that the program answered; and how many answers are a no."""
    rnd, out = random.Random(seed), results.Results(str(case.folder / "out"))
    questions = [[f"{number}.ba", f"{rnd.randrange(count)}.ba"] for number in range(count)]
    for number in range(count):
        case.write(f"{number}.ba", random_ba(rnd, 5, "ab", ["<b>", "x&y", 'q"', "ü", "s"]))
    out.begin({"command": ["include"], "second": False, "folder": str(case.folder), "questions": questions}, False)
    no = 0
    for number, (first, second) in enumerate(questions, 1):
        names = [case.folder / first, case.folder / second, pathlib.Path(out.certificate(number))]
        status, printed = ask("include", *names)
        sizes = results.sizes_of(names[2].read_bytes())
        row = {"number": number, "first": first, "second": second, "status": status, "verdict": printed.split("\n")[0]}
        out.add({**row, "seconds": 0.001 * number, "check": "accepted", "host": "here", **sizes})
        no += status == 1
    return no


@needs_program
class Report(Case):
    @needs("dot", "graphviz")
    def test_page(self):
        no = left_by_many(self, 60, 51)
        self.assertEqual(call("report", self.folder / "out"), (0, "", ""))
        text = (self.folder / "out" / "report.html").read_text()
        tags = Tags(text)
        self.assertEqual((tags.open, tags.counts["svg"], tags.counts["details"]), ([], no, no))
        self.assertEqual(len(set(tags.ids)), len(tags.ids))
        self.assertTrue(all(link.startswith("#") and link[1:] in tags.ids for link in tags.links))
        self.assertEqual((len(tags.links), tags.counts["tr"]), (no, 1 + 2 + 1 + 60))
        self.assertNotIn("<b>", text)
        self.assertNotRegex(text, r"url\(|@import|https?://")
        self.assertEqual(text.count("A accepts the lasso:"), no)

    def test_without_graphviz_and_without_files(self):
        no = left_by_many(self, 20, 52)
        self.assertEqual(call("report", self.folder / "out", "--drawn", 0, "-o", self.folder / "r.html")[0], 0)
        text = (self.folder / "r.html").read_text()
        self.assertEqual((text.count("<svg"), text.count("A accepts the lasso:")), (0, no))
        for path in self.folder.glob("*.ba"):
            path.write_text("0\nz,0->0\n")
        status, _, _ = call("report", self.folder / "out", "-o", self.folder / "r.html")
        text = (self.folder / "r.html").read_text()
        self.assertEqual((status, text.count("not told: "), text.count("<svg")), (0, no, 0))
        self.assertEqual(call("report", self.folder / "out", "-o", self.folder / "out" / "table.tsv")[0], 7)
        shutil.rmtree(self.folder / "out" / "certificates")
        self.assertEqual(call("report", self.folder / "out", "-o", self.folder / "r.html")[0], 0)

    @needs("chromium")
    @needs("dot", "graphviz")
    def test_page_in_a_browser(self):
        no = left_by_many(self, 30, 53)
        call("report", self.folder / "out", "-o", self.folder / "r.html")
        text = (self.folder / "r.html").read_text()
        # what is looked at in the page: a sort by seconds downwards, a box that hides, a link that opens, and widths
        probe = """<script>addEventListener('load', () => {
          const heads = document.querySelectorAll('#questions th'); heads[4].click(); heads[4].click();
          const first = document.querySelector('#questions tbody tr').cells[0].textContent;
          const box = document.querySelector('input[data-kind=no]'); box.click();
          const hidden = document.querySelectorAll('#questions tr[hidden]').length;
          location.hash = document.querySelector('details').id;
          setTimeout(() => { const drawn = document.querySelector('details[open] svg');
            document.title = ['seen', first, hidden, drawn && drawn.getBoundingClientRect().width > 50,
              document.documentElement.scrollWidth <= innerWidth, innerWidth].join(' '); }, 200); });</script></body>"""
        path = self.write("probe.html", text.replace("</body>", probe))
        for width in (500, 1800):
            done = subprocess.run(
                ["chromium", "--headless", "--no-sandbox", "--disable-gpu", f"--user-data-dir={self.folder}/user",
                 f"--window-size={width},900", "--virtual-time-budget=3000", "--dump-dom", path.as_uri()],
                stdout=subprocess.PIPE, stderr=subprocess.DEVNULL, text=True, timeout=60, check=False,
            )  # fmt: skip
            title = re.search(r"<title>(.*?)</title>", done.stdout)
            self.assertIsNotNone(title, done.stdout[:200])
            self.assertEqual(title.group(1), f"seen 30 {no} true true {width}")


class Pages(unittest.TestCase):
    def test_rows(self):
        row = dict.fromkeys(results.COLUMNS, "-")
        verdicts = {"0": "included", "1": "not included", "2": "limit 5", "10": "no cross relation", "-": "error: x"}
        for (status, verdict), kind in zip(verdicts.items(), page.KINDS):
            row.update(number="7", status=status, verdict=verdict)
            self.assertEqual(page.kind_of(row), kind)
            text = page.question_row(row)
            self.assertIn(f'<td class="{kind}">{verdict}</td>', text)
            self.assertEqual('<a href="#c7">' in text, kind == "no")
        self.assertEqual([page.shown(value) for value in (1234567.0, 0.25, 0.0)], ["1,234,567", "0.25", "0"])
        Tags(page.page("t", "l", [row], []))
        self.assertEqual(page.refused_line([row]), "")
        row["second check"] = "refused: not included"
        self.assertIn("refused the certificate of question 7.", page.page("t", "l", [row], []))


class Refusals(Case):
    def test_statuses(self):
        self.assertEqual(call("report", self.folder / "none")[0], 6)
        self.assertEqual(call("report", self.folder)[0], 6)
        self.assertEqual(call("report", self.folder, "--drawn", "-1")[0], 3)
        self.assertEqual(call("report")[0], 3)


if __name__ == "__main__":
    unittest.main()
