"""The page of `report` as HTML: one file, with nothing that it needs from elsewhere."""
from .drawing import markup
from .results import GIVEN_UP

STYLE = """
:root { --ink: #1f2937; --soft: #6b7280; --line: #d1d5db; --yes: #15803d; --no: #b91c1c;
  --limit: #b45309; --none: #0e7490; --other: #6b7280; }
* { box-sizing: border-box; }
body { margin: 0 auto; padding: 1rem; max-width: 94rem; color: var(--ink); background: #fff;
  font: 16px/1.5 system-ui, "Helvetica Neue", Arial, sans-serif; }
h1 { font-size: 1.6rem; margin: 0 0 .25rem; overflow-wrap: anywhere; } h2 { font-size: 1.2rem; margin: 2rem 0 .5rem; }
p.soft { color: var(--soft); margin: 0 0 1rem; overflow-wrap: anywhere; }
.bar { display: flex; height: 1.25rem; border-radius: .3rem; overflow: hidden; background: var(--line); }
.bar span { min-width: 3px; } .wide { overflow-x: auto; border: 1px solid var(--line); border-radius: .3rem; }
table { border-collapse: collapse; width: 100%; font-size: .875rem; font-variant-numeric: tabular-nums; }
th, td { padding: .3rem .6rem; border-bottom: 1px solid var(--line); text-align: left; white-space: nowrap; }
th { background: #f3f4f6; position: sticky; top: 0; } td.number, th.number { text-align: right; }
#questions th { cursor: pointer; } #scrolled { max-height: 36rem; overflow-y: auto; }
.yes { color: var(--yes); } .no { color: var(--no); } .limit { color: var(--limit); }
.none { color: var(--none); } .other { color: var(--other); }
td.other { white-space: normal; min-width: 12rem; }
details { border: 1px solid var(--line); border-radius: .3rem; margin: .5rem 0; }
summary { cursor: pointer; padding: .5rem .75rem; overflow-wrap: anywhere; } details[open] summary {
    border-bottom: 1px solid var(--line);
}
figure { margin: 0; padding: .75rem; overflow-x: auto; } figure svg { display: block; }
pre { margin: 0; padding: 0 .75rem .75rem; overflow-x: auto; font-size: .8125rem; line-height: 1.45; }
label { display: inline-block; margin: 0 1rem .5rem 0; } code { overflow-wrap: anywhere; }
@media (max-width: 40rem) { body { padding: .75rem; font-size: 15px; } th, td { padding: .25rem .4rem; } }
@media print { #scrolled { max-height: none; } }
"""

SCRIPT = """
const body = document.querySelector('#questions tbody');
const value = (row, at) => {
  const text = row.cells[at].dataset.of ?? row.cells[at].textContent;
  return text === '' || isNaN(text) ? text : Number(text);
};
document.querySelectorAll('#questions th').forEach((head, at) => head.addEventListener('click', () => {
  const up = head.dataset.up !== 'yes';
  head.dataset.up = up ? 'yes' : 'no';
  const order = (a, b) => {
    const x = value(a, at), y = value(b, at);
    if ((x === '') !== (y === '')) return x === '' ? 1 : -1;
    return (x < y ? -1 : x > y ? 1 : 0) * (up ? 1 : -1);
  };
  [...body.rows].sort(order).forEach(row => body.append(row));
}));
const unfold = () => {
  const chosen = document.getElementById(location.hash.slice(1));
  if (chosen) chosen.open = true;
};
addEventListener('hashchange', unfold);
unfold();
document.querySelectorAll('input[data-kind]').forEach(box => box.addEventListener('change', () => {
  for (const row of body.rows) if (row.dataset.kind === box.dataset.kind) row.hidden = !box.checked;
}));
"""

COUNTEREXAMPLES = """<h2>Counterexamples</h2>
<p class="soft">{} of them; of the run the moves on the prefix are drawn in orange, those on the loop in blue.</p>"""
KINDS = {
    "yes": "included",
    "no": "not included",
    "limit": "limit met",
    "none": "no cross relation",
    "other": "no verdict",
}
COLOURS = {"yes": "#15803d", "no": "#b91c1c", "limit": "#b45309", "none": "#0e7490", "other": "#9ca3af"}


def kind_of(row):
    """Of which kind the verdict of a row of the table is: a key of KINDS."""
    return {"0": "yes", "1": "no", "2": "limit", "10": "none"}.get(row["status"], "other")


def page(title, told, rows, chosen):
    """The whole page: the title, a line below it, the rows of the table, and the counterexamples as (row, drawing or
    None, text)."""
    parts = [
        '<!DOCTYPE html>\n<html lang="en">\n<head>\n<meta charset="utf-8">',
        '<meta name="viewport" content="width=device-width, initial-scale=1">',
        f"<title>{markup(title)}</title>\n<style>{STYLE}</style>\n</head>\n<body>",
        f'<h1>{markup(title)}</h1>\n<p class="soft">{markup(told)}</p>',
        bar(rows),
        refused_line(rows),
        summary_table(rows),
        "<h2>Questions</h2>",
        question_table(rows),
        COUNTEREXAMPLES.format(len(chosen)) if chosen else "",
        *[counterexample(*one) for one in chosen],
        f"<script>{SCRIPT}</script>\n</body>\n</html>\n",
    ]
    return "\n".join(parts)


def counts_of(rows):
    """How many rows are of each kind, a dictionary."""
    counts = dict.fromkeys(KINDS, 0)
    for row in rows:
        counts[kind_of(row)] += 1
    return counts


def bar(rows):
    """The bar that shows how many rows are of each kind."""
    spans = [
        f'<span style="flex:{count};background:{COLOURS[kind]}" title="{count} {KINDS[kind]}"></span>'
        for kind, count in counts_of(rows).items()
        if count
    ]
    return f'<div class="bar">{"".join(spans)}</div>'


def refused_line(rows):
    """The lines that tell which certificates a check refused, and which the second checker gave up, or nothing."""
    found = [row["number"] for row in rows if "refused" in row["check"] + row["second check"]]
    given_up = [row["number"] for row in rows if row["second check"] == GIVEN_UP]
    told = f'<p class="no">A check refused the certificate of question {", ".join(found)}.</p>' if found else ""
    if given_up:
        told += f'<p>The second checker gave up the certificate of question {", ".join(given_up)}.</p>'
    return told


def number(text):
    """The number in a cell of the table, or None."""
    try:
        return float(text)
    except ValueError:
        return None


def numbers(rows, column):
    """The numbers in this column of the rows, ascending."""
    return sorted(found for found in (number(row[column]) for row in rows) if found is not None)


def shown(value):
    """A number as a reader wants it."""
    return f"{value:,.3f}".rstrip("0").rstrip(".") if value != int(value) else f"{int(value):,}"


def summary_table(rows):
    """The table of the kinds of verdicts, with times and sizes."""
    heads = [
        "", "questions", "seconds, median", "seconds, greatest", "elements, greatest", "certificate, greatest (bytes)"
    ]
    lines = []
    for kind, count in counts_of(rows).items():
        if not count:
            continue
        own = [row for row in rows if kind_of(row) == kind]
        seconds = numbers(own, "seconds")
        cells = [
            seconds[len(seconds) // 2 :][:1], seconds[-1:], numbers(own, "elements")[-1:], numbers(own, "bytes")[-1:]
        ]
        told = [shown(cell[0]) if cell else "" for cell in cells]
        lines.append((f'<td class="{kind}">{KINDS[kind]}</td>', [f"{count:,}", *told]))
    head = "".join(f'<th class="number">{text}</th>' if text else "<th></th>" for text in heads)
    rows_of = [first + "".join(f'<td class="number">{cell}</td>' for cell in rest) for first, rest in lines]
    body = "".join(f"<tr>{cells}</tr>\n" for cells in rows_of)
    return f'<h2>Verdicts</h2>\n<div class="wide">{table_text("verdicts", head, body)}</div>'


COLUMNS = (
    ("number", "no."), ("verdict", "verdict"), ("first", "A"), ("second", "B"), ("seconds", "seconds"),
    ("first states", "states of A"), ("second states", "states of B"), ("labels", "labels"), ("elements", "elements"),
    ("bytes", "bytes"), ("check", "check"), ("second check", "second check"), ("host", "host"),
)  # fmt: skip
NUMBERS = ("number", "seconds", "first states", "second states", "labels", "elements", "bytes")


def table_text(name, head, body):
    """A table of HTML with this id."""
    return f'<table id="{name}"><thead><tr>{head}</tr></thead><tbody>\n{body}</tbody></table>'


def question_table(rows):
    """The boxes that choose kinds, and the table of all questions."""
    boxes = "".join(
        f'<label><input type="checkbox" checked data-kind="{kind}"> '
        f'<span class="{kind}">{KINDS[kind]}</span> ({count:,})</label>'
        for kind, count in counts_of(rows).items()
        if count
    )
    head = "".join(f'<th class="{"number" if column in NUMBERS else ""}">{title}</th>' for column, title in COLUMNS)
    body = "".join(question_row(row) for row in rows)
    return f'{boxes}\n<div class="wide" id="scrolled">{table_text("questions", head, body)}</div>'


def question_row(row):
    """A question's row of the table."""
    kind, cells = kind_of(row), []
    for column, _ in COLUMNS:
        text = "" if row[column] == "-" else row[column]
        value = number(text) if column in NUMBERS else None
        text = shown(value) if value is not None else markup(text)
        if column == "number" and kind == "no":
            text = f'<a href="#c{row["number"]}">{text}</a>'
        style = f' class="number" data-of="{"" if value is None else value:}"' if column in NUMBERS else ""
        style = f' class="{kind}"' if column == "verdict" else style
        cells.append(f"<td{style}>{text}</td>")
    return f'<tr data-kind="{kind}">{"".join(cells)}</tr>\n'


def counterexample(row, drawing, text):
    """A counterexample that can be opened: its drawing, or None, and its text."""
    figure = f"<figure>{drawing}</figure>" if drawing else ""
    head = f'{row["number"]}. <code>{markup(row["first"])}</code> in <code>{markup(row["second"])}</code>'
    return f'<details id="c{row["number"]}"><summary>{head}</summary>\n{figure}\n<pre>{markup(text)}</pre></details>'
