"""A page of a judged batch: which submission passed which test, and the units beside the limit. `judge-page` writes it."""
import collections
import csv
import json
import os
import sys

sys.path.append(os.path.join(os.path.dirname(os.path.realpath(__file__)), "../../tools"))
try:
    from page_parts import name, number, page, share, shown  # noqa: E402
except ImportError:
    print(f"{os.path.basename(sys.argv[0])}: tools/ of the checkout isn't there, and it has what pages and compilers need: take the whole checkout", file=sys.stderr)
    sys.exit(2)

# verdict: its word in a cell, its letters where there are many tests, its color
KINDS = {"accepted": ("ok", "ok", "green"), "wrong answer": ("wrong", "WA", "red"), "exit": ("exit", "EX", "purple"),
         "trap": ("trap", "TR", "purple"), "out of fuel": ("fuel", "FU", "orange"), "out of memory": ("memory", "ME", "blue"),
         "fault": ("fault", "FA", "gray"), "too much output": ("output", "OU", "blue"), "wall clock": ("clock", "CL", "orange"),
         "too much memory": ("memory", "ME", "blue"), "module too large": ("size", "SI", "gray"), "judge error": ("judge", "JE", "gray"),
         "refused": ("refused", "RF", "gray"), "not judged": ("-", "-", "gray")}
TEXTS = "id", "verdict", "text", "ms", "units", "pages"
MANY = 12
STYLE = """
td.n { white-space: nowrap } table.grid tbody th { position: sticky; left: 0; background: var(--ground) } td.v { padding: .2rem .25rem; border-bottom: 1px solid var(--line) } .c { --k: var(--gray); display: block; min-width: 5.9rem; padding: .1rem .4rem .25rem;
  border-left: .5rem solid var(--k); background: var(--tint); color: var(--text); line-height: 1.3 }
.c b { font-weight: 600 } .many .c { min-width: 2.4rem; padding: .1rem .25rem .2rem } .many .c .u { display: none }
.u { display: block; font-size: .92rem; color: var(--soft) } .bar { display: block; height: 5px; background: var(--line); margin-top: .15rem }
.bar i { display: block; height: 5px; min-width: 1px; background: var(--k) } .legend { display: flex; flex-wrap: wrap; gap: .4rem 1rem; padding: 0; list-style: none }
.legend .c { min-width: 0; padding: .1rem .6rem } tr.all th, tr.all td { border-bottom-width: 2px } details table { margin: .4rem 0 .8rem 1rem; font-size: 1rem }
""" + "".join(f".k-{kind[2]} {{ --k: var(--{kind[2]}) }}\n" for kind in {it[2]: it for it in KINDS.values()}.values())


def rough(n):
    """A number of units in at most five characters, rounded down, so that less than a limit never looks like it."""
    for size, unit in ((10**9, "G"), (10**6, "M"), (10**3, "k")):
        if n >= size:
            return f"{n // size} {unit}" if n >= 10 * size else f"{n * 10 // size / 10:.1f} {unit}"
    return str(n)


def ratio(part, whole):
    return 100 * part / whole if whole else 0


class Test:
    def __init__(self, line, row):
        self.submission, _, self.test = line["id"].rpartition("/") if "/" in line["id"] else (line["id"], "", "only")
        self.problem, self.fuel, self.most_pages = line.get("problem", ""), line["fuel"], line.get("pages", 1024)
        self.verdict, self.text, self.ms = row["verdict"], row["text"], row["ms"]
        self.units, self.pages = (int(row[it]) if row[it] else None for it in ("units", "pages"))

    def cell(self):
        word, letters, color = KINDS.get(self.verdict, (self.verdict, "??", "gray"))
        used = "not run" if self.units is None else f"{number(self.units)} of {number(self.fuel)} units ({share(self.units, self.fuel)})"
        units = "" if self.units is None else f'<span class="u">{rough(self.units)}</span>'
        filled = f'<i style="width:{ratio(self.units, self.fuel):.2f}%"></i>' if self.units else ""
        bar = f'<span class="bar" aria-hidden="true">{filled}</span>'
        title = shown(f"{self.submission}, test {self.test}: {self.verdict}; {used}")
        return f'<td class="v"><span class="c k-{color}" title="{title}"><b>WORD</b>{units}{bar}</span></td>'.replace("WORD", shown(letters if self.many else word))

    def line(self):
        units = "" if self.units is None else number(self.units)
        of = "" if self.units is None else share(self.units, self.fuel)
        return (f'<tr><th scope="row">{name(self.test, 40)}</th><td>{shown(self.verdict)}{": " + shown(self.text) if self.text else ""}</td>'
                f'<td class="n">{units}</td><td class="n">{number(self.fuel)}</td><td class="n">{of}</td>'
                f'<td class="n">{"" if self.pages is None else self.pages} of {self.most_pages}</td></tr>')


def columns(tests):
    """The names of tests, in the order of the batch."""
    return list(dict.fromkeys(it.test for it in tests))


def table(title, tests):
    """The grid of a problem: a row a submission, those that pass more before the others, and those with fewer units first."""
    by, names = collections.defaultdict(dict), columns(tests)
    many = len(names) > MANY
    for it in tests:
        it.many = many
        by[it.submission][it.test] = it
    def rank(item):
        done = item[1].values()
        return -sum(it.verdict == "accepted" for it in done), sum(it.units or 0 for it in done), item[0]
    rows = []
    for submission, done in sorted(by.items(), key=rank):
        passed = sum(it.verdict == "accepted" for it in done.values())
        most = max(done.values(), key=lambda it: ratio(it.units or 0, it.fuel))
        cells = "".join(done[it].cell() if it in done else '<td class="v soft">none</td>' for it in names)
        rows.append(f'<tr><th scope="row">{name(submission, 32)}</th><td class="n">{passed} of {len(done)}</td>{cells}'
                    f'<td class="n">{number(most.units or 0)}</td><td class="n">{share(most.units or 0, most.fuel)}</td></tr>')
    limits = sorted({it.fuel for it in tests})
    limit = f"{number(limits[0])} units" if len(limits) == 1 else f"{number(limits[0])} to {number(limits[-1])} units"
    heads = "".join(f'<th scope="col">{name(it, 16)}</th>' for it in names)
    # What each test used, for reading and for copying; the same without a mouse
    inner = "".join(f'<h3 class="soft">{name(submission, 60)}</h3><table><tr><th scope="col">test</th><th scope="col">verdict</th><th scope="col" class="n">units</th>'
                    f'<th scope="col" class="n">limit</th><th scope="col" class="n">share</th><th scope="col" class="n">pages</th></tr>'
                    + "".join(done[it].line() for it in names if it in done) + "</table>" for submission, done in sorted(by.items(), key=rank))
    return (f'<h2>{name(title) if title else "Submissions"}</h2>\n<div class="wide" tabindex="0" role="region" aria-label="verdicts"><table class="grid{" many" if many else ""}">\n'
            f"<caption>Limit {limit} a test. The bar is the share of the limit that was used; its whole length is the limit.</caption>\n"
            f'<thead><tr><th scope="col">submission</th><th scope="col" class="n">passed</th>{heads}<th scope="col" class="n">most units</th><th scope="col" class="n">of limit</th></tr></thead>\n'
            f"<tbody>\n" + "\n".join(rows) + f"\n</tbody></table></div>\n<details><summary>Each test in numbers</summary>{inner}</details>")


def rows_of(path):
    """The rows of verdicts by their ids."""
    csv.field_size_limit(1 << 24)
    try:
        with open(path, encoding="utf-8", newline="") as file:
            rows = list(csv.DictReader(file))
        if all(all(isinstance(it.get(name), str) for name in TEXTS) and all(not it[name] or int(it[name]) >= 0 for name in ("units", "pages")) for it in rows):
            return {it["id"]: it for it in rows}
    except (ValueError, csv.Error):
        pass
    raise OSError(0, "not as `judge-tests collect` writes it", path)


def written(batch, out):
    """Writes the page of a judged batch, and gives its path."""
    by_id = rows_of(os.path.join(out, "verdicts.csv"))
    tests = []
    with open(batch, "rb") as file:
        for line in file:
            try:
                it = json.loads(line)
                tests.append(Test(it, by_id.pop(it["id"])))
            except (ValueError, LookupError, TypeError, AttributeError, RecursionError):
                continue                       # a line that was refused: the row that is left says it
    refused = [f"<li>{name(it['id'])}: {shown(it['text'])}</li>" for it in by_id.values()]
    problems = collections.defaultdict(list)
    for it in tests:
        problems[it.problem].append(it)
    counts = collections.Counter(it.verdict for it in tests)
    is_long = any(len(columns(some)) > MANY for some in problems.values())
    words = {it: f"{word}, {letters}" if is_long and word != letters else word for it, (word, letters, _) in KINDS.items()}
    legend = "".join(f'<li><span class="c k-{KINDS.get(it, ("", "", "gray"))[2]}"><b>{shown(words.get(it, it))}</b> {shown(it)}: {number(counts[it])}</span></li>'
                     for it in [*KINDS, *sorted(set(counts) - set(KINDS))] if counts[it])
    body = (f"<h1>Verdicts</h1>\n<p>{number(len(tests))} tests of {len({(it.problem, it.submission) for it in tests})} submissions. "
            f"Units count instructions, so they are the same on every machine.</p>\n<ul class=\"legend\">{legend}</ul>\n"
            + "\n".join(table(title, some) for title, some in problems.items()) + (f"<h2>Lines that can't be judged</h2><ul>{''.join(refused)}</ul>" if refused else ""))
    path = os.path.join(out, "verdicts.html")
    with open(path + ".new", "w", encoding="utf-8") as file:
        file.write(page("Verdicts", body, STYLE, "78rem"))
    os.replace(path + ".new", path)
    return path
