#!/usr/bin/env python3
"""Opens the pages of draw.py in headless Chromium, and looks whether they show what the reports say.

Usage: pages.py PROGRAM. Of some examples, each with full and short reports of one worker and of several, and of 20,000
marks, it looks in the page itself:
- how many edges are drawn after no mark, some marks and all marks, and that the tree at the end has the last parents;
- what is told of nodes where the pointer is: number, point, both costs, both parents and the record;
- that the path and the body are there at the end, and nothing comes from another place;
- how long a move of the slider takes: 50 ms at most, as the median, with 20,000 marks.

Without Chromium it looks at the data of the pages alone, and says so. It ends with 1 if anything was wrong.
"""

import json
import re
import shutil
import subprocess
import sys
import tempfile
from dataclasses import replace
from decimal import ROUND_HALF_UP, Decimal
from pathlib import Path

from kimorefo.drawing.page import growth, page
from kimorefo.scene_text import read
from usage import words_or_usage

EXAMPLES = Path(__file__).resolve().parent.parent / "examples"
NAMES = ("berth", "hall", "passage", "pillars", "rewired", "skipped")
WORDS = ("plan 1 full", "plan 4 full", "smooth 1", "twin 1")
MOST_MILLISECONDS = 50
# What is asked of a page: counts of calls of the pen, what is told of nodes, and the time of a move of the slider.
PROBE = """
const counted = {};
for (const name of ["lineTo", "closePath"]) {
  for (const [who, own] of [["ink", inker], ["pen", pen]]) {
    const call = own[name].bind(own);
    own[name] = (...words) => { counted[who + name] = (counted[who + name] || 0) + 1; return call(...words); };
  }
}
function after(mark) {
  slider.value = mark; drawn = -1;
  for (const name of Object.keys(counted)) counted[name] = 0;
  draw();
  return { ...counted, shown: shown.value };
}
const answer = { marks, states: {}, told: [] };
for (const mark of [0, Math.floor(marks / 2), marks, ended]) answer.states[mark] = after(mark);
for (let i = 0; i < tree.nodes.length; i += Math.max(1, Math.floor(tree.nodes.length / 20))) {
  const [, x, y] = tree.nodes[i], box = canvas.getBoundingClientRect();
  canvas.dispatchEvent(new PointerEvent("pointermove", { clientX: box.left + across(x), clientY: box.top + down(y) }));
  answer.told.push(told.textContent);
}
const times = [];
for (let i = 0; i < 41; i++) {
  const begin = performance.now();
  slider.value = (i * 7919) % (ended + 1);
  draw();
  pen.getImageData(0, 0, 1, 1);
  times.push(performance.now() - begin);
}
answer.milliseconds = times.sort((a, b) => a - b)[20];
answer.loaded = performance.getEntriesByType("resource").length;
const written = document.createElement("pre");
written.id = "answer";
written.textContent = JSON.stringify(answer);
document.body.append(written);
"""


def planned(program, words, text):
    """The report that a program writes."""
    return subprocess.run([program, *words.split()], input=text, capture_output=True, check=False).stdout.decode()


def asked(chromium, folder, html):
    """What a page answers in the browser."""
    name = Path(folder) / "page.html"
    name.write_text(html.replace("</script>", f"{PROBE}</script>"), encoding="utf-8")
    flags = ["--headless", "--no-sandbox", "--disable-gpu", "--window-size=1200,850", f"--user-data-dir={folder}/user"]
    command = [chromium, *flags, "--dump-dom", name.as_uri()]
    dom = subprocess.run(command, capture_output=True, check=False, timeout=300).stdout.decode()
    found = re.search(r'<pre id="answer">(.*?)</pre>', dom, re.DOTALL)
    return json.loads(found[1].replace("&amp;", "&")) if found else None


def steps(cost):
    """A cost as the page has it."""
    rounded = (Decimal(cost) / 256).quantize(Decimal("0.01"), ROUND_HALF_UP)
    return f"{rounded:,f}".rstrip("0").rstrip(".")


def rows_of(report, kind):
    """The words of the lines of a kind, by the number in each."""
    rows = (line.split(" ") for line in report.splitlines())
    return {int(row[1]): row for row in rows if row[0] == kind}


def told_of(number, nodes, marks):
    """What is to be told of a node."""
    _, _, _, x, y, _, parent, _, cost = nodes[number]
    head = f"node {number} at {x} {y}"
    if number == 0:
        return head
    record = marks[number - 1]
    costs = f"cost {steps(int(cost))}, first {steps(int(record[13]))}"
    return "\n".join([head, costs, f"parent {parent}, first {record[12]}", " ".join(record)])


def wrong_answer(answer, scene, report):
    """What is wrong with what a page answers."""
    if answer is None:
        return ["it does not run"]
    nodes, marks = rows_of(report, "node"), rows_of(report, "mark")
    is_placed = [marks[mark][8] == "placed" for mark in grown(marks)]
    ended = len(marks) + 1
    edges = {at: sum(is_placed[:at]) for at in (0, len(marks) // 2, len(marks))} | {ended: max(0, len(nodes) - 1)}
    drawn = {at: answer["states"][str(at)].get("inklineTo", 0) for at in edges}
    wrong = [f"{drawn[at]} edges after {at} marks in place of {count}" for at, count in edges.items() if drawn[at] != count]
    told = {told_of(number, nodes, marks) for number in nodes}
    wrong += [f"it tells {said!r}" for said in answer["told"] if said not in told]
    path = int(report.split(" ")[1]) if report.startswith("path ") else 0
    at_end = answer["states"][str(ended)]
    wrong += ["it has no path at the end"] * (at_end.get("penlineTo", 0) < 2 * (path - 1))
    wrong += [f"it has loaded {answer['loaded']} other files"] * (answer["loaded"] > 0)
    if answer["milliseconds"] > MOST_MILLISECONDS and len(marks) >= 20_000:
        wrong.append(f"a move of the slider takes {answer['milliseconds']:.0f} ms")
    return wrong


def grown(marks):
    """The marks in the order in which a page has them."""
    parents = {mark + 1: int(row[12]) for mark, row in marks.items() if row[8] == "placed"}
    return growth(list(marks), parents)


def wrong_order(report):
    """What is wrong with the order in which the tree of a report grows."""
    marks, there = rows_of(report, "mark"), {0}
    order = grown(marks)
    wrong = ["not all marks are in the order"] * (sorted(order) != list(marks))
    for mark in order:
        row = marks[mark]
        if row[8] == "placed":
            wrong += [f"node {mark + 1} comes before its first parent"] * (int(row[12]) not in there)
            there.add(mark + 1)
    return wrong


def pages(program):
    """Names of pages, with their scenes and reports."""
    for name in NAMES:
        text = (EXAMPLES / f"{name}.scene").read_bytes()
        for words in WORDS:
            report = planned(program, words, text)
            if not report.endswith("blocked\n"):
                yield f"{name}, {words}", read(text), report
    scene = replace(read(planned(program, "gen 9", b"").encode()), drawn=20_000)
    for words in ("plan 1 full", "plan 4 full"):
        yield f"20,000 marks, {words}", scene, planned(program, words, scene.text().encode())


def main(program):
    """Looks at all pages, and gives the exit status."""
    chromium = next(filter(None, map(shutil.which, ("chromium", "chromium-browser", "google-chrome"))), None)
    count, wrong, slowest = 0, [], 0.0
    with tempfile.TemporaryDirectory() as folder:
        for name, scene, report in pages(program):
            count += 1
            html = page(scene, report)
            found = wrong_order(report) + ["it names another place"] * bool(re.search(r"https?:|src=|@import", html))
            if chromium:
                answer = asked(chromium, folder, html)
                found += wrong_answer(answer, scene, report)
                slowest = max(slowest, answer["milliseconds"] if answer else 0)
            wrong += [f"{name}: {what}" for what in found]
    for what in wrong:
        print(what)
    seen = f"a move of the slider takes {slowest:.1f} ms at most" if chromium else "skipped: there is no Chromium"
    print(f"{count} pages, {len(wrong)} wrong; {seen}")
    return 1 if wrong else 0


if __name__ == "__main__":
    sys.exit(main(*words_or_usage(__doc__)))
