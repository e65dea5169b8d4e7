#!/usr/bin/env python3
"""Times the program on generated folders of which all pages are shown.

  bench/many.py crates/wikiexpand/out/wikiexpand [FOLDER]

Folders are made below FOLDER (or a temporary one): 300 pages like articles (1.8 KB each: a box of facts by a module, a dozen templates, links and
text; two modules of 5 KB, of which some 50 functions that nobody calls make up nine tenths), once with one job and once with four; 100,000 pages of
100 bytes; 65 MB of `{{a|b=c}}` and of plain text. For each: the least processor and wall time of some runs, pages a second, and the most memory, also
for each byte of the folder.

Then how many times as many articles a second four jobs give as one, and how many times its work four processes of one job each do at once, which share
nothing: that much is the machine's. One job, four jobs and four processes take turns, and what they print goes nowhere; in the table above it is read
by this script.

The system tells no less memory of a program than this script had when it started it, so folders are made one after the other, and those that take more
memory come later; of the articles the figure is this script's own.
"""
import os
import shutil
import subprocess
import sys
import tempfile
import time

from timing import best

ROUNDS = 3

INFOBOX = """local p = {}
local function row(label, value)
  if not value or value == '' then return '' end
  return '<tr>' .. mw.text.tag('th', {scope = 'row'}, label) .. mw.text.tag('td', {}, value) .. '</tr>'
end
function p.main(frame)
  local args = frame:getParent().args
  local rows = {}
  for i, label in ipairs({'Born', 'Died', 'Fields', 'Works', 'Known for'}) do
    rows[i] = row(label, args[mw.ustring.sub(label, 1, 1) .. i])
  end
  return '<table class="infobox"><caption>' .. (args.name or mw.title.getCurrentTitle().text) .. '</caption>' .. table.concat(rows) .. '</table>'
end
return p
"""

CITE = """local p = {}
function p.cite(frame)
  local args = frame:getParent().args
  local parts = {}
  for i, name in ipairs({'last', 'first', 'title', 'year', 'publisher', 'pages'}) do
    local value = args[name]
    if value and value ~= '' then parts[#parts + 1] = mw.text.trim(value) end
  end
  return table.concat(parts, ', ') .. '.'
end
return p
"""


def spare(number):
    """A small function of a module, unlike those of other numbers."""
    return f"local function spare{number}(a, b)\n  if a > b + {number} then return a - {number} end\n  return a * {number} + b\nend\n"


def with_spares(module, size):
    """The module behind functions that nobody calls, as many as this size has room for: all of it is code, and each invocation makes them."""
    spares, number = "", 1
    while len(spares) + len(spare(number)) + len(module) <= size:
        spares += spare(number)
        number += 1
    return spares + module


def article(number):
    cites = "".join(
        f"Sentence {place} of the text, with a [[link {place}|to a page]] and ''some'' more words.{{{{Cite|last=Name {place}|first=A.|title=Title {place}|year={1900 + place}}}}}\n"
        for place in range(12))
    facts = f"{{{{Infobox person\n| name = Person {number}\n| B1 = 1815\n| D2 = 1852\n| F3 = mathematics; computing\n| W4 = Notes\n}}}}\n"
    return facts + cites + "{{Navbox|title=People|A|B|C}}\n" + "{{#if:{{{x|}}}|yes|no}} {{PAGENAME}} {{#switch:b|a=1|b=2|#default=3}}\n"


def articles():
    files = {f"Person {number}.wiki": article(number) for number in range(300)}
    files["Template:Infobox person.wiki"] = "{{#invoke:Infobox|main}}"
    files["Template:Cite.wiki"] = "<ref>{{#invoke:Cite|cite}}</ref>"
    files["Template:Navbox.wiki"] = "<div>{{{title}}}: {{#if:{{{1|}}}|[[{{{1}}}]]}} {{#if:{{{2|}}}|[[{{{2}}}]]}} {{#if:{{{3|}}}|[[{{{3}}}]]}}</div>"
    files["Module:Infobox.lua"] = with_spares(INFOBOX, 5000)
    files["Module:Cite.lua"] = with_spares(CITE, 5000)
    return files


def small():
    line = "A line of plain text without marks. {{T|x}}\n" + "x" * 55 + "\n"
    return {f"Page {number}.wiki": line for number in range(99_999)} | {"Template:T.wiki": "{{{1}}}"}


def large(piece):
    text = piece * (2_097_152 // len(piece))
    return {f"Page {number}.wiki": text for number in range(31)}


def make(folder, files):
    os.makedirs(folder)
    size = 0
    for name, text in files.items():
        with open(os.path.join(folder, name), "w", encoding="utf-8") as page:
            page.write(text)
        size += len(text)
    return size


def together(count, words):
    """The wall time of so many processes of these words at once, each of which has to end with status 0. What they print goes nowhere."""
    began = time.perf_counter()
    processes = [subprocess.Popen(words, stdout=subprocess.DEVNULL) for _ in range(count)]
    statuses = [process.wait() for process in processes]
    took = time.perf_counter() - began
    if any(statuses):
        sys.exit(f"{' '.join(words)} ended with {statuses}")
    return took


def compare_jobs(program, folder):
    """Four jobs, and four processes of one job each, beside one job: by turns, the least wall time of each."""
    make(folder, articles())
    one_job = [program, "expand", folder, "--all"]
    ways = ((1, one_job), (1, [*one_job, "--jobs", "4"]), (4, one_job))
    rounds = [[together(*way) for way in ways] for _ in range(ROUNDS)]
    one, four_jobs, four_processes = (min(times) for times in zip(*rounds))
    shutil.rmtree(folder)
    print(f"4 jobs: {one / four_jobs:.2f} times as many pages a second as with 1")
    print(f"4 processes of one job each: {4 * one / four_processes:.2f} times the work of one")


def main():
    program = os.path.abspath(sys.argv[1])
    base = sys.argv[2] if len(sys.argv) > 2 else tempfile.mkdtemp()
    print(f"{'folder':36} {'processor':>9} {'wall':>8} {'pages/s':>8} {'MiB':>6} {'memory/byte':>11}")
    for name, files, words in (
        ("300 pages like articles", articles, ["--all"]),
        ("300 pages like articles, 4 jobs", articles, ["--all", "--jobs", "4"]),
        ("100,000 pages of 100 bytes", small, ["--all"]),
        ("65 MB of plain text, all pages", lambda: large("plain text "), ["--all"]),
        ("65 MB of {{a|b=c}}, one page", lambda: large("{{a|b=c}}"), ["Page 0"]),
        ("65 MB of {{a|b=c}}, all pages", lambda: large("{{a|b=c}}"), ["--all"]),
    ):
        folder = os.path.join(base, "folder")
        size = make(folder, files())
        took = best(ROUNDS, [program, "expand", folder, *words])
        pages = 1 if words[0] != "--all" else took.printed.count(b"\npage ") + 1
        print(f"{name:36} {took.processor:9.2f} {took.wall:8.2f} {pages / took.wall:8.0f} {took.memory / (1 << 20):6.0f} {took.memory / size:11.1f}")
        shutil.rmtree(folder)
    compare_jobs(program, os.path.join(base, "folder"))


if __name__ == "__main__":
    main()
