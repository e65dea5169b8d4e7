#!/usr/bin/env python3
"""The examples of docs/DIFFERENCES.md, run: whether the built program gives what they say of `here:`, and Lua what they say of `Lua:`.

  bench/differences.py PROGRAM [WORD]   with a WORD only the entries whose name has it

PROGRAM is the built wikiexpand (crates/wikiexpand/out/wikiexpand). Lua's side needs `lua5.1`, and is passed over where that isn't there;
what is said of MediaWiki is not compared. The status is 1 where something differs.

An example is a few lines, each with four spaces in front: what is there, then what comes of it.

    Template:T is "[{{{1}}}]", the page is "{{T|a}}", with --bytes 9
    MediaWiki: ..        here: ..

    Module:D is "return {1}": return #mw.loadData("Module:D")
    Lua: ..        here: ..

- Texts are `TITLE is ".."`, the page to be shown `the page is ".."` or `the page TITLE is ".."`, then options of the program. What isn't
  a page is Lua (behind texts and a colon, if there are any): the body of a function of `frame` in `Module:M`, which the page invokes.
- The last line tells the results, eight spaces between two: `MediaWiki:`, `Lua:` and `here:`. Several values of a function are joined
  by `, `; an error is `the error ".."`, without its place.
- `⏎` is a newline. `…` in a result is any text; an example with a `…` before its results isn't run, since something is left out there.
"""
import collections
import html
import os
import re
import shutil
import subprocess
import sys
import tempfile

TOP = os.path.dirname(os.path.dirname(os.path.abspath(__file__)))
DOCUMENT = os.path.join(TOP, "docs", "DIFFERENCES.md")

# What an example has: the name of its entry, its line, what is there, and the results by who gives them.
Example = collections.namedtuple("Example", "entry line given results")
# What is there, taken apart: texts by their titles, the page to be shown, options, and Lua, which is None for a page.
Given = collections.namedtuple("Given", "texts page options code")

RESULT = re.compile(r"(MediaWiki|Lua|here)(?:, [^:]*)?: ")
TEXT = re.compile(r'(the page(?: [^"]+?)?|[A-Z][^"]*?) is "(.*?)"(?=, |: |$)', re.DOTALL)
# How Lua of an example stands in its module: the values of `run` as one text. It stands on the first line.
MODULE = """local function run(frame) %s
end
local function joined(...)
  local texts = {}
  for i = 1, select('#', ...) do texts[i] = tostring((select(i, ...))) end
  return table.concat(texts, ', ')
end
return {f = function(frame) return joined(run(frame)) end}
"""
# What runs such a module in Lua: its text or its error, which is told apart by the first byte.
RUN = """local chunk, fault = loadstring(io.read('*a'), '=Module:M')
local well, value = false, fault
if chunk then well, value = pcall(chunk().f) end
io.write(well and '+' or '-', tostring(value))"""


def results_of(line):
    """What a line of results says, by who gives it; nothing where it has another form."""
    parts = [(RESULT.match(part), part) for part in line.split(" " * 8)]
    said = {name.group(1): part[name.end():] for name, part in parts if name}
    return said if "here" in said and all(name for name, _ in parts) else None


def examples(lines):
    """The examples of the document, in order."""
    found, entry, given = [], "", []
    for number, line in enumerate(lines, 1):
        if line.startswith("**"):
            entry = line[2:].split("**")[0].rstrip(".")
        if not line.startswith("    "):
            if given:
                sys.exit(f"{DOCUMENT}:{number}: an example without results")
        elif not RESULT.match(line[4:]):
            given.append(line[4:])
        elif given and results_of(line[4:]):
            found.append(Example(entry, number, "\n".join(given), results_of(line[4:])))
            given = []
        else:
            sys.exit(f"{DOCUMENT}:{number}: results of another form")
    return found


def taken_apart(given):
    """The texts of an example, and behind them options or Lua."""
    texts, page, at = {}, "Page", 0
    while text := TEXT.match(given, at):
        title = text.group(1)
        if title.startswith("the page"):
            title = page = title[len("the page"):].strip() or page
        texts[title] = text.group(2)
        at = text.end()
        if given.startswith(", ", at):
            at += 2
    rest = given[at:].removeprefix(": ")
    if page in texts:
        return Given(texts, page, rest.removeprefix("with ").split(), None)
    return Given({**texts, "Module:M": MODULE % rest, page: "{{#invoke:M|f}}"}, page, [], rest)


def without_place(message):
    return f'the error "{re.sub(r"^Module:M:[0-9]+: ", "", message)}"'


def told(shown):
    """What the program shows of Lua, as an example tells it."""
    error = re.fullmatch(r'<strong class="error">(Lua error: )?(.*)</strong>', shown, re.DOTALL)
    if not error:
        return shown
    message = html.unescape(error.group(2))
    return without_place(message) if error.group(1) else message


def shown_here(program, given):
    with tempfile.TemporaryDirectory(prefix="wikiexpand-differences-") as folder:
        for title, text in given.texts.items():
            name = title.replace("/", "%2F") + (".lua" if title.startswith("Module:") else ".wiki")
            with open(os.path.join(folder, name), "w", encoding="utf-8") as file:
                file.write(text.replace("⏎", "\n"))
        ran = subprocess.run([program, "expand", folder, given.page, *given.options], capture_output=True, check=False)
    shown = (ran.stdout + ran.stderr).decode("utf-8", "backslashreplace")
    return shown if given.code is None else told(shown)


def given_by_lua(given):
    text = (MODULE % given.code).replace("⏎", "\n").encode()
    ran = subprocess.run(["lua5.1", "-e", RUN], input=text, capture_output=True, check=False)
    printed = (ran.stdout + ran.stderr).decode("utf-8", "backslashreplace")
    return printed[1:] if printed.startswith("+") else without_place(printed[1:])


def agrees(said, given):
    """Whether a text is what an example says, where a `…` is any text."""
    return re.fullmatch(".*".join(map(re.escape, said.split("…"))), given.replace("\n", "⏎"), re.DOTALL)


def compare(example, program, lua):
    """How many results of an example agree, and what is to be told of the others."""
    given = taken_apart(example.given)
    came = {"here": shown_here(program, given)}
    if lua and "Lua" in example.results:
        came["Lua"] = given_by_lua(given)
    wrong = [
        f"{DOCUMENT}:{example.line}: {example.entry}\n  {name}: {example.results[name]}\n  it gives: {text}"
        for name, text in came.items()
        if not agrees(example.results[name], text)
    ]
    return len(came) - len(wrong), wrong


def main():
    if len(sys.argv) not in (2, 3):
        print(__doc__)
        return 2
    program, word = os.path.abspath(sys.argv[1]), "".join(sys.argv[2:])
    with open(DOCUMENT, encoding="utf-8") as file:
        every = [it for it in examples(file.read().splitlines()) if word in it.entry]
    run = [it for it in every if "…" not in it.given]
    lua = shutil.which("lua5.1")
    if not lua:
        print("what is said of Lua is passed over, since lua5.1 is not here")
    good, wrong = 0, []
    for example in run:
        agreed, others = compare(example, program, lua)
        good += agreed
        wrong += others
    print("".join(f"{it}\n" for it in wrong), end="")
    print(f"{len(run)} examples run, {good} results agree, {len(wrong)} differ; {len(every) - len(run)} examples not run")
    return bool(wrong)


if __name__ == "__main__":
    sys.exit(main())
