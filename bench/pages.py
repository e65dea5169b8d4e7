#!/usr/bin/env python3
"""Times pages with modules, by the built program.

  bench/pages.py crates/wikiexpand/out/wikiexpand [FOLDER]

A folder of 1,000 pages is made below FOLDER (or a temporary one); each page invokes a function of a module of some 200 bytes once,
which gives one of its arguments. The least processor time of some rounds is told:

- of a run that prints a page of plain text of that folder: reading, cutting and pairing all pages, and parsing the modules;
- of a run that prints one page with its invocation, less that;
- of a run that prints the 1,000 pages, less the first: a start, a store and an answer for each. That is asked to be 2,000 pages a
  second or better;
- of a run on a page that includes all 1,000 pages, less the first: 1,000 invocations in one store, each in a fresh environment;
- the same with a data module that each invocation reads: it is loaded once, and served 999 times;
- of a page whose module has 1,000 texts expanded, and one whose module invokes 1,000 others in turn.

Then the most memory of a run that prints one page whose module fills a table with a million numbers, and of one that prints 20 of
them: what a page holds is given back with it, so they are asked to be alike. (A process begins as a copy of this one, so no figure of
memory is below that of this script, some 14 MiB.)

What is printed is compared with a text that this script makes by itself.
"""
import os
import shutil
import sys
import tempfile

import timing

ROUNDS, PAGES, HEAVY, MANY = 5, 1000, 20, 1000000
WIDE = ["--nodes", "4000000", "--bytes", "16000000"]

ECHO = """-- It gives its first argument, in brackets.
local p = {}

local function bracketed(text)
  return '[' .. text .. ']'
end

function p.echo(frame)
  return bracketed(frame.args[1] or 'nothing')
end

return p
"""
DATA = "return { left = '<', right = '>' }\n"
READS = """local p = {}
function p.f(frame)
  local data = mw.loadData('Module:Data')
  return data.left .. frame.args[1] .. data.right
end
return p
"""
TURNS = """local p = {}
function p.texts(frame)
  local out = {}
  for i = 1, 1000 do out[i] = frame:preprocess('{{{1}}}') end
  return table.concat(out)
end
function p.runs(frame)
  local out = {}
  for i = 1, 1000 do out[i] = frame:preprocess('{{#invoke:Echo|echo|{{{1}}}}}') end
  return table.concat(out)
end
return p
"""
FILL = f"return {{f=function() local t={{}} for i=1,{MANY} do t[i]=i end return #t end}}\n"


def make(folder):
    """Makes the folder, and tells how many pages it has."""
    os.makedirs(folder)
    pages = {f"Page {number}": f"{{{{#invoke:Echo|echo|{number}}}}}\n" for number in range(PAGES)}
    pages["Module:Echo"], pages["Module:Data"], pages["Module:Reads"], pages["Module:Turns"] = ECHO, DATA, READS, TURNS
    pages["Plain"] = "plain text"
    pages["All"] = "".join(f"{{{{:Page {number}}}}}" for number in range(PAGES))
    pages["Reads"] = "".join(f"{{{{#invoke:Reads|f|{number}}}}}" for number in range(PAGES))
    pages["Texts"] = "{{#invoke:Turns|texts|a}}"
    pages["Runs"] = "{{#invoke:Turns|runs|a}}"
    pages["Module:Fill"] = FILL
    pages.update({f"Heavy {number}": "{{#invoke:Fill|f}}" for number in range(HEAVY)})
    for title, text in pages.items():
        with open(os.path.join(folder, title + ".wiki"), "w", encoding="utf-8") as page:
            page.write(text)
    return len(pages)


def printed(pages):
    """What a run on several pages prints, by titles and texts."""
    return "".join(f"page {title} {len(text)}\n{text}\n" for title, text in pages)


def tell_speed(best, plain):
    one = best(["Page 7"], "[7]\n")
    print(f"a page with one invocation, without that: {one.processor - plain.processor:.4f} s")
    echoed = [(f"Page {number}", f"[{number}]\n") for number in range(PAGES)]
    for name, pages, wanted in (
        (f"{PAGES} pages with an invocation each, one by one", [title for title, _ in echoed], printed(echoed)),
        (f"{PAGES} pages with an invocation each, in one", ["All"], "".join(text for _, text in echoed)),
        (f"{PAGES} invocations that read data", ["Reads"], "".join(f"<{number}>" for number in range(PAGES))),
        ("1,000 texts that a module has expanded", ["Texts"], "a" * 1000),
        ("1,000 invocations that a module asks for", ["Runs"], "[a]" * 1000),
    ):
        took = best(pages, wanted)
        used = max(took.processor - plain.processor, 1e-6)
        print(f"{name}: {took.processor:.3f} s; without reading {used:.3f} s: {1000 / used:.0f} a second, {took.memory / 2 ** 20:.0f} MiB")


def tell_memory(best):
    titles = [f"Heavy {number}" for number in range(HEAVY)]
    one = best(titles[:1], str(MANY), 1)
    all_of_them = best(titles, printed([(title, str(MANY)) for title in titles]), 1)
    print(f"a page that fills a table: {one.memory / 2 ** 20:.0f} MiB; {HEAVY} of them: {all_of_them.memory / 2 ** 20:.0f} MiB")


def main():
    program = os.path.abspath(sys.argv[1])
    base = sys.argv[2] if len(sys.argv) > 2 else tempfile.mkdtemp()
    folder = os.path.join(base, "pages")
    count = make(folder)

    def best(pages, wanted, rounds=ROUNDS):
        return timing.best(rounds, [program, "expand", *WIDE, folder, *pages], wanted=wanted.encode())

    plain = best(["Plain"], "plain text")
    print(f"a page of plain text, of {count} pages: {plain.processor:.3f} s, {plain.memory / 2 ** 20:.0f} MiB")
    tell_speed(best, plain)
    tell_memory(best)
    shutil.rmtree(folder)


if __name__ == "__main__":
    main()
