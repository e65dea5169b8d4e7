#!/usr/bin/env python3
"""Times the expansion of templates by the built program.

  bench/expansion.py crates/wikiexpand/out/wikiexpand [FOLDER]

A folder of 1,000 pages is made below FOLDER (or a temporary one). Each page is an infobox of 30 parameters, of which 20 are
given, some text, and a box of links; the templates have nested #if and #switch. Of each of these, the least processor time of
some rounds is told (the program has one thread, so on an idle machine that is the time it takes):

- a run that prints a page of plain text of the same folder: reading the folder, cutting and pairing its pages, and starting;
- a run for each of 20 pages, as a user calls the program, the run above included;
- one run on a page that transcludes all 1,000, less the time of the plain page: pages and bytes per second in one process;
- pages of 1,000,000 constructs;
- a template of many parameters, called with as many arguments.

The text that is printed is compared with one that this script makes by itself.
"""
import os
import shutil
import sys
import tempfile

import timing

ROUNDS, PAGES = 5, 1000
PARAMETERS = [f"field{number}" for number in range(1, 31)]
KINDS = ["city", "river", "peak", "person"]

ROW = "{{#if:{{{2|}}}|<tr><th>{{{1}}}</th><td>{{{2}}}</td></tr>}}"
INFOBOX = (
    '<table class="infobox {{#switch:{{{kind|}}}|city|town=settlement|river|lake=water|peak=mountain|#default=other}}">'
    "<caption>{{{name|{{PAGENAME}}}}}</caption>"
    "{{#if:{{{image|}}}|<tr><td>[[File:{{{image}}}|{{#if:{{{width|}}}|{{{width}}}|220px}}]]</td></tr>}}"
    + "".join("{{Row|Field %d|{{{%s|}}}}}" % (number, name) for number, name in enumerate(PARAMETERS, 1))
    + "{{#ifeq:{{{field1|}}}|1|<tr><td>first</td></tr>}}</table>"
)
LINK = "{{#if:{{{1|}}}|<li>[[{{{1}}}]]</li>}}"
NAVBOX = (
    '<div class="navbox {{#switch:{{{state|}}}|open=expanded|collapsed}}">{{{title|}}}<ul>'
    + "".join("{{Link|{{{%d|}}}}}" % number for number in range(1, 21))
    + "</ul></div>"
)


def page_source(number):
    given = "".join(f"\n| {name} = value {number} {name}" for name in PARAMETERS if int(name[5:]) % 3)
    links = "".join(f"|Page {(number + step) % PAGES}" for step in range(1, 13))
    return (f"{{{{Infobox\n| name = Thing {number}\n| kind = {KINDS[number % 4]}\n| image = Thing {number}.jpg{given}\n}}}}\n"
            f"Some text of thing {number}, between the boxes.\n{{{{Navbox|title=Things|state=open{links}}}}}\n")


def page_text(number):
    kind = {"city": "settlement", "river": "water", "peak": "mountain", "person": "other"}[KINDS[number % 4]]
    rows = "".join(f"<tr><th>Field {at}</th><td>value {number} {name}</td></tr>"
                   for at, name in enumerate(PARAMETERS, 1) if at % 3)
    links = "".join(f"<li>[[Page {(number + step) % PAGES}]]</li>" for step in range(1, 13))
    return (f'<table class="infobox {kind}"><caption>Thing {number}</caption>'
            f"<tr><td>[[File:Thing {number}.jpg|220px]]</td></tr>{rows}</table>\n"
            f"Some text of thing {number}, between the boxes.\n"
            f'<div class="navbox expanded">Things<ul>{links}</ul></div>\n')


def make(folder):
    os.makedirs(folder)
    pages = {f"Page {number}": page_source(number) for number in range(PAGES)}
    pages["Template:Infobox"], pages["Template:Row"] = INFOBOX, ROW
    pages["Template:Navbox"], pages["Template:Link"] = NAVBOX, LINK
    pages["Plain"] = "plain text"
    pages["All"] = "".join(f"{{{{:Page {number}}}}}" for number in range(PAGES))
    for title, text in pages.items():
        with open(os.path.join(folder, title + ".wiki"), "w", encoding="utf-8") as page:
            page.write(text)
    return sum(len(text) for text in pages.values())


def seconds(program, folder, page, wanted, options=(), rounds=1):
    """the least processor time of some runs, whose output is to be as wanted"""
    return timing.best(rounds, [program, "expand", *options, folder, page], wanted=wanted).processor


def best(program, folder, page, wanted, options=()):
    return seconds(program, folder, page, wanted, options, ROUNDS)


def main():
    program = os.path.abspath(sys.argv[1])
    base = sys.argv[2] if len(sys.argv) > 2 else tempfile.mkdtemp()
    folder = os.path.join(base, "pages")
    read = make(folder)
    texts = [page_text(number).encode() for number in range(PAGES)]

    plain = best(program, folder, "Plain", b"plain text")
    print(f"a page of plain text, of {PAGES + 6} pages with {read} bytes: {plain:.3f} s")

    numbers = range(0, PAGES, PAGES // 20)
    took = sum(seconds(program, folder, f"Page {number}", texts[number]) for number in numbers) / len(numbers)
    print(f"a run for each page, whole folder read each time: {took:.3f} s a run")

    whole = b"".join(texts)
    took = best(program, folder, "All", whole, ["--nodes", "4000000", "--bytes", "16000000"])
    used = took - plain
    print(f"one page of {PAGES} pages, {len(whole)} bytes: {took:.3f} s; without reading {used:.3f} s: "
          f"{PAGES / used:.0f} pages/s, {len(whole) / used / 1e6:.1f} MB/s")
    shutil.rmtree(folder)

    for name, piece, given in (("{{!}}", "{{!}}", "|"), ("{{{1|}}}", "{{{1|}}}", ""), ("{{#if:|}}", "{{#if:|}}", "")):
        count = 200000
        files = {f"Template:T{number}": piece * count for number in range(5)}
        files["P"] = "".join(f"{{{{T{number}}}}}" for number in range(5))
        took = timed(program, folder, files, (given * count * 5).encode())
        print(f"1,000,000 of {name}: {took:.3f} s")

    for count in (2000, 20000, 100000):
        files = {"Template:T": "".join(f"{{{{{{k{number}}}}}}}" for number in range(count)),
                 "P": "{{T|" + "|".join(f"k{number}={number}" for number in range(count)) + "}}"}
        took = timed(program, folder, files, "".join(map(str, range(count))).encode())
        print(f"{count} parameters with {count} arguments: {took:.3f} s, {took / count * 1e6:.2f} microseconds for each")


def timed(program, folder, files, wanted):
    """the least time of a folder's page P"""
    os.makedirs(folder)
    for title, text in files.items():
        with open(os.path.join(folder, title + ".wiki"), "w", encoding="utf-8") as page:
            page.write(text)
    took = best(program, folder, "P", wanted, ["--nodes", "4000000", "--bytes", "16000000"])
    shutil.rmtree(folder)
    return took


if __name__ == "__main__":
    main()
