#!/usr/bin/env python3
"""Compares the built program with `expand_reference.py`, which follows the same rules by itself.

  bench/expansion_compare.py PROGRAM                    the cases of the table, 1,500 folders of random pages, and 20,000 switches
  bench/expansion_compare.py PROGRAM table              the pages without modules of crates/page_cases/stdin, as folders on disk
  bench/expansion_compare.py PROGRAM random COUNT SEED  that many folders of random pages
  bench/expansion_compare.py PROGRAM switches COUNT SEED
                                                        that many templates with a `#switch` of many parts, each asked for some values

PROGRAM is crates/wikiexpand/out/wikiexpand. Each difference is printed with the folder's pages.
"""
import os
import random
import shutil
import subprocess
import sys
import tempfile
import threading

import expand_reference as reference

NAMES = ["T", "U", "V", "W"]
HEADS = ["T", "U", "V", "W", "Nope", ":P", "#if:", "#ifeq:", "#switch:", "#IF:x", "#switch:1", "safesubst:T", "subst:U", "!", "=",
         "PAGENAME", "NAMESPACE", "a<b", "", " T ", "talk:q"]
WORDS = ["a", "b", " ", "\n", "1", "01", "+1", "n", "x", "#default", "==", "[[a|b]]", "[", "]]", "{", "}", "<!-- c -->", "<nowiki>{{T}}</nowiki>",
         "<noinclude>", "</noinclude>", "<includeonly>", "</includeonly>", "<onlyinclude>", "</onlyinclude>", "{{{1|}}}", "{{{n}}}", "|", "="]


def text(pick, depth):
    """some words, constructs and parameters"""
    return "".join(thing(pick, depth) for _ in range(pick.randrange(4)))


def part(pick, depth):
    name = pick.choice(["", "", "", "n=", "1=", " n = ", "#default=", "a=", "x=", text(pick, depth - 1) + "="])
    return name + text(pick, depth - 1)


def thing(pick, depth):
    kind = pick.randrange(10)
    if depth <= 0 or kind < 4:
        return pick.choice(WORDS)
    parts = "".join("|" + part(pick, depth) for _ in range(pick.randrange(5)))
    if kind < 6:
        return "{{{" + pick.choice(["1", "2", "n", "a", " n ", "", text(pick, depth - 1)]) + parts + "}}}"
    head = pick.choice(HEADS) if pick.randrange(6) else text(pick, depth - 1)
    return "{{" + head + (text(pick, depth - 1) if head.endswith(":") else "") + parts + "}}"


def random_folder(pick):
    files = {b"P": text(pick, 4) + thing(pick, 4) + thing(pick, 4)}
    for name in NAMES:
        if pick.randrange(5):
            files[b"Template:" + name.encode()] = text(pick, 3) + thing(pick, 3)
    words = [b"expand", b"d", b"P"]
    if pick.randrange(4) == 0:
        words.append(b"--nodes=%d" % pick.randrange(30))
    if pick.randrange(4) == 0:
        words.append(b"--bytes=%d" % pick.randrange(200))
    return words, {name: text.encode() for name, text in files.items()}


# what parts of a `#switch` are called, and what one is asked for: in any case and spacing, numbers, the default's name
PLAIN = ["a", "A", "b", "B", "ab", "Ab", "a b", "a  b", "c", "d", "e", "f", "é", "x", "", "0", "1", "2", "7", "10", "#default"]
LIKE = ["-0", "+0", "00", "01", "+1", "-1", "1.0", "+07", "007", "-7", "1" * 18, "0" * 17 + "1", "1" * 19, "0" * 18 + "1", "+" + "1" * 18, "#Default",
        "#DEFAULT", "# default", "default", "A B", "a\nb"]
SPACE = ["", "", "", " ", "\n", "  ", " \n", "\t"]
VARIED = ["{{{2|a}}}", "{{{2}}}", "{{{3|#default}}}", "{{{3|}}}", "{{U}}", "{{U|1}}", "a{{{2|}}}", "{{{2|}}}b", "{{#if:{{{2|}}}|a|b}}", "[[a]]", "a<!-- c -->b",
          "<nowiki>a</nowiki>", "<!-- c -->a", "{{!}}", "a{{=}}b"]
SWITCHES = ["#switch:", "#switch:", "#switch:", "#SWITCH:", " #Switch: ", "safesubst:#switch:", "{{{h|#switch:}}}", "#{{{h|switch}}}:", "{{V}}itch:", "#switch :"]


def spaced(pick, name):
    return pick.choice(SPACE) + name + pick.choice(SPACE)


def case_name(pick, names):
    kind = pick.randrange(40)
    if kind == 0:
        return pick.choice(VARIED)
    return spaced(pick, pick.choice(names) if kind < 30 else pick.choice(LIKE if kind < 36 else PLAIN))


def case_value(pick, depth, names):
    kind = pick.randrange(12)
    if kind == 0 and depth:
        return a_switch(pick, depth - 1, names, pick.randrange(40))
    if kind == 1:
        return pick.choice(VARIED)
    return spaced(pick, pick.choice(["", "v", "=", "v=w"]) + str(pick.randrange(1000)))


def a_switch(pick, depth, names, count):
    """with that many parts: some fall through, defaults stand anywhere"""
    few_values = pick.randrange(3)
    parts = []
    for _ in range(count):
        name = case_name(pick, names)
        parts.append(name if pick.randrange(4) < few_values else name + "=" + case_value(pick, depth, names))
    head = pick.choice(SWITCHES) + pick.choice(["{{{1|}}}", " {{{1|}}} ", "{{{1}}}", "{{{1|}}}{{{2|}}}"])
    return "{{" + "|".join([head, *parts]) + "}}"


def switch_folder(pick, count):
    """that many templates with a switch each, and a page that asks each for some values"""
    files, page = {b"Template:U": "b", b"Template:V": "#sw"}, []
    for at in range(count):
        names = [pick.choice(PLAIN + LIKE) if pick.randrange(3) else f"n{pick.randrange(60)}" for _ in range(pick.randrange(1, 40))]
        body = a_switch(pick, 2, names, pick.randrange(1, 60))
        files[b"Template:S%d" % at] = body + (a_switch(pick, 1, names, pick.randrange(30)) if pick.randrange(8) == 0 else "")
        for _ in range(8):
            more = pick.choice(["", "", "|", "|a", "|b", "|a|#default", "|2=1|3=x", "|h=switch", "|h=#if:"])
            page.append("{{S%d|%s%s}}" % (at, case_name(pick, names), more))
    files[b"P"] = ",".join(page)
    return [b"expand", b"d", b"P"], {name: text.encode() for name, text in files.items()}


def switch_cases(count, seed):
    pick = random.Random(seed)
    return [(*switch_folder(pick, min(40, count - at)), None) for at in range(0, count, 40)]


def printed(program, words, files):
    folder = tempfile.mkdtemp()
    for name, page in files.items():
        with open(os.path.join(folder.encode(), name + b".wiki"), "wb") as file:
            file.write(page)
    words = [folder.encode() if word == b"d" else word for word in words]
    done = subprocess.run([program.encode(), *words], stdout=subprocess.PIPE, stderr=subprocess.PIPE, check=False)
    shutil.rmtree(folder)
    return (done.returncode, done.stdout, done.stderr)


def cases_of_table():
    table = os.path.join(os.path.dirname(os.path.abspath(__file__)), "../crates/page_cases/stdin")
    return [(words, dict(files), wanted) for _, words, files, wanted in reference.each_case(reference.table_in(table))]


def random_cases(count, seed):
    pick = random.Random(seed)
    return [(*random_folder(pick), None) for _ in range(count)]


def main():
    program, words = os.path.abspath(sys.argv[1]), sys.argv[2:]
    if words[:1] == ["random"]:
        cases = random_cases(int(words[1]), int(words[2]))
    elif words[:1] == ["switches"]:
        cases = switch_cases(int(words[1]), int(words[2]))
    else:
        cases = cases_of_table() + ([] if words == ["table"] else random_cases(1500, 42) + switch_cases(20_000, 42))
    wrong = 0
    for words, files, wanted in cases:
        if wanted is None:
            wanted = reference.run_case(words, files)
        got = printed(program, words, files)
        if got != (0, *wanted):
            wrong += 1
            print(f"{words}\n{files}\n  wanted {[it[:500] for it in wanted]}\n  got    {got}")
    print(f"{len(cases)} cases, {wrong} differ")
    sys.stdout.flush()
    os._exit(1 if wrong else 0)


if __name__ == "__main__":
    sys.setrecursionlimit(1000000)
    threading.stack_size(1 << 29)
    worker = threading.Thread(target=main)
    worker.start()
    worker.join()
