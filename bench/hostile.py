#!/usr/bin/env python3
"""What a stranger's page can cost for few steps or nodes: the smallest form of each kind, at two sizes, beside the rates of honest pages.

  bench/hostile.py crates/wikiexpand/out/wikiexpand [--seconds N] [--memory MB] [NAME ..]

Each row is a small wiki in a folder of its own, of which one page is expanded, most of them with the default allowances. Told are
processor seconds, the most memory, and the microseconds of one unit (a node, a step, a call, an invocation: what the row repeats),
without what the empty page of the same program takes. A run is cut after N processor seconds (20) or above so many MB (6,000); it is
told as `cut` then, with what it had taken. With names only the rows whose name has one of them as a part are run; `list` tells the rows.

Sizes are chosen so that all rows together take a few minutes where each of them is slow. A row whose second size takes more than twice
the first one costs more for a unit the larger it is. (A process begins as a copy of this one, so no figure of memory is below some
12 MB.)
"""
import collections
import os
import resource
import subprocess
import sys
import tempfile

Row = collections.namedtuple("Row", "root name unit size count pages options")

STEPS = 20_000_000
FRAME = "return {f=function(frame) %s end}"
RUN = {"P": "{{#invoke:M|f}}"}


def lua(root, name, unit, body, sizes, count, options=()):
    """A module whose function does this: `SIZE` stands for the size, and `COUNT` for how often the unit is repeated."""
    for size in sizes:
        times = count(size) if callable(count) else count
        text = body.replace("SIZE", str(size)).replace("COUNT", str(times))
        yield Row(root, name, unit, size, times, {**RUN, "Module:M": FRAME % text}, list(options))


def honest():
    """What a plain page takes, with which the others are compared."""
    yield from lua("-", "plain loop", "step", "while true do end", [STEPS], STEPS)
    yield Row("-", "plain node", "node", 400_000, 400_000, {"P": "{{!}}" * 400_000}, [])
    for size in (1, 1000):
        yield Row("-", "trivial #invoke", "invocation", size, size, {"P": "{{#invoke:M|f}}" * size, "Module:M": FRAME % "return ''"}, [])


def constant_parts():
    """Constant parts of a construct that is expanded again and again."""
    for size in (1000, 2000):
        yield Row("A", "#switch of many cases", "node", size, 10_000, {"Template:T": "{{#switch:x" + "|ab" * size + "}}", "P": "{{T}}" * 10_000}, [])
    for size in (1000, 2000):
        yield Row("A", "call with many arguments", "node", size, 10_000, {"Template:T": "{{U" + "|a" * size + "}}", "Template:U": "", "P": "{{T}}" * 10_000}, [])
    for size in (500_000, 1_000_000):
        yield Row("A", "long head", "node", size, 2000, {"Template:T": "{{" + " " * size + "U}}", "Template:U": "", "P": "{{T}}" * 2000}, [])


def invocations():
    """Invocations that can't be paid, and those that can."""
    for name, options in (("unpaid invocations", []), ("unpaid invocations, no steps", ["--steps", "0"])):
        for size in (12_500, 124_999):
            yield Row("B", name, "invocation", size * 8, size * 8, {"Template:T": "{{#invoke:M|f}}" * size, "P": "{{T}}" * 8, "Module:M": FRAME % "return ''"}, options)
    for size in (9400, 18_800):
        yield Row("B", "paid invocations", "invocation", size, size, {"P": "{{#invoke:M|f}}" * size, "Module:M": FRAME % "return ''"}, [])


def scenes():
    """Arguments of a frame, which questions and invocations hand on."""
    for size in (100_000, 400_000):
        text = FRAME % "for i=1,50 do frame:preprocess('') end"
        yield Row("C", "preprocess with many arguments", "call", size, 50, {"P": "{{#invoke:M|f" + "|" * size + "}}", "Module:M": text}, [])
    for size in (100_000, 400_000):
        page = {"P": "{{T" + "|" * size + "}}", "Template:T": "{{#invoke:M|f}}" * 50, "Module:M": FRAME % "return ''"}
        yield Row("C", "#invoke in a template of many arguments", "invocation", size, 50, page, [])
    for size in (100_000, 400_000):
        text = FRAME % "for i=1,1000 do frame:getArgument('x') end"
        yield Row("I", "getArgument among many", "call", size, 1000, {"P": "{{#invoke:M|f" + "|" * size + "}}", "Module:M": text}, [])


def long_texts():
    """Texts of the module's own that are read, looked up or compared again and again."""
    yield from lua("E", "numeral of a loop", "turn", "local s=('0'):rep(SIZE) for i=1,COUNT do for j=1,s do end end", [1_000_000, 2_000_000], 1000)
    body = "local s=('_'):rep(SIZE)..'Module:N' for i=1,COUNT do require(s) end"
    for row in lua("F", "require by a long title", "call", body, [1_000_000, 2_000_000], 1000):
        yield row._replace(pages={**row.pages, "Module:N": "return 1"})
    yield from lua("G", "a message that quotes a text", "call", "local s=('x'):rep(SIZE) for i=1,COUNT do pcall(require,s) end", [500_000, 1_000_000], 12)
    yield from lua("G", "messages that quote one another", "call", "local e='x' for i=1,SIZE do local o,m=pcall(require,e) e=m end", [500, 1000], lambda size: size)
    body = "local c=('x'):rep(SIZE) local a,b=c..'a',c..'b' for i=1,COUNT do table.sort({b,a}) end"
    yield from lua("H", "sort of two long texts", "call", body, [1_000_000, 2_000_000], 2000)


def walks():
    """Walks that nobody pays."""
    body = "local b=mw.html.create('b') for i=1,SIZE do b=b:tag('b') end for i=1,COUNT do b:allDone() end"
    yield from lua("I", "allDone in a deep object", "call", body, [50_000, 100_000], 2000)
    yield from lua("I", "listToText of empty texts", "call", "local t={} for i=1,SIZE do t[i]='' end for i=1,COUNT do mw.text.listToText(t,'','') end", [100_000, 200_000], 500)
    body = "local b=mw.html.create('b') for i=1,SIZE do b:wikitext('') end for i=1,COUNT do tostring(b) end"
    yield from lua("I", "tostring of empty texts", "call", body, [100_000, 200_000], 500)
    body = "local t={} for i=1,SIZE do t['k'..i]=1 end for i=1,SIZE do t['k'..i]=nil end for i=1,COUNT do mw.clone(t) end"
    yield from lua("I", "clone of cleared entries", "call", body, [100_000, 200_000], 500)
    body = "local t={} for i=1,SIZE do t['k'..i]=1 end for i=1,SIZE do t['k'..i]=nil end for i=1,COUNT do frame:newChild{args=t} end"
    yield from lua("I", "a child of cleared entries", "call", body, [20_000, 40_000], 50)
    yield from lua("J", "attributes of an object", "attribute", "local b=mw.html.create('b') for i=1,SIZE do b:attr('a'..i,'') end", [10_000, 20_000], lambda size: size)
    yield from lua("J", "styles of an object", "style", "local b=mw.html.create('b') for i=1,SIZE do b:css('a'..i,'') end", [10_000, 20_000], lambda size: size)
    yield from lua("L", "a pattern of empty items", "item", "return tostring(string.find('a',('.-'):rep(SIZE)..'b'))", [8000, 16_000], lambda size: size)


def rates():
    """What is dear, but the same for each unit."""
    yield from lua("M", "newChild", "call", "for i=1,SIZE do frame:newChild{} end", [50_000, 100_000], lambda size: size)
    page = {"P": "{{A0}}", **{f"Template:A{n}": "{{A%d}}" % (n + 1) for n in range(38)}, "Template:A38": "{{#invoke:M|f}}"}
    for row in lua("M", "newChild below 39 templates", "call", "for i=1,SIZE do frame:newChild{} end", [50_000, 100_000], lambda size: size):
        yield row._replace(pages={**row.pages, **page})
    yield from lua("O", "preprocess of a letter", "call", "for i=1,SIZE do frame:preprocess('x') end", [200_000, 400_000], lambda size: size)
    yield from lua("O", "gsub of empty matches", "match", "string.gsub(('x'):rep(SIZE),'',function() end)", [500_000, 1_000_000], lambda size: size)
    for size in (4, 8):
        pages = {f"Q{n}": "<" * 2_000_000 for n in range(size)}
        yield Row("O", "pages of `<`", "byte", 2_000_000 * size, 2_000_000 * size, {"P": "", **pages}, [])


def rows():
    for kind in (honest, constant_parts, invocations, scenes, long_texts, walks, rates):
        yield from kind()


def write(folder, pages):
    for title, text in pages.items():
        with open(os.path.join(folder, title + ".wiki"), "w", encoding="utf-8") as page:
            page.write(text)


def run(program, row, seconds, memory):
    """Processor seconds, MB at most, and how it ended: an empty text, or why it is to be told."""

    def limits():
        resource.setrlimit(resource.RLIMIT_CPU, (seconds, seconds))
        resource.setrlimit(resource.RLIMIT_AS, (memory << 20, memory << 20))

    with tempfile.TemporaryDirectory(prefix="hostile-") as folder:
        write(folder, row.pages)
        # (the limits of memory hold for what the program maps, which is not all used)
        running = subprocess.Popen([program, "expand", *row.options, folder, "P"], stdout=subprocess.DEVNULL, stderr=subprocess.DEVNULL, preexec_fn=limits)
        _, status, used = os.wait4(running.pid, 0)
        running.returncode = status
    ended = "" if status == 0 else "cut" if os.WIFSIGNALED(status) else f"status {os.waitstatus_to_exitcode(status)}"
    return used.ru_utime + used.ru_stime, used.ru_maxrss / 1024, ended


def number(words, name, default):
    """The number behind an option, which is taken out of the words."""
    if name not in words:
        return default
    at = words.index(name)
    value = int(words[at + 1])
    del words[at:at + 2]
    return value


def main():
    words = sys.argv[1:]
    seconds, memory = number(words, "--seconds", 20), number(words, "--memory", 6000)
    chosen = [row for row in rows() if not words[1:] or any(word in row.name for word in words[1:])]
    if words == ["list"]:
        print("\n".join(sorted({f"{row.root} {row.name}" for row in rows()})))
        return
    program = os.path.abspath(words[0])
    nothing = run(program, Row("-", "", "", 0, 1, {"P": ""}, []), seconds, memory)[0]
    print("| root | form | size | seconds | MB | us for one | |\n| --- | --- | --- | --- | --- | --- | --- |")
    for row in chosen:
        took, most, ended = run(program, row, seconds, memory)
        each = f"{1e6 * max(took - nothing, 0) / row.count:.3f} a {row.unit}" if not ended else ""
        print(f"| {row.root} | {row.name} | {row.size:,} | {took:.2f} | {most:.0f} | {each} | {ended} |", flush=True)


if __name__ == "__main__":
    main()
