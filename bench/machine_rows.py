#!/usr/bin/env python3
"""The table of cases of `lua_machine_cases`: its `stdin`, and the `stdout` that it is to print; and the table of `tests/long_runs`.

    machine_rows.py            writes these files, in this checkout's crates and tests
    machine_rows.py --check    compares the ends of the cases with `machine_reference.py`, and with `lua5.1` where it is to be the same

The cases are the worked examples of `lua_chunks.py`, with the ends and steps that are said there, and those of `machine_cases.py`,
`machine_text_cases.py`, `machine_html_cases.py`, `machine_gsub_cases.py`, `machine_argument_cases.py`, `machine_call_rows.py`,
`machine_string_rows.py` and `machine_iterator_rows.py`, whose ends were worked out by hand from the manual or come from Lua 5.1. How many
steps and calls a case needs is what `machine_reference.py` says.
"""
import pathlib
import re
import subprocess
import sys

from lua_chunks import FILES
from machine_library import plain_scene
from machine_reference import World, in_thread, run_of, shown

TOP = pathlib.Path(__file__).resolve().parent.parent
CRATE = TOP / "crates" / "lua_machine_cases"
LONG_RUNS = TOP / "tests" / "long_runs.table"
CALLS = 20000
AMPLE = 10_000_000
# a case by hand that takes no more steps is run with each number of them in the gate, where a program has two minutes
FEW = 1200
# one that takes more, but no more than so many, is run so by `tests/long_runs`; and one that takes still more there with the last few
# numbers below what it takes, and with some others at even distances
MANY, LAST, OTHERS = 50_000, 10, 30

HARNESS = """
local name = ...
local texts = {}
for at = 2, select('#', ...), 2 do texts['Module:' .. select(at, ...)] = (select(at + 1, ...)) end
local kept = {}
function require(title)
  if kept[title] == nil then
    local chunk, fault = loadstring(texts[title], '=' .. title)
    if not chunk then error(fault, 0) end
    local value = chunk()
    kept[title] = value == nil or value
  end
  return kept[title]
end
local function run()
  local module = require('Module:' .. name)
  local values, out = {n = 0}, ''
  local function keep(...) values = {n = select('#', ...), ...} end
  keep(module.f({}))
  for i = 1, values.n do out = out .. tostring(values[i]) end
  return out
end
local ok, out = pcall(run)
io.write(ok and 'gives ' or 'fails ', tostring(out))
"""


# ---- examples of lua_chunks.py, whose questions and replies are terms of a specification
def text_in(term):
    return re.sub(r"\\(.)", lambda m: {"n": "\n", "t": "\t"}.get(m[1], m[1]), term, flags=re.S)


def texts_in(term):
    """The texts of a term, in order; [] is an empty one where `arg` or the like has it."""
    return [text_in(m[1]) if m[1] is not None else "" for m in re.finditer(r'codes "((?:\\.|[^"\\])*)"|(?<= )\[\](?!\))', term)]


def args_in(term):
    """The arguments of a list of `arg NAME VALUE`."""
    word = r'\(?(?:codes "((?:\\.|[^"\\])*)"|\[\])\)?'
    return [(text_in(m[1] or ""), text_in(m[2] or "")) for m in re.finditer(rf"arg {word} {word}", term)]


def scene_words(term):
    """A scene, and what stands behind it."""
    found = re.match(r'\((own_scene|scene_in_template) (?:\(codes "([^"]*)"\)|\(record \{ ns = Main; name = codes "([^"]*)" \}\)) '
                     r'(\[\]|\((?:[^()]|\([^()]*\))*\))\) ?', term)
    title = f"Module:{found[2]}" if found[1] == "own_scene" else found[3]
    args = "".join(f"|{shown(k.encode())}={shown(v.encode())}" for k, v in args_in(found[4]))
    return f"in {title}{args} under Template:T", term[found.end():]


def question_words(term):
    kind, rest = term.split(" ", 1)
    if kind == "Data":
        return "data Module:" + re.search(r'codes "([^"]*)"', rest)[1]
    scene, rest = scene_words(rest)
    if kind == "Preprocess":
        text = text_in(re.search(r'codes "(.*)"', rest, re.S)[1])
        return f"preprocess {shown(text.encode())} {scene}"
    title = re.search(r'template_title \(codes "([^"]*)"\)', rest)[1]
    return f"template Template:{title}" + "".join(f"|{k}={v}" for k, v in args_in(rest)) + " " + scene


def item(term):
    """An entry's part as the table has it."""
    kind, rest = term.strip("() ").split(" ", 1)
    return {"Text": lambda: re.search(r'codes "([^"]*)"', term)[1], "Number": lambda: "#" + re.search(r"pos (\d+)", rest)[1],
            "Table": lambda: "@"}[kind]()


def reply_in(term):
    """What is told, and the steps that are left, or behind a `-` those that it takes; None where the page spends the calls, of which no machine is told."""
    if term.startswith("exhausts"):
        return (("text", ""), f"-{AMPLE}") if term.endswith("Steps") else None
    left = term.rsplit(" ", 1)[1]
    if "NoPage" in term:
        return ("none",), left
    if "Loaded" in term:
        pairs = re.findall(r'\((Text \(codes "[^"]*"\)), ((?:Text \(codes "[^"]*"\)|Number \(pos \d+\)|Table \d+))\)', term)
        return ("table", [(item(k), item(v)) for k, v in pairs]), left
    told = text_in(re.search(r'codes "(.*)"', term, re.S)[1]) if "codes" in term else ""
    return ("failed" if "LoadFailed" in term else "text", told), left


def end_words(end):
    kind, *rest = end
    if kind == "Asks":
        return "asks " + question_words(rest[0])
    if kind == "Spends":
        return "spends " + rest[0].lower()
    return "loads" if kind == "Loads" else f"{kind.lower()} {shown(rest[0].encode())}"


class Case:
    """A case, and the runs of it: each a word of the table, steps, calls, replies, and what it is to print."""

    def __init__(self, name, modules, said="", work="invoke", invoked=None, args=(), parent=False, profile=True, in_lua=None):
        self.name, self.modules, self.said, self.work, self.args = name, modules, said, work, list(args)
        self.invoked, self.parent, self.profile, self.in_lua = invoked or modules[0][0], parent, profile, in_lua
        self.runs, self.nodes, self.ends = [], None, {}

    def scenes(self):
        chain = [b"Template:T"] if self.parent else []
        own = plain_scene(b"Module:" + self.invoked.encode(), [(k.encode(), v.encode()) for k, v in self.args], chain)
        around = plain_scene(b"Template:T", [(b"1", b"p"), (b"n", b"q")], chain) if self.parent else plain_scene(b"P")
        return own, around

    def reference(self, steps=AMPLE, calls=CALLS, replies=()):
        """What `machine_reference.py` comes to, once for the same allowances and replies."""
        asked = (steps, calls, repr(replies))
        if asked not in self.ends:
            self.ends[asked] = self.run(steps, calls, replies)
        return self.ends[asked]

    def run(self, steps, calls, replies):
        if not hasattr(self, "world"):
            self.world = World({b"Module:" + n.encode(): t.encode("latin-1") for n, t in self.modules})
        title = b"Module:" + self.invoked.encode()
        work = ("invoke", title, b"f", *self.scenes()) if self.work == "invoke" else ("load", title)
        return run_of(self.world, work, steps, calls, [(in_bytes(told), left) for told, left in replies])

    def lines(self):
        found = [f"case\t{self.name}"] + [f"module\t{name}\t{shown(text.encode('latin-1'))}" for name, text in self.modules]
        found.append(f"invoke\t{self.invoked}\tf" if self.work == "invoke" else f"load\t{self.invoked}")
        found += [f"arg\t{shown(k.encode())}\t{shown(v.encode())}" for k, v in self.args]
        found += ["parent\tTemplate:T", "of\t1\tp", "of\tn\tq"] if self.parent else []
        for word, steps, calls, replies, _ in self.runs:
            for told, left in replies:
                found += reply_lines(told, left)
            found.append(f"{word}\t{steps}\t{calls}")
        return found


def in_bytes(told):
    def plain(text):
        return text if text == "@" else int(text[1:]) if text.startswith("#") else text.encode()
    if told[0] == "table":
        return ("table", [(plain(k), plain(v)) for k, v in told[1]])
    return (told[0], told[1].encode()) if len(told) > 1 else told


def reply_lines(told, left):
    if told[0] == "table":
        return [f"entry\t{key}\t{value}" for key, value in told[1]] + [f"table\t{left}"]
    if told[0] == "none":
        return [f"none\t{left}"]
    return [f"{told[0]}\t{shown(told[1].encode())}\t{left}"]


def of_example(example):
    """A case of an example of `lua_chunks.py`."""
    modules = [(example["module"], example["text"]), *(example["others"] or {}).items()]
    case = Case(example["name"], modules, example["said"], "load" if example["how"] == "load_module" else "invoke", example["invoked"],
                example["args"] or [], example["cases"], example["profile"] or example["cases"])
    calls = example["calls"] or CALLS
    for step, end in zip(example["steps"], example["seen"]):
        steps, replies = step if example["cases"] else (step, [])
        read = [reply_in(term) for term in replies]
        if None in read:
            continue
        if end[0] == "Counts":
            case.nodes, end = end[1], ("Gives", "")
        if end[0] == "Notes":
            end = ("Gives", end[2])
        exact = end[0] in ("Spends", "Loads", "Asks") or len(end) > 2
        left = end[2] if end[0] in ("Spends", "Asks", "Gives", "Fails") and len(end) > 2 else end[1] if end[0] == "Loads" else 0
        said = f"{case.name}: {end_words(end)}" + (f", {left} left" if exact else "")
        case.runs.append(("exact" if exact else "run", steps, calls, read, said))
    return case


# ---- what is printed of a run, by machine_reference.py
def by_reference(case, word, steps, calls, replies):
    end = case.reference(steps, calls, replies)
    return f"{case.name}: {end.words()}" + (f", {end.left} left" if word == "exact" else f", {end.taken} taken" if word == "took" else "")


def hands():
    """The cases that were worked out by hand."""
    from machine_text_cases import CASES
    import machine_html_cases  # noqa: F401 (adds its cases)
    import machine_gsub_cases  # noqa: F401 (adds its cases)
    import machine_argument_cases  # noqa: F401 (adds its cases)
    import machine_call_rows  # noqa: F401 (adds its cases)
    import machine_string_rows  # noqa: F401 (adds its cases)
    import machine_iterator_rows  # noqa: F401 (adds its cases)
    return CASES


def all_cases():
    return [with_every(case, "every", FEW) for case in examples()] + [in_gate(hand) for hand in hands()]


def examples():
    """The worked examples."""
    return [of_example(example) for _, _, told in FILES for example in told]


def in_gate(hand):
    """A case by hand with the runs that the gate makes of it."""
    if hand["runs_at_each"]:
        return with_every(of_hand(hand), "every", AMPLE if hand["every"] else FEW)
    return with_steps(of_hand(hand))


def of_hand(hand):
    """A case of `machine_cases.py` and the like; then the least number of calls, where that is wanted and small."""
    case = Case(hand["name"], hand["modules"], hand["said"], args=hand["args"], parent=hand["parent"], profile=hand["profile"], in_lua=hand["in_lua"])
    for word, steps, calls, replies, end in hand["runs"]:
        case.runs.append((word, steps, calls, replies, f"{case.name}: {end}"))
    _, steps, calls, replies, _ = case.runs[0]
    end = case.reference(steps, calls, replies) if hand["levels"] else None
    if end and end.height <= 30:
        case.runs.append(("levels", steps, calls, replies, f"{case.name}: levels: from {end.height} on"))
    return case


def different_replies(case):
    """For each row of replies with which a case is not spent: the calls, the replies, and how it ends with ample steps. An answer that leaves
    a number of steps takes one step there."""
    seen = []
    for _, _, calls, replies, said in list(case.runs):
        told = [told for told, _ in replies]
        if told not in seen and "spends steps" not in said:
            seen.append(told)
            replies = [(told, left if left.startswith("-") else "-1") for told, left in replies]
            yield calls, replies, case.reference(AMPLE, calls, replies)


def with_every(case, word, most):
    """The case with a line for each row of replies: runs with each number of steps, from 0 (`all`) or from 1,000 on (`every`), where it comes
    to an end within so many."""
    for calls, replies, end in different_replies(case):
        if end.taken <= most:
            case.runs.append((word, AMPLE, calls, replies, f"{case.name}: {word}: from {end.taken} on"))
    return case


def with_steps(case):
    """The case, whose runs that tell an end tell the steps too."""
    case.runs = [("took", *run, f"{said}, {case.reference(*run).taken} taken") if word == "run" else (word, *run, said) for word, *run, said in case.runs]
    return case


def numbers_below(need):
    """The last few numbers of steps below what is needed, and some others behind the 1,000 that a start takes at once."""
    last = need - LAST
    return sorted({1000 + (last - 1000) * at // OTHERS for at in range(OTHERS)} | set(range(last, need)))


def long_case(hand):
    """The case with its runs by many numbers of steps, for each row of replies with which it takes more than `FEW` of them."""
    case, runs = of_hand(hand), []
    for calls, replies, end in different_replies(case):
        if FEW < end.taken <= MANY:
            runs.append(("every", AMPLE, calls, replies, f"{case.name}: every: from {end.taken} on"))
        elif end.taken > MANY:
            runs += [("exact", steps, calls, replies, f"{case.name}: spends steps, 0 left") for steps in numbers_below(end.taken)]
            runs.append(("exact", end.taken, calls, replies, f"{case.name}: {end.words()}, 0 left"))
    case.runs = runs
    return case


def long_example(case):
    """The example with its runs from 0 steps on alone."""
    case = with_every(case, "all", AMPLE)
    case.runs = [run for run in case.runs if run[0] == "all"]
    return case


def long_cases():
    """The examples, with each number of steps from 0 on; and the cases by hand that take more than `FEW` steps, but for those that the gate
    runs with each number of them all the same, and those that are run once."""
    by_hand = [long_case(hand) for hand in hands() if hand["runs_at_each"] and not hand["every"]]
    return [case for case in [*map(long_example, examples()), *by_hand] if case.runs]


def tables():
    """Both tables, each with its file, and what is said of it there, and what its runs are to print."""
    yield all_cases(), CRATE / "stdin", CRATE / "stdout"
    yield long_cases(), LONG_RUNS, LONG_RUNS.with_suffix(".printed")


def write():
    counts = []
    for cases, table, answers in tables():
        lines, printed = ["# Written by bench/machine_rows.py."], []
        for case in cases:
            lines += ["", "# " + case.said.replace("\n", " ")] + case.lines()
            printed += [said for *_, said in case.runs]
        table.write_text("\n".join(lines) + "\n")
        answers.write_text("\n".join(printed) + "\n")
        counts.append((len(cases), len(printed)))
    return counts


# ---- other judges
def lua_end(case):
    words = [part for name, text in case.modules for part in (name, text)]
    done = subprocess.run(["lua5.1", "-", case.invoked, *words], input=HARNESS.encode(), capture_output=True)
    return done.stdout


def check():
    wrong, cases = 0, all_cases()
    compared = 0
    for case in cases:
        for word, steps, calls, replies, said in case.runs:
            if word not in ("all", "every", "levels") and by_reference(case, word, steps, calls, replies) != said:
                wrong += 1
                print(f"{said}\n    by machine_reference.py {by_reference(case, word, steps, calls, replies)}")
        if case.nodes is not None and case.reference().nodes != case.nodes:
            wrong += 1
            print(f"{case.name}: {case.nodes} nodes here, {case.reference().nodes} by machine_reference.py")
        if case.in_lua or not case.profile:
            compared += 1
            words, steps, calls, replies, said = case.runs[0]
            wanted = case.in_lua or re.sub(", ([0-9]+ taken|0 left)$", "", said[len(case.name) + 2:]).replace("fails Lua error: ", "fails ")
            if shown(lua_end(case)) != wanted:
                wrong += 1
                print(f"{case.name}: {wanted!r} here, {lua_end(case)!r} in lua5.1")
    print(f"{len(cases)} cases, {sum(len(case.runs) for case in cases)} lines, {compared} cases compared with lua5.1, {wrong} differ")
    return wrong


def check_examples():
    return check()


def main():
    if "--check" in sys.argv:
        return int(check() > 0)
    for count in write():
        print("%d cases, %d lines" % count)
    return 0


if __name__ == "__main__":
    sys.exit(in_thread(main))
