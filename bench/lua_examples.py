#!/usr/bin/env python3
"""Writes the worked examples of `lua_meaning`: its files specs/Examples*.antt and proofs/Examples*.antt.

    lua_examples.py            writes the files, next to this checkout's crates
    lua_examples.py --check    runs each example of which Lua 5.1 has the same result in `lua5.1`, reads each text by
                               lua_reference.py, and says where a result, a tree or a fault differs

An example is a module whose function `f` is invoked. The files hold its text, its tree (by lua_trees.py), and what comes.
"""
import pathlib
import re
import subprocess
import sys

from lua_chunks import FILES
from lua_reference import answer, other_tree
from lua_trees import rows, tree

CRATE = pathlib.Path(__file__).resolve().parent.parent / "crates" / "lua_meaning"

HEAD = """-- {subject}
use Rattle.std.specs.Prelude.{{◌≡◌, pos, true, false, [], ◌∷◌, codes}}
use Rattle.lua_syntax.specs.declared.BinaryOp.TheVariants as op
use Rattle.lua_syntax.specs.declared.UnaryOp.TheVariants as sign
use Rattle.lua_syntax.specs.Tree.{{NilE, TrueE, FalseE, NumberE, TextE, DotsE, FunctionE, NameE, IndexE, CallE, MethodE, TableE, BinaryE, UnaryE, ParenE}}
use Rattle.lua_syntax.specs.Tree.{{NoExp, NoField, Item, Pair, Lambda, Block, NoStat, Arm}}
use Rattle.lua_syntax.specs.Tree.{{AssignS, CallS, DoS, WhileS, RepeatS, IfS, IfElseS, CountS, CountByS, EachS, LocalFunctionS, LocalS, ReturnS, BreakS}}
use Rattle.lua_syntax.specs.View.{{exps_of, fields_of, arms_of, stats_of}}
use Rattle.page_run.specs.declared.which.Which.TheVariants.{{Steps, Calls}}
{questions}use Rattle.lua_meaning.specs.Trial.{{Gives, Fails, Spends, Loads, Asks, without_steps, arg, invoke_module, invoke_with_calls, invoke_with_args, load_module, invoke_fault, count_nodes, notes_of, named, module_text, template_title, module_title, own_scene, scene_in_template, reply, exhausts, invoke_in_template}}

"""

QUESTIONS = """use Rattle.wk_base.specs.declared.title.Namespace.TheVariants.{Main}
use Rattle.mw_frame.specs.declared.question.Ask.TheVariants.{Template, Preprocess, Data}
use Rattle.lua_heap.specs.Value.{Nil, Truth, Number, Text, Table}
use Rattle.lua_meaning.specs.Questions.{Expanded, NoPage, Loaded, LoadFailed}
"""

PROOF_HEAD = """-- {subject} They compute.
use Rattle.std.proofs.Common.{{refl}}
use Rattle.page_run.specs.Perform.{{perform}}
use Rattle.page_run.specs.Trace.{{trace}}
use Rattle.wk_base.specs.Titles.{{title_text, prefix_of, title_of, namespace_named, prefixed_namespaces}}
use Rattle.std.specs.Fmt.{{digits}}
use Rattle.std.specs.Str.{{is_utf8, chars}}
use Rattle.std.specs.Char.{{encode_utf8}}
use lib.Utf8.{{encode}}
use lib.Count.{{count_leading_zeros}}
use Rattle.lua_number.specs.Numerals.{{decimal_of, numeral_of, trimmed, digits_of_base, read_number_of, read_in_base_of}}
use Rattle.lua_pattern.specs.Texts.{{point_code}}
use Rattle.lua_format.specs.Directives.{{directive_of}}
use Rattle.lua_format.specs.Layouts.{{filled}}
use Rattle.lua_format.specs.Format.{{formatted}}
use Rattle.mw_text.specs.References.{{numbered}}
use Rattle.mw_text.specs.Split.{{parts_of}}
use Rattle.mw_html.specs.Names.{{closes_itself}}
use Rattle.mw_html.specs.Render.{{node}}
use Rattle.lua_meaning.specs.HtmlNodes.{{root_by}}
use Rattle.lua_meaning.specs.{module}.{{{names}}}
"""

UNFOLDING = "unfolding perform digits title_text prefix_of decimal_of numeral_of trimmed digits_of_base read_number_of read_in_base_of"
TITLES = " title_of namespace_named prefixed_namespaces is_utf8 chars encode"
MARKUP = " closes_itself node root_by"
LIBRARIES = " formatted directive_of filled count_leading_zeros is_utf8 chars encode_utf8 point_code numbered parts_of"

FURTHER = {"ExampleLibraries": LIBRARIES, "ExampleReplacing": LIBRARIES, "ExampleMarkup": MARKUP}


def codes(text):
    escaped = text.replace("\\", "\\\\").replace('"', '\\"').replace("\n", "\\n")
    return f'(codes "{escaped}")' if text else "[]"


def comment(text):
    return "\n".join(("--     " + line).rstrip() for line in text.split("\n"))


def shown(end):
    kind, *rest = end
    if kind == "Counts":
        return str(rest[0])
    if kind == "Notes":
        return rows(f"named {codes(source)} {codes(name)}" for source, name in rest[0])
    if kind == "Asks":
        return f"Asks ({rest[0]}) {rest[1]}"
    if kind in ("Spends", "Loads"):
        return " ".join(map(str, [kind, *rest]))
    return f"{kind} {codes(rest[0])} {rest[1] if len(rest) > 1 else 0}"


def called(example, step):
    title, size, name = codes(example["module"]), len(example["text"].encode()), example["block"]
    if example["cases"]:
        texts = rows(f"module_text {codes(k)} {len(v.encode())} {name}{n or ''}" for n, (k, v) in enumerate(modules_of(example)))
        args = rows(f"arg {codes(k)} {codes(v)}" for k, v in example["args"] or [])
        return f"invoke_in_template {texts} {args} {codes(example['invoked'] or example['module'])} {step[0]} {rows(step[1])}"
    if example["fault"]:
        kind, line = example["fault"]
        return f"invoke_fault {title} {size} {kind} {line} {step}"
    if example["args"]:
        args = rows(f"arg {codes(k)} {codes(v)}" for k, v in example["args"])
        return f"invoke_with_args {args} 20000 {title} {size} {name} {step}"
    if example["calls"]:
        return f"invoke_with_calls {example['calls']} {title} {size} {name} {step}"
    return f"{example['how']} {title} {size} {name} {step}"


def modules_of(example):
    return [(example["module"], example["text"]), *(example["others"] or {}).items()]


def spec(example):
    name, title = example["block"], example["name"].replace("_", " ").title().replace(" ", "")
    claims = []
    for step, end in zip(example["steps"], example["seen"]):
        exact = end[0] in ("Spends", "Loads", "Counts", "Notes", "Asks") or len(end) > 2
        call = called(example, step)
        claims.append(f"{call} ≡ {shown(end)}" if exact else f"without_steps ({call}) ≡ {shown(end)}")
    claim = claims[0] if len(claims) == 1 else " × ".join(f"({c})" for c in claims)
    said = example["said"].replace("\n", "\n-- ")
    head = f"-- {said}\n{comment(example['text'])}\n"
    term = "" if example["fault"] else f"abbrev pub {name} : Block\n{name} = {tree(example['text'])}\n\n"
    for n, (module, text) in enumerate(modules_of(example)):
        if n:
            term += f"-- and Module:{module}\n{comment(text)}\nabbrev pub {name}{n} : Block\n{name}{n} = {tree(text)}\n\n"
    return head + term + f"abbrev pub {title} : Type 0\n{title} = {claim}\n", title, len(claims)


def needed(head, rest):
    """The `use` lines of a head, without the names that the rest of the file has not."""
    lines = []
    for line in head.split("\n"):
        found = re.match(r"(use .*\.)\{(.*)\}$", line)
        if found:
            names = [name for name in found[2].split(", ") if seen_in(name, rest)]
            line = f"{found[1]}{{{', '.join(names)}}}" if names else None
        elif line.startswith("use ") and not seen_in(line.split()[-1], rest):
            line = None
        if line is not None:
            lines.append(line)
    return "\n".join(lines)


def seen_in(name, rest):
    code = re.sub(r"(?m)^ *--.*$|\"(?:\\\\.|[^\"])*\"", "", rest)
    word = name.split(" as ")[-1].replace("◌", "")
    return word in code if not word[0].isalpha() else re.search(rf"(?<![\w.]){word}(?!\w)", code) is not None


def write(module, subject, examples):
    specs, proofs, titles = [], [], []
    for example in examples:
        text, title, count = spec(example)
        specs.append(text)
        titles.append(title)
        proof = "refl" if count == 1 else "(" + ", ".join(["refl"] * count) + ")"
        unfolding = UNFOLDING + (TITLES if example["cases"] else " trace" if example["how"] == "notes_of" else FURTHER.get(module, ""))
        proofs.append(f"\n{example['name']} : {title}\n{unfolding}\n{example['name']} = {proof}\n")
    every = "All" + module.removeprefix("Example")
    specs.append(f"-- ALL OF THEM\nabbrev pub {every} : Type 0\n{every} =\n    " + "\n    × ".join(titles) + "\n")
    proofs.append(f"\npub {every.lower()[:3]}_{every.lower()[3:]} : {every}\n{every.lower()[:3]}_{every.lower()[3:]} = ("
                  + ", ".join(example["name"] for example in examples) + ")\n")
    (CRATE / "specs" / f"{module}.antt").write_text(
        needed(HEAD.format(subject=subject, questions=QUESTIONS), "\n".join(specs)) + "\n".join(specs))
    (CRATE / "proofs" / f"{module}Laws.antt").write_text(
        needed(PROOF_HEAD.format(subject=subject, module=module, names=", ".join(titles + [every])), "".join(proofs)) + "".join(proofs))


HARNESS = """
local text, name = ...
local function run()
  local chunk, fault = loadstring(text, '=Module:' .. name)
  if not chunk then error(fault, 0) end
  local module = chunk()
  local values, out = {n = 0}, ''
  local function keep(...) values = {n = select('#', ...), ...} end
  keep(module.f({}))
  for i = 1, values.n do out = out .. tostring(values[i]) end
  return out
end
local ok, out = pcall(run)
io.write(ok and 'Gives ' or 'Fails ', tostring(out))
"""


def check_tree(example):
    """Whether the text is read alike by lua_reference.py; a difference is printed."""
    read, fault = answer(example["text"]), example["fault"]
    wanted = f"fault {fault[0]} line {fault[1]}" if fault else other_tree(example["text"])
    if read != wanted:
        print(f"{example['name']}: {wanted} here, {read} in lua_reference.py")
    return read == wanted


def check(example):
    """Whether Lua 5.1 has the same result, where it is to; a difference is printed."""
    if example["profile"] or example["cases"]:
        return True
    done = subprocess.run(["lua5.1", "-", example["text"], example["module"]], input=HARNESS, capture_output=True, text=True)
    kind, text = example["seen"][0][:2]
    wanted = f"{kind} {text}".replace("Fails Lua error: ", "Fails ")
    if done.stdout != wanted:
        print(f"{example['name']}: {wanted!r} here, {done.stdout!r} in lua5.1 {done.stderr}")
    return done.stdout == wanted


def check_all():
    every = [example for _, _, examples in FILES for example in examples]
    compared = [example for example in every if not (example["profile"] or example["cases"])]
    wrong = sum(not (check_tree(example) and check(example)) for example in every)
    print(f"{len(every)} examples, {len(compared)} of them compared with lua5.1, {wrong} differ")
    return bool(wrong)


if __name__ == "__main__":
    if "--check" in sys.argv:
        sys.exit(check_all())
    for module, subject, examples in FILES:
        write(module, subject, examples)
