#!/usr/bin/env python3
"""What a crate does not list, one that it lists passes on: the lines of that, and the paths in the texts.

  bench/pass_on.py            writes the lines and paths that the lists of crates.txt ask for, and lays out what it changed
  bench/pass_on.py --check    writes nothing, and tells what a run would change; the status is 1 where it would change anything
  bench/pass_on.py --lines    prints what each crate passes on, with a + where it does not name that itself

The rule. A text names what its crate lists by its own path. What stands in a crate further down it names through a crate
that it lists, and that passes on just what is named above it, file by file and name by name:

  crates.txt has              mid: low          top: mid
  specs/Lib.antt of mid has   pub use Rattle.low.specs.Grid as LowGrid       (proofs/Lib.antt the same of lemmas)
  src/lib.rt of mid has       pub use low::Place;
  so a text of top writes     use Rattle.mid.specs.LowGrid.{area}            use mid::Place;

Write `Rattle.low.specs.Grid` and `low::Place` in a new text, or change a list, and this does the rest: it follows each path
down its lines to where the thing stands, finds the way to it through the lists, and writes both anew. A second run changes
nothing. Where a crate already says a name that it would pass on, the name of the home stands before it: `low_place`, `LowPlace`.

A library holds what it passes on, with all that this reaches. That costs nothing where its own statements name it anyway, and
much where a type of code comes with its fields and methods: so a crate of laws, which holds none, passes on no code. List the
home of what is dear, as long as there are not more than MOST_PATHS paths from crate to crate, since some tools read all texts
once for each of them.

Three things are not passed on, so a crate lists their home: types that hold themselves, and what holds them (TREES; a function
with one of them in its signature is refused else, and so is one with a type of another crate that holds one); what a
`#[tactic(..)]` names; and a module whose functions are written through it.
"""
import collections
import functools
import os
import re
import subprocess
import sys

TOP = os.path.dirname(os.path.dirname(os.path.abspath(__file__)))
MOST_PATHS = 60_000
TREES = {
    "lua_syntax": {"Arm", "Block", "Chunk", "Expr", "ExprKind", "Field", "Function", "Stat", "StatKind"},
    "lua_code": {"Branch", "Entry", "Expression", "Module", "Modules", "Proto", "Protos", "Statement", "Target"},
}

# A thing that texts of other crates name: part is "specs", "proofs" or "src", and path a module of antt or an item of code.
Thing = collections.namedtuple("Thing", "part home path")
# One place in a text that names it: where, the crate through which it does so and the words behind that; `rest` is what
# follows the item (the variants of an enum), `name` what a `use` line calls it.
Place = collections.namedtuple("Place", "start end thing through words rest name")


def text_of(file):
    with open(f"{TOP}/{file}", encoding="utf-8", newline="") as it:
        return it.read()


def camel(words):
    return "".join(it[:1].upper() + it[1:] for it in re.split(r"[._]", words))


# ------------------------------------------------------------------------------------------------ crates.txt

def read_lists():
    lists = {}
    for line in text_of("crates.txt").split("\n"):
        head, colon, names = line.partition("#")[0].partition(":")
        if colon:
            lists[head.split()[0]] = names.split()
    return lists


LISTED = read_lists()
CRATES = [*LISTED]
RANK = {it: at for at, it in enumerate(CRATES)}


def root_of(crate):
    is_program = os.path.isfile(f"{TOP}/crates/{crate}/src/main.rt")
    return f"crates/{crate}/src/{'main' if is_program else 'lib'}.rt"


def paths_of(lists):
    """How many paths lead down from each crate."""
    found = {}
    for it in in_order(lists):
        found[it] = 1 + sum(found[x] for x in lists[it])
    return found


def in_order(lists):
    """The crates, each behind those that it lists."""
    found = {}

    def add(crate):
        if crate not in found:
            for it in sorted(lists[crate], key=RANK.get):
                add(it)
            found[crate] = True

    for it in CRATES:
        add(it)
    return [*found]


def below_of(lists):
    found = {}
    for it in in_order(lists):
        found[it] = frozenset(lists[it]).union(*[found[x] for x in lists[it]])
    return found


# ------------------------------------------------------------------------------------------------ reading texts

RUST_SPARE = re.compile(r"""//[^\n]*|/\*.*?\*/|b?r(?P<h>#*)".*?"(?P=h)|b?"(?:\\.|[^"\\])*"|b?'(?:\\(?:x[0-9a-fA-F]{2}|u\{[^}]*\}|.)|[^\\'\n])'""", re.S)
ANTT_SPARE = re.compile(r"(?m)(?:^|(?<=[\s(){}]))--(?=[\s-]|$)[^\n]*|\{-.*?-\}", re.S)
GHOST = re.compile(r"(?<![\w.])Rattle\.(\w+)\.(specs|proofs)\.([\w.]*\w)")
USE = re.compile(r"(?<!ghost )\buse\s+((\w+)\s*::[^;]*);")
CODE = re.compile(r"(?<![\w.:])(\w+)((?:\s*::\s*\w+)+)")
TACTIC = re.compile(r"#!?\[\s*tactic\s*\([^\]]*\]")
GHOST_LINE = re.compile(r"(?m)^pub use Rattle\.(\w+)\.(specs|proofs)\.([\w.]+) as (\w+)\n")
CODE_LINE = re.compile(r"(?m)^pub use ((\w+)::[^;]*);\n")
EDIT_LINE = re.compile(r"((?:    )?(file|old|new): ?)(.*)")


def blanked(file, text):
    """The text with comments, and in code strings, as blanks, so that what is found stands where it stood."""
    spare = RUST_SPARE if file.endswith(".rt") else ANTT_SPARE
    return spare.sub(lambda it: re.sub(r"[^\n]", " ", it[0]), text)


def leaves(tree, before=""):
    """The paths of a `use` tree, each with the name that `as` gives it."""
    tree = tree.strip()
    head, brace, body = tree.partition("{")
    if not brace:
        path, _, name = tree.partition(" as ")
        return [(before + re.sub(r"\s", "", path), name.strip())]
    parts, deep = [""], 0
    for it in body[: body.rindex("}")]:
        deep += {"{": 1, "}": -1}.get(it, 0)
        if it == "," and not deep:
            parts.append("")
        else:
            parts[-1] += it
    before += re.sub(r"\s", "", head)
    return [leaf for it in parts if it.strip() for leaf in leaves(re.sub(r"\s+", " ", it), before)]


def files_of(crate):
    for part in ("src", "specs", "proofs"):
        for at, folders, names in os.walk(f"{TOP}/crates/{crate}/{part}"):
            folders.sort()
            yield from (os.path.relpath(f"{at}/{it}", TOP) for it in sorted(names) if it.endswith((".rt", ".antt")))


def edits_of(crate):
    folder = f"{TOP}/crates/{crate}/must-fail"
    for name in sorted(os.listdir(folder)) if os.path.isdir(folder) else ():
        if name.endswith(".edit") or name in ("tried.md", "untried.md"):
            yield os.path.relpath(f"{folder}/{name}", TOP)


def is_module(crate, words):
    at = f"{TOP}/crates/{crate}/src/{'/'.join(words)}"
    return os.path.isfile(f"{at}.rt") or os.path.isdir(at)


def without_code_lines(text):
    """The text without its lines of passing on, and those: the crate and the words behind it, by name."""
    lines = {}

    def taken(it):
        if it[2] not in RANK:
            return it[0]
        for path, name in leaves(it[1]):
            _, *words = path.split("::")
            lines[name or words[-1]] = (it[2], words)
        return ""

    return CODE_LINE.sub(taken, text), lines


class House:
    """All texts, with what they name: `lines` has what each crate passes on, by part and name."""

    def __init__(self):
        self.texts = {it: {file: text_of(file) for file in [*files_of(it), *edits_of(it)]} for it in CRATES}
        self.lines = {it: {"specs": {}, "proofs": {}, "src": {}} for it in CRATES}
        for crate in CRATES:
            self.take_lines(crate)
        self.named = {it: set() for it in CRATES}
        self.stated = {it: set() for it in CRATES}
        self.must_list = {it: set() for it in CRATES}
        self.laws = {it for it in CRATES if self.is_of_laws(it)}
        for crate in CRATES:
            for file, text in self.texts[crate].items():
                for path, piece, _ in pieces(file, text):
                    self.note(crate, path, piece, "/must-fail/" in file)

    def is_of_laws(self, crate):
        """Whether each function of the crate has an empty body: its library holds no types of code, and passes on none."""
        text = "".join(blanked(file, it) for file, it in self.texts[crate].items() if file.endswith(".rt"))
        return len(re.findall(r"(?<![\w.])fn\s+\w+", text)) == len(re.findall(r"\{\s*\}", text))

    def take_lines(self, crate):
        """Takes the lines of passing on out of the texts."""
        for part in ("specs", "proofs"):
            file = f"crates/{crate}/{part}/Lib.antt"
            text = self.texts[crate].setdefault(file, "")
            for it in GHOST_LINE.finditer(text):
                self.lines[crate][part][it[4]] = (it[1], it[3])
            self.texts[crate][file] = GHOST_LINE.sub("", text)
        file = root_of(crate)
        self.texts[crate][file], self.lines[crate]["src"] = without_code_lines(self.texts[crate][file])

    def home_of_ghost(self, crate, part, path):
        first, _, rest = path.partition(".")
        if first in self.lines[crate][part]:
            through, module = self.lines[crate][part][first]
            return self.home_of_ghost(through, part, f"{module}.{rest}" if rest else module)
        return Thing(part, crate, path)

    def home_of_code(self, crate, words):
        """The item at these words of the crate (all up to the first type), and the words behind it."""
        if words[0] in self.lines[crate]["src"]:
            through, more = self.lines[crate]["src"][words[0]]
            return self.home_of_code(through, [*more, *words[1:]])
        ends = next((at for at, it in enumerate(words) if it[:1].isupper()), len(words) - 1) + 1
        return Thing("src", crate, "::".join(words[:ends])), words[ends:]

    def places(self, crate, path, text):
        """The places of the text that name things of other crates; those of one `use` line of code have its span."""
        spare = blanked(path, text)
        for it in GHOST.finditer(spare):
            if it[1] in RANK and it[1] != crate:
                thing = self.home_of_ghost(it[1], it[2], it[3])
                yield Place(it.start(), it.end(), thing, it[1], it[3], "", "")
        if not path.endswith(".rt"):
            return
        spare = re.sub(r"ghost use [^;]*;", blank, TACTIC.sub(blank, spare))
        # (a module of one's own may be called as a crate is)
        others = RANK.keys() - {crate, *re.findall(r"\bmod (\w+);", spare)}
        for it in USE.finditer(spare):
            if it[2] in others:
                for leaf, name in leaves(it[1]):
                    _, *words = leaf.split("::")
                    thing, rest = self.home_of_code(it[2], words)
                    yield Place(it.start(), it.end(), thing, it[2], words, rest, name or words[-1])
        for it in CODE.finditer(USE.sub(blank, spare)):
            if it[1] in others:
                words = re.findall(r"\w+", it[2])
                thing, rest = self.home_of_code(it[1], words)
                yield Place(it.start(), it.end(), thing, it[1], words, rest, None)

    def note(self, crate, path, text, is_edit):
        for it in self.places(crate, path, text):
            home = it.thing.home
            if it.thing.part != "src":
                is_stated = not is_edit and "/proofs/" not in path
            else:
                is_stated = not is_edit
                is_tree = it.thing.path in TREES.get(home, ())
                if is_tree or it.name == "self" or is_module(home, it.thing.path.split("::")):
                    self.must_list[crate].add(home)
            if home != crate:
                self.named[crate].add(it.thing)
                if is_stated:
                    self.stated[crate].add(it.thing)
        if path.endswith(".rt"):
            for words in TACTIC.findall(blanked(path, text)):
                self.must_list[crate] |= {it[1] for it in CODE.finditer(words) if it[1] in RANK} - {crate}


def blank(found):
    return re.sub(r"[^\n]", " ", found[0])


def pieces(file, text):
    """Yields the parts of a file that are texts of a crate, each with the path of that text and where it begins: all of it, or
    the old and new lines of an edit."""
    if "/must-fail/" not in file:
        yield file, text, 0
        return
    path, at = "", 0
    for line in text.split("\n"):
        it = EDIT_LINE.fullmatch(line)
        if it and it[2] == "file":
            path = "/" + it[3].strip()
        elif it:
            yield path, it[3], at + it.start(3)
        at += len(line) + 1


# ------------------------------------------------------------------------------------------------ ways

class Ways:
    """With these lists: what each crate passes on, from which of those that it lists it has that, and under which name."""

    def __init__(self, house, lists):
        self.house, self.lists, self.below = house, lists, below_of(lists)
        self.codes = {}
        for it in in_order(lists):
            of = [self.codes[x] | {x} for x in lists[it]]
            self.codes[it] = frozenset() if it in house.laws else frozenset().union(*of)
        self.passes = {it: {} for it in CRATES}
        self.through = {it: {} for it in CRATES}
        for crate in reversed(in_order(lists)):
            listed = [*lists[crate]]
            for thing in sorted(house.named[crate] | {*self.passes[crate]}):
                if thing.home not in listed and thing.home != crate:
                    self.take(crate, thing, listed)

    def take(self, crate, thing, listed):
        """The way is through one that passes the thing on anyway, else through one that states it, else through the lowest."""
        reach = self.codes if thing.part == "src" else self.below
        fit = [it for it in listed if thing.home in reach[it]]
        assert fit, f"{crate} must list {thing.home}, or a crate that passes on its {thing.path}"
        stated = self.house.stated
        way = min(fit, key=lambda it: (thing not in self.passes[it], thing not in stated[it], len(self.below[it]), RANK[it]))
        self.passes[way][thing] = True
        self.through[crate][thing] = way

    @functools.lru_cache(maxsize=None)
    def names(self, crate):
        """The names under which a crate passes things on."""
        root = blanked(root_of(crate), self.house.texts[crate][root_of(crate)])
        said = {*re.findall(r"\b(?:mod|fn|struct|enum|trait|type|const|static) (\w+)", root)}
        said |= {leaf.split("::")[-1] for it in re.findall(r"(?<!ghost )\buse ([^;]*);", root) for leaf, _ in leaves(it)}
        last = {it: it.path.split("::")[-1] for it in self.passes[crate] if it.part == "src"}
        counts = collections.Counter(last.values())
        found = {}
        for it in self.passes[crate]:
            if it.part != "src":
                found[it] = camel(f"{it.home}.{it.path}")
            elif last[it] not in said and counts[last[it]] == 1:
                found[it] = last[it]
            else:
                whole = f"{it.home}_{it.path.replace('::', '_')}"
                found[it] = camel(whole) if last[it][:1].isupper() else whole
        assert len({(it.part, name) for it, name in found.items()}) == len(found), f"{crate} passes on two things under one name"
        return found

    def words_to(self, crate, thing):
        """The crate through which a text of the crate names the thing, and the words behind that."""
        if thing.home == crate or thing.home in self.lists[crate]:
            return thing.home, thing.path
        way = self.through[crate][thing]
        return way, self.names(way)[thing]

    # ---------------------------------------------------------------- writing

    def lines_of(self, crate, part):
        by = collections.defaultdict(list)
        for thing, name in self.names(crate).items():
            way, words = self.words_to(crate, thing)
            if thing.part != part:
                continue
            if part != "src":
                by[f"pub use Rattle.{way}.{part}.{words} as {name}"] = None
            else:
                before, _, last = f"{way}::{words}".rpartition("::")
                by[before].append(last if last == name else f"{last} as {name}")
        if part != "src":
            return "".join(f"{it}\n" for it in sorted(by))
        return "".join(f"pub use {before}::{braced(sorted(by[before]))};\n" for before in sorted(by))

    def rewritten(self, crate, path, text):
        changes = collections.defaultdict(list)
        for it in self.house.places(crate, path, text):
            changes[it.start, it.end].append((it, *self.words_to(crate, it.thing)))
        for (start, end), found in sorted(changes.items(), reverse=True):
            new = self.written(found, text, start)
            if new:
                text = text[:start] + new + text[end:]
        return text

    def written(self, found, text, start):
        """What stands where these things are named; None where that stays."""
        it, way, words = found[0]
        if it.thing.part != "src":
            return None if (way, words) == (it.through, it.words) else f"Rattle.{way}.{it.thing.part}.{words}"
        paths = [(way, [*words.split("::"), *it.rest]) for it, way, words in found]
        if all(path == (it.through, it.words) for path, (it, _, _) in zip(paths, found)):
            return None
        if it.name is None:
            return "::".join([paths[0][0], *paths[0][1]])
        by = collections.defaultdict(list)
        for (it, _, _), (way, words) in zip(found, paths):
            by["::".join([way, *words[:-1]])].append(words[-1] if words[-1] == it.name else f"{words[-1]} as {it.name}")
        indent = re.search(r"[ \t]*$", text[:start])[0]
        return f"\n{indent}".join(f"use {before}::{braced(sorted(names))};" for before, names in by.items())

    def wanted(self):
        """Each file, by its path, with the text that it is to have (None where there is to be none)."""
        found = {}
        for crate in CRATES:
            for file, text in self.house.texts[crate].items():
                for path, piece, at in [*pieces(file, text)][::-1]:
                    new = self.rewritten(crate, path, piece)
                    if "/must-fail/" in file:
                        new = new.replace("\n", " ")
                    text = text[:at] + new + text[at + len(piece) :]
                lib = re.fullmatch(rf"crates/{crate}/(specs|proofs)/Lib\.antt", file)
                if lib:
                    head = re.match(r"(?:--[^\n]*\n)*", text)[0]
                    text = head + self.lines_of(crate, lib[1]) + text[len(head) :]
                elif file == root_of(crate):
                    text = with_code_lines(text, self.lines_of(crate, "src"))
                found[file] = text or None
        return found


def braced(names):
    return names[0] if len(names) == 1 else f"{{{', '.join(names)}}}"


def with_code_lines(text, lines):
    """The root file's text with its lines of passing on: before its first `pub use`, else behind its last `mod`."""
    if not lines:
        return text
    spare = blanked("lib.rt", text)
    first = re.search(r"(?m)^(?:pub )?use ", spare)
    if first:
        return text[: first.start()] + lines + text[first.start() :]
    heads = [*re.finditer(r"(?m)^(?:(?:pub )?mod \w+;|#!\[[^\n]*\]|ghost use [^;]*;)[ ]*\n", spare)]
    at = heads[-1].end() if heads else 0
    rest = text[at:].lstrip("\n")
    return text[:at].rstrip("\n") + "\n\n" + lines + ("\n" + rest if rest else "")


# ------------------------------------------------------------------------------------------------ the run

def write(file, text):
    if text is None:
        os.remove(f"{TOP}/{file}")
        return
    os.makedirs(os.path.dirname(f"{TOP}/{file}"), exist_ok=True)
    with open(f"{TOP}/{file}", "w", encoding="utf-8", newline="") as it:
        it.write(text)


def main(words):
    house = House()
    lists = {it: tuple(x for x in LISTED[it] if x in RANK) for it in CRATES}
    missing = [f"{it} must list {x}" for it in CRATES for x in sorted(house.must_list[it] - {*lists[it], it})]
    ways = Ways(house, lists)
    lines = [(crate, it) for crate in CRATES for it in ways.passes[crate]]
    bring = [it for crate, it in lines if it not in house.stated[crate]]
    paths = sum(paths_of(lists).values())
    print(f"{sum(map(len, lists.values()))} names, {paths} paths, {len(lines)} lines ({sum(it.part == 'src' for _, it in lines)} of code)")
    print(f"{len(bring)} of them ({sum(it.part == 'src' for it in bring)} of code) bring what the crate does not name itself")
    if paths > MOST_PATHS:
        missing.append(f"more than {MOST_PATHS} paths")
    if "--lines" in words:
        print(*[f"{crate}: {' '.join(it)}{' +' * (it not in house.stated[crate])}" for crate, it in lines], sep="\n")
        return 0
    wanted = ways.wanted()
    now = lambda file: text_of(file) if os.path.isfile(f"{TOP}/{file}") else None
    changed = [file for file, text in wanted.items() if same(file, now(file)) != same(file, text)]
    print(*missing, f"{len(changed)} files are not what crates.txt and the texts ask for", sep="\n")
    if "--check" in words:
        print(*changed, sep="\n")
    if "--check" in words or missing:
        return 1 if changed or missing else 0
    for file in changed:
        write(file, wanted[file])
    for crate in sorted({it.split("/")[1] for it in changed if it.endswith((".rt", ".antt"))}, key=RANK.get):
        ran = subprocess.run(["rt", "fmt"], cwd=f"{TOP}/crates/{crate}", capture_output=True, text=True)
        if ran.returncode:
            print(f"rt fmt in {crate}: {ran.stdout[-300:]}{ran.stderr[-300:]}")
            return 1
    return 0


def same(file, text):
    """What of a text counts: the layout does not, nor how `rt fmt` joins the lines of a root file."""
    rest, lines = without_code_lines(text or "") if file.endswith("/lib.rt") else (text or "", {})
    return text and (re.sub(r"\s+", "", rest), sorted(lines.items()))


if __name__ == "__main__":
    sys.exit(main(sys.argv[1:]))
