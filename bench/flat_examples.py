#!/usr/bin/env python3
"""Writes the worked examples of `lua_flat`: the resolved code of the worked examples of `lua_slots`, made into flat code.

    flat_examples.py           writes specs/Example*.antt of crates/lua_flat, next to this checkout's crates

The maker here is a model of one in the program: what it makes is what `IsExpression.antt` and `IsStatement.antt` say.
"""
import pathlib
import re

CRATES = pathlib.Path(__file__).resolve().parent.parent / "crates"
MARKS = "()[];{}"


# TERMS of the definitions, as nested tuples: a name alone is a string

def tokens(text):
    return re.findall(r'"(?:\\.|[^"\\])*"|[()\[\]]|[^\s()\[\]"]+', text)


class Terms:
    def __init__(self, text):
        self.left = tokens(text)

    def peek(self):
        return self.left[0] if self.left else None

    def atom(self):
        token = self.left.pop(0)
        if token == "(":
            term = self.term()
            assert self.left.pop(0) == ")"
            return term
        if token == "[":
            assert self.left.pop(0) == "]"
            return "[]"
        return token

    def applied(self):
        head = self.atom()
        parts = [head]
        while self.peek() not in (None, ")", "∷"):
            parts.append(self.atom())
        return head if len(parts) == 1 else tuple(parts)

    def term(self):
        head = self.applied()
        if self.peek() == "∷":
            self.left.pop(0)
            return ("∷", head, self.term())
        return head


def items(term):
    found = []
    while term != "[]":
        assert term[0] == "∷", term
        found.append(term[1])
        term = term[2]
    return found


def listed(term, more, none):
    found = []
    while term != none:
        assert term[0] == more, term
        found.append(term[1])
        term = term[2]
    return found


def shown(term):
    if isinstance(term, int):
        return str(term)
    if isinstance(term, str):
        return term
    if isinstance(term, list):
        return "(" + " ∷ ".join([shown(it) for it in term] + ["[]"]) + ")" if term else "[]"
    if term[0] == "∷":
        return f"({shown(term[1])} ∷ {shown(term[2])})"
    return "(" + " ".join(shown(it) for it in term) + ")"


# THE MAKER

class Label:
    def __init__(self):
        self.at = None


def comparison(op):
    return op in ("Less", "Greater", "AtMost", "AtLeast", "Equal", "Unequal")


def shown_locals(found):
    return "(" + " ∷ ".join([f"{kind} {r}" for kind, r in found] + ["[]"]) + ")" if found else "[]"


class Maker:
    def __init__(self, flags, dots, body):
        self.flags, self.dots, self.code = flags, dots, body
        self.steps, self.pending, self.registers = [], 0, len(flags)
        self.away = []
        count = len(flags)
        locals_ = list(reversed(range(count)))
        self.inner, self.behind, self.body = self.block(body, locals_, count)
        self.emit("ReturnF", 0, ("Exactly", 0))

    def emit(self, name, *args, line=0):
        self.steps.append([self.pending, name, list(args), line])
        self.pending = 0

    def here(self, label):
        label.at = len(self.steps)

    def takes(self, register):
        self.registers = max(self.registers, register + 1)

    # expressions: each function tells the derivation that its code is code of what it is given

    def there(self, e, locals_):
        if isinstance(e, tuple) and e[0] == "LocalC" and e[1][0] == "Reg":
            return ("RegisterO", locals_[int(e[1][1])]), "(there_local refl)"
        if isinstance(e, tuple) and e[0] == "ConstantC":
            return ("ConstantO", e[1]), "there_constant"
        if isinstance(e, tuple) and e[0] == "TextC":
            return ("TextO", int(e[1])), "there_text"
        return None

    def operand(self, e, locals_, free):
        found = self.there(e, locals_)
        if found:
            self.pending += 1
            return found[0], free, f"(in_place {found[1]})"
        self.takes(free)
        said = self.value(e, free, locals_, free + 1)
        return ("RegisterO", free), free + 1, f"(made (omega arith) {said})"

    def origins(self, places, locals_):
        found, said = [], "no_origin"
        for place in reversed(places):
            if place[0] == "Box":
                found.insert(0, ("InRegister", locals_[int(place[1])]))
                said = f"(from_register refl {said})"
            elif place[0] == "Up":
                found.insert(0, ("InCaptured", int(place[1])))
                said = f"(from_captured {said})"
            else:
                said = f"(from_nothing {said})"
        return found, said

    def value(self, e, to, locals_, free):
        found = self.there(e, locals_)
        if found:
            self.pending += 1
            self.emit("LoadF", to, found[0])
            return f"(loaded {found[1]} refl)"
        kind = e if isinstance(e, str) else e[0]
        if kind in ("DotsC", "CallC", "MethodC"):
            return f"(first_of_many {self.many(e, to, ('Exactly', 1), locals_, free)})"
        self.pending += 1
        if kind == "FunctionC":
            origins, said = self.origins(items(e[2]), locals_)
            self.emit("ClosureF", to, int(e[1]), origins)
            return f"(closure_of {said} refl)"
        if kind == "LocalC" and e[1][0] == "Box":
            self.emit("GetCellF", to, locals_[int(e[1][1])])
            return "(cell_of refl refl)"
        if kind == "LocalC":
            self.emit("GetUpF", to, int(e[1][1]))
            return "(captured_of refl)"
        if kind == "GlobalC":
            self.emit("GetGlobalF", to, int(e[1]), line=int(e[2]))
            return "(global_of (refl, refl))"
        if kind == "IndexC":
            a, next_, x = self.operand(e[1], locals_, free)
            b, next_, y = self.operand(e[2], locals_, next_)
            self.emit("IndexF", to, a, b, line=int(e[3]))
            return f"(index_of {x} {y} (refl, refl))"
        if kind == "OperateC":
            a, next_, x = self.operand(e[2], locals_, free)
            b, next_, y = self.operand(e[3], locals_, next_)
            self.emit("OperateF", e[1], to, a, b, line=int(e[4]))
            return f"(operate_of {x} {y} (refl, refl))"
        if kind == "UnaryC":
            a, next_, x = self.operand(e[2], locals_, free)
            self.emit("UnaryF", e[1], to, a, line=int(e[3]))
            return f"(unary_of {x} (refl, refl))"
        if kind in ("AndC", "OrC"):
            end = Label()
            x = self.value(e[1], to, locals_, free)
            self.emit("TestF", "true" if kind == "OrC" else "false", ("RegisterO", to), end)
            y = self.value(e[2], to, locals_, free)
            self.here(end)
            return f"({'or_of' if kind == 'OrC' else 'and_of'} {x} refl {y})"
        if kind == "ParenC":
            return f"(paren_of {self.value(e[1], to, locals_, free)})"
        assert kind == "TableC" and to < free, e
        self.emit("TableF", to)
        return f"(table_of (omega arith) (omega arith) refl {self.fields(e[1], to, int(e[2]), locals_, free)})"

    def many(self, e, to, wanted, locals_, free):
        kind = e if isinstance(e, str) else e[0]
        self.pending += 1
        if kind == "DotsC":
            self.emit("DotsF", to, wanted)
            return "(dots_of refl)"
        if kind == "CallC":
            self.takes(free)
            f = self.value(e[1], free, locals_, free + 1)
            count, row = self.row(listed(e[2], "MoreC", "NoC"), free + 1, locals_)
            self.emit("CallF", to, free, count, wanted, line=int(e[3]))
            return f"(call_of (omega arith) {f} {row} (refl, refl))"
        self.takes(free + 1)
        o, _, x = self.operand(e[1], locals_, free + 1)
        self.emit("MethodF", free, o, int(e[2]), line=int(e[4]))
        count, row = self.row(listed(e[3], "MoreC", "NoC"), free + 2, locals_)
        count = "Every" if count == "Every" else ("Exactly", count[1] + 1)
        self.emit("CallF", to, free, count, wanted, line=int(e[4]))
        return f"(method_of (omega arith) {x} (refl, refl) {row} (refl, refl))"

    def is_many(self, e):
        return e == "DotsC" or e[0] in ("CallC", "MethodC")

    def row(self, es, r, locals_):
        if not es:
            return ("Exactly", 0), "row_none"
        if len(es) == 1 and self.is_many(es[0]):
            return "Every", f"(row_many (omega arith) {self.many(es[0], r, 'Every', locals_, r)})"
        self.takes(r)
        x = self.value(es[0], r, locals_, r + 1)
        if len(es) == 1:
            return ("Exactly", 1), f"(row_one (omega arith) {x})"
        count, row = self.row(es[1:], r + 1, locals_)
        more = "Every" if count == "Every" else ("Exactly", count[1] + 1)
        return more, f"(row_more {{count = {shown(count)}}} (omega arith) {x} {row})"

    def exact(self, es, r, n, locals_):
        if not es:
            if not n:
                return "exact_none"
            self.takes(r + n - 1)
            self.emit("NilsF", r, n)
            return "(exact_nils refl)"
        if len(es) == 1 and self.is_many(es[0]):
            self.takes(r + n)
            return f"(exact_many (omega arith) {self.many(es[0], r, ('Exactly', n), locals_, r)})"
        self.takes(r)
        x = self.value(es[0], r, locals_, r + 1)
        if len(es) == 1 and n > 1:
            self.takes(r + n - 1)
            self.emit("NilsF", r + 1, n - 1)
            return f"(exact_one_nils {{n = {n - 1}}} (omega arith) {x} refl)"
        if len(es) == 1:
            return f"({'exact_one' if n else 'exact_dropped'} (omega arith) {x})"
        if n:
            return f"(exact_more {{n = {n - 1}}} (omega arith) {x} {self.exact(es[1:], r + 1, n - 1, locals_)})"
        return f"(exact_skips (omega arith) {x} {self.exact(es[1:], r, 0, locals_)})"

    def fields(self, fields, table, line, locals_, free, n=1):
        if fields == "NoFieldC":
            return "fields_end"
        if fields[0] == "ItemC":
            e, more = fields[1], fields[2]
            if more == "NoFieldC" and self.is_many(e):
                self.takes(free)
                x = self.many(e, free, "Every", locals_, free)
                self.emit("SetItemsF", table, n, free, line=line)
                return f"(field_items {x} (refl, refl))"
            o, _, x = self.operand(e, locals_, free)
            self.emit("SetFieldF", table, ("ConstantO", ("Number", ("pos", n))), o, line=line)
            return f"(field_item {x} (refl, refl) {self.fields(more, table, line, locals_, free, n + 1)})"
        key, e, more = fields[1], fields[2], fields[3]
        a, next_, x = self.operand(key, locals_, free)
        b, next_, y = self.operand(e, locals_, next_)
        self.emit("SetFieldF", table, a, b, line=line)
        return f"(field_pair {x} {y} (refl, refl) {self.fields(more, table, line, locals_, free, n)})"

    # tests: where the truth is not the one that falls through, it jumps

    def whole_test(self, e, miss, locals_, free):
        """A test of a statement, which falls through where it is true."""
        if e[0] == "ConstantC" and e[1] not in ("Nil", ("Truth", "false")):
            self.pending += 1
            return "(test_true refl)"
        hit = Label()
        said = self.test(e, hit, miss, "hit", locals_, free)
        self.here(hit)
        return said

    def test(self, e, hit, miss, falls, locals_, free):
        kind = e if isinstance(e, str) else e[0]
        other = "miss" if falls == "hit" else "hit"
        when, target = ("false", miss) if falls == "hit" else ("true", hit)
        if kind in ("AndC", "OrC"):
            self.pending += 1
            middle = Label()
            x = self.test(e[1], middle, miss, "hit", locals_, free) if kind == "AndC" else self.test(e[1], hit, middle, "miss", locals_, free)
            self.here(middle)
            y = self.test(e[2], hit, miss, falls, locals_, free)
            return f"({'test_and' if kind == 'AndC' else 'test_or'} {x} {y})"
        if kind == "UnaryC" and e[1] == "sign.Not":
            self.pending += 1
            return f"(test_not {self.test(e[2], miss, hit, other, locals_, free)})"
        if kind == "ParenC":
            self.pending += 1
            return f"(test_paren {self.test(e[1], hit, miss, falls, locals_, free)})"
        if kind == "OperateC" and comparison(e[1]):
            self.pending += 1
            a, next_, x = self.operand(e[2], locals_, free)
            b, next_, y = self.operand(e[3], locals_, next_)
            self.emit("CompareF", e[1], a, b, when, target, line=int(e[4]))
            return f"({'compare_miss' if falls == 'hit' else 'compare_hit'} refl {x} {y} (refl, refl))"
        o, _, x = self.operand(e, locals_, free)
        self.emit("TestF", when, o, target)
        return f"({'test_miss' if falls == 'hit' else 'test_hit'} {x} refl)"

    # statements

    def opening(self, flags, at):
        if "true" not in flags:
            return "(no_cells refl)"
        self.emit("OpenF", at, list(flags))
        return "(cells refl refl)"

    def block(self, b, locals_, free):
        """The registers of its variables at its end, the next free one, and its derivation."""
        if b == "EndC":
            return locals_, free, "block_end"
        if b[0] == "DeclareC":
            flags = items(b[1])
            self.pending += 1
            x = self.exact(listed(b[2], "MoreC", "NoC"), free, len(flags), locals_)
            self.takes(free + len(flags) - 1)
            y = self.opening(flags, free)
            inner, behind, rest = self.block(b[3], list(reversed(range(free, free + len(flags)))) + locals_, free + len(flags))
            return inner, behind, f"(block_declares (omega arith) {x} {y}\n      {rest})"
        if b[0] == "LocalFunctionC":
            self.pending += 1
            self.takes(free)
            origins, said = self.origins(items(b[3]), [free] + locals_)
            self.emit("NamedF", b[1], free, int(b[2]), origins)
            inner, behind, rest = self.block(b[4], [free] + locals_, free + 1)
            return inner, behind, f"(block_names (omega arith) {said} refl\n      {rest})"
        x = self.statement(b[1], locals_, free)
        inner, behind, rest = self.block(b[2], locals_, free)
        return inner, behind, f"(block_then {x}\n      {rest})"

    def variable(self, target, locals_):
        if target[0] == "PlaceC":
            kind, n = target[1][0], int(target[1][1])
            if kind == "Reg":
                return ("RegisterT", locals_[n]), "(plain_variable refl)"
            if kind == "Box":
                return ("CellT", locals_[n]), "(celled_variable refl)"
            return ("CapturedT", n), "captured_variable"
        return ("GlobalT", int(target[1]), int(target[2])), "global_variable"

    def setting(self, t, o):
        if t[0] == "RegisterT":
            self.emit("LoadF", t[1], o)
            return "(set_register refl)"
        if t[0] == "CellT":
            self.emit("SetCellF", t[1], o)
            return "(set_cell refl)"
        if t[0] == "CapturedT":
            self.emit("SetUpF", t[1], o)
            return "(set_captured refl)"
        if t[0] == "GlobalT":
            self.emit("SetGlobalF", t[1], o, line=t[2])
            return "(set_global (refl, refl))"
        self.emit("SetIndexF", t[1], t[2], o, line=t[3])
        return "(set_entry (refl, refl))"

    def writes_last(self, e):
        return e == "DotsC" or e[0] not in ("AndC", "OrC", "TableC", "ParenC")

    def assign(self, targets, es, locals_, free):
        if len(targets) == 1 and len(es) == 1 and targets[0] != "RefusedC":
            target, e = targets[0], es[0]
            if target[0] == "EntryC":
                self.pending += 1
                a, next_, x = self.operand(target[1], locals_, free)
                b, next_, y = self.operand(target[2], locals_, next_)
                o, next_, z = self.operand(e, locals_, next_)
                self.emit("SetIndexF", a, b, o, line=int(target[3]))
                return f"(assign_entry {x} {y} {z} (refl, refl))"
            t, x = self.variable(target, locals_)
            if t[0] == "RegisterT" and self.writes_last(e):
                return f"(assign_into refl refl {self.value(e, t[1], locals_, free)})"
            o, _, y = self.operand(e, locals_, free)
            return f"(assign_variable {x} {y} {self.setting(t, o)})"
        ts, found = [], []
        for target in targets:
            if target == "RefusedC":
                self.emit("RefuseF")
                said = "(refused refl)"
                for part in reversed(found):
                    said = part.replace("to_variable", "behind_variable").replace("to_entry", "behind_entry") + f" {said})"
                return f"(assign_refused {said})"
            if target[0] == "EntryC":
                self.pending += 1
                self.takes(free + 1)
                x = self.value(target[1], free, locals_, free + 1)
                y = self.value(target[2], free + 1, locals_, free + 2)
                ts.append(("EntryT", ("RegisterO", free), ("RegisterO", free + 1), int(target[3])))
                found.append(f"(to_entry (omega arith) {x} {y}")
                free += 2
            else:
                t, x = self.variable(target, locals_)
                ts.append(t)
                found.append(f"(to_variable {x}")
        said = "no_target"
        for part in reversed(found):
            said = f"{part} {said})"
        values = self.exact(es, free, len(targets), locals_)
        parts = [(n, self.setting(ts[n], ("RegisterO", free + n))) for n in reversed(range(len(ts)))]
        sets = "no_more"
        for n, part in reversed(parts):
            sets = f"(one_set {{from = {free + n}}} {part} {sets})"
        return f"(assign_many {said} (omega arith) {values} {sets})"

    def inside(self, body, locals_, free, end):
        self.away.append(end)
        result = self.block(body, locals_, free)
        self.away.pop()
        return result

    def statement(self, s, locals_, free):
        kind = s if isinstance(s, str) else s[0]
        self.pending += 1
        if kind == "AssignC":
            return self.assign(items(s[1]), listed(s[2], "MoreC", "NoC"), locals_, free)
        if kind == "CallStatC":
            return f"(call_alone {self.many(s[1], free, ('Exactly', 0), locals_, free)})"
        if kind == "DoC":
            return f"(do_block {self.block(s[1], locals_, free)[2]})"
        if kind == "WhileC":
            self.emit("PayF")
            top, end = len(self.steps), Label()
            x = self.whole_test(s[1], end, locals_, free)
            self.pending += 1
            y = self.inside(s[2], locals_, free, end)[2]
            self.emit("JumpF", top)
            self.here(end)
            return f"(while_loop refl {x} {y} refl)"
        if kind == "RepeatC":
            self.emit("PayF")
            top, end, hit, back = len(self.steps), Label(), Label(), Label()
            back.at = top
            self.pending += 1
            inner, behind, x = self.inside(s[1], locals_, free, end)
            y = self.test(s[2], hit, back, "hit", inner, behind)
            self.here(hit)
            self.here(end)
            return f"(repeat_loop refl {x} {y})"
        if kind == "IfC":
            return f"(if_arms {self.arms(s[1], None, locals_, free)})"
        if kind == "IfElseC":
            return f"(if_else {self.arms(s[1], s[2], locals_, free)})"
        if kind in ("CountC", "CountByC"):
            self.takes(free + 3)
            x = self.value(s[2], free, locals_, free + 1)
            y = self.value(s[3], free + 1, locals_, free + 2)
            z = "refl"
            if kind == "CountByC":
                z = self.value(s[4], free + 2, locals_, free + 3)
            else:
                self.emit("LoadF", free + 2, ("ConstantO", ("Number", ("pos", 1))))
            body, line = (s[5], s[6]) if kind == "CountByC" else (s[4], s[5])
            end = Label()
            self.emit("CountBeginsF", free, end, line=int(line))
            top = len(self.steps)
            self.pending += 1
            o = self.opening([s[1]], free + 3)
            b = self.inside(body, [free + 3] + locals_, free + 4, end)[2]
            self.emit("CountGoesOnF", free, top)
            self.here(end)
            return f"({'count_by_loop' if kind == 'CountByC' else 'count_loop'} (omega arith) {x} {y} {z} (refl, refl) {o} {b} refl)"
        if kind == "EachC":
            flags = items(s[1])
            self.takes(free + 3 + len(flags))
            x = self.exact(listed(s[2], "MoreC", "NoC"), free, 3, locals_)
            j = "joined"
            if self.pending:
                self.emit("PayF")
                j = "(by_pay refl)"
            top, end = len(self.steps), Label()
            self.emit("EachCallsF", free, len(flags), line=int(s[4]))
            self.emit("EachTestsF", free, end)
            self.pending += 1
            o = self.opening(flags, free + 3)
            b = self.inside(s[3], list(reversed(range(free + 3, free + 3 + len(flags)))) + locals_, free + 3 + len(flags), end)[2]
            self.emit("JumpF", top)
            self.here(end)
            return f"(each_loop (omega arith) (omega arith) {x} {j} (refl, refl) refl {o} {b} refl)"
        if kind == "ReturnC":
            es = listed(s[1], "MoreC", "NoC")
            found = self.there(es[0], locals_) if len(es) == 1 else None
            if found and found[0][0] == "RegisterO":
                self.pending += 1
                self.emit("ReturnF", found[0][1], ("Exactly", 1))
                return f"(return_one (in_place {found[1]}) refl)"
            count, row = self.row(es, free, locals_)
            self.emit("ReturnF", free, count)
            return f"(return_row {row} refl)"
        assert kind == "BreakC", s
        self.emit("JumpF", self.away[-1])
        return "(break_away refl refl)"

    def join(self, end, last):
        """The end of a way that leads to a place: the last one falls into it."""
        if not last:
            self.emit("JumpF", end)
            return "(by_jump refl)"
        if self.pending:
            self.emit("PayF")
            return "(by_pay refl)"
        return "joined"

    def arms(self, arms, other, locals_, free, end=None):
        whole = end is None
        end = end or Label()
        if arms == "NoArmC":
            if other is None:
                said = f"(arms_end {self.join(end, True)})"
            else:
                b = self.block(other, locals_, free)[2]
                said = f"(arms_else {b} {self.join(end, True)})"
        else:
            miss = Label()
            x = self.whole_test(arms[1], miss, locals_, free)
            b = self.block(arms[2], locals_, free)[2]
            j = self.join(end, arms[3] == "NoArmC" and other is None)
            self.here(miss)
            said = f"(arm_then {x} {b} {j} {self.arms(arms[3], other, locals_, free, end)})"
        if whole:
            self.here(end)
        return said

    def locals_at_end(self):
        flags, code = list(self.flags), self.code
        while code != "EndC":
            if code[0] == "DeclareC":
                flags += items(code[1])
            elif code[0] == "LocalFunctionC":
                flags.append(code[1])
            code = code[{"DeclareC": 3, "LocalFunctionC": 4, "ThenC": 2}[code[0]]]
        return [("CellL" if flag == "true" else "PlainL", r) for r, flag in zip(self.inner, reversed(flags))]

    def derivation(self):
        return (f"record {{ flags = refl; dots = refl; room = omega arith; owed = {self.steps[-1][0]}; end = {len(self.steps) - 1}; locals = {shown_locals(self.locals_at_end())}; free = {self.behind};\n"
                f"  body =\n      {self.body};\n  returns = refl }}")

    def said(self, name):
        rows, lines = [], []
        for charge, op, args, line in self.steps:
            args = [it.at if isinstance(it, Label) else it for it in args]
            rows.append(f"record {{ charge = {charge}; op = {' '.join([op] + [shown(it) for it in args])} }}")
            lines.append(str(line))
        text = f"abbrev pub {name} : FlatFunction\n{name} = record {{\n  flags = {shown(self.flags)};\n  dots = {self.dots};\n"
        text += f"  registers = {self.registers};\n  steps =\n      " + " ∷\n      ".join(rows) + " ∷ [];\n"
        text += "  lines = " + " ∷ ".join(lines + ["[]"]) + ";\n}\n"
        return text


# THE EXAMPLES: what `lua_slots` has

PROTO = re.compile(r"abbrev pub (\w+)_(\d+) : CProto\n\1_\2 = record \{\n  flags = (.*?);\n  dots = (\w+);\n  body =\n(.*?);\n\}\n", re.S)
ALIKE = re.compile(r"^(\w+)Alike = run\.invoke_module \(codes \"(\w+)\"\) (\d+) (\w+)_code (\d+) ≡", re.M)


def examples(file):
    text = file.read_text(encoding="utf-8")
    made = {}
    for name, number, flags, dots, body in PROTO.findall(text):
        maker = Maker(items(Terms(flags).term()), dots, Terms(body).term())
        made.setdefault(name, []).append(maker)
    heads = dict((m.group(1), text[m.start() - 0:m.start()]) for m in ALIKE.finditer(text))
    found = []
    for camel, module, size, name, steps in ALIKE.findall(text):
        found.append((camel, module, size, name, steps, made[name]))
    return found


NAMES = {
    "Rattle.std.specs.Prelude": ["◌≡◌", "pos", "negsuc", "true", "false", "[]", "◌∷◌", "codes"],
    "Rattle.lua_heap.specs.Value": ["Nil", "Truth", "Number"],
    "Rattle.lua_meaning.specs.Operators": ["Add", "Sub", "Mul", "Div", "Mod", "Pow", "Less", "Greater", "AtMost", "AtLeast", "Equal", "Unequal", "Concatenate", "Calculate"],
    "Rattle.lua_flat.specs.Operations": ["RegisterO", "ConstantO", "TextO", "Exactly", "Every", "InRegister", "InCaptured", "PayF", "LoadF", "NilsF", "DotsF", "ClosureF", "NamedF", "OpenF", "GetCellF", "SetCellF", "GetUpF", "SetUpF", "GetGlobalF", "SetGlobalF", "IndexF", "SetIndexF", "MethodF", "TableF", "SetFieldF", "SetItemsF", "OperateF", "UnaryF", "JumpF", "TestF", "CompareF", "CountBeginsF", "CountGoesOnF", "EachCallsF", "EachTestsF", "CallF", "ReturnF", "RefuseF", "FlatFunction"],
}


def uses(body):
    words = set(re.findall(r"[^\s(){};,]+", body))
    lines = []
    for module, names in NAMES.items():
        have = [n for n in names if n in words or (n == "◌≡◌" and "≡" in words) or (n == "◌∷◌" and "∷" in words)]
        if have:
            lines.append(f"use {module}.{{{', '.join(have)}}}")
    if "sign.Minus" in body or "sign.Not" in body or "sign.Len" in body:
        lines.append("use Rattle.lua_syntax.specs.declared.UnaryOp.TheVariants as sign")
    return lines


def write(module, source, subject, file):
    found = examples(file)
    body = ""
    for camel, title, size, name, steps, makers in found:
        for number, maker in enumerate(makers):
            body += maker.said(f"{name}_flat_{number}") + "\n"
        functions = " ∷ ".join([f"{name}_flat_{n}" for n in range(len(makers))] + ["[]"])
        body += f"abbrev pub {camel}FlatAlike : Type 0\n"
        body += f"{camel}FlatAlike = flat_invoke (codes \"{title}\") {size} {name}_code ({functions}) {steps} ≡ run.invoke_module (codes \"{title}\") {size} {name}_code {steps}\n\n"
        flats = [f"IsFlatFunction {name}_{n} {name}_flat_{n}" for n in range(len(makers))]
        body += f"abbrev pub {camel}IsFlat : Type 0\n{camel}IsFlat = {' × '.join(flats)}\n\n"
    alls = " × ".join(f"{it[0]}FlatAlike" for it in found)
    body += f"-- all of these\nabbrev pub All{module} : Type 0\nAll{module} = {alls}\n\n"
    alls = " × ".join(f"{it[0]}IsFlat" for it in found)
    body += f"abbrev pub AllFlat{module} : Type 0\nAllFlat{module} = {alls}\n"
    head = [f"-- {subject}"] + uses(body)
    protos = [f"{it[3]}_{n}" for it in found for n in range(len(it[5]))]
    head.append(f"use {source}.{{{', '.join([it[3] + '_code' for it in found] + protos)}}}")
    head.append("use Rattle.lua_slots.specs.Trial as run")
    head.append("use Rattle.lua_flat.specs.IsStatement.{IsFlatFunction}")
    head.append("use Rattle.lua_flat.specs.Trial.{flat_invoke}")
    (CRATES / "lua_flat" / "specs" / f"{module}.antt").write_text("\n".join(head) + "\n\n" + body, encoding="utf-8")
    return found


OPENS = "perform digits title_text prefix_of title_of namespace_named prefixed_namespaces decimal_of numeral_of trimmed digits_of_base read_number_of read_in_base_of is_utf8 chars encode"
PROOF_HEAD = """use Rattle.std.proofs.Common.{refl}
use Rattle.page_run.specs.Perform.{perform}
use Rattle.wk_base.specs.Titles.{title_text, prefix_of, title_of, namespace_named, prefixed_namespaces}
use Rattle.std.specs.Fmt.{digits}
use Rattle.std.specs.Str.{is_utf8, chars}
use lib.Utf8.{encode}
use Rattle.lua_number.specs.Numerals.{decimal_of, numeral_of, trimmed, digits_of_base, read_number_of, read_in_base_of}
"""


DERIVATIONS = {
    "Locals": ["PlainL", "CellL"],
    "Operations": ["Exactly", "Every"],
    "IsExpression": ["there_local", "there_constant", "there_text", "no_origin", "from_register", "from_captured", "from_nothing", "in_place", "made", "loaded", "closure_of", "cell_of", "captured_of", "global_of", "index_of", "operate_of", "unary_of", "and_of", "or_of", "paren_of", "table_of", "first_of_many", "dots_of", "call_of", "method_of", "row_none", "row_one", "row_many", "row_more", "fields_end", "field_item", "field_items", "field_pair", "exact_none", "exact_nils", "exact_one", "exact_one_nils", "exact_dropped", "exact_many", "exact_more", "exact_skips", "test_true", "test_miss", "test_hit", "compare_miss", "compare_hit", "test_and", "test_or", "test_not", "test_paren"],
    "IsStatement": ["joined", "by_jump", "by_pay", "no_cells", "cells", "set_register", "set_cell", "set_captured", "set_global", "set_entry", "plain_variable", "celled_variable", "captured_variable", "global_variable", "no_target", "to_variable", "to_entry", "refused", "behind_variable", "behind_entry", "no_more", "one_set", "assign_into", "assign_variable", "assign_entry", "assign_many", "assign_refused", "call_alone", "do_block", "while_loop", "repeat_loop", "if_arms", "if_else", "count_loop", "count_by_loop", "each_loop", "return_row", "return_one", "break_away", "block_end", "block_declares", "block_names", "block_then", "arms_end", "arms_else", "arm_then"],
}


def indented(text):
    return "".join("    " + line for line in text.splitlines(keepends=True))


def write_proofs(module, subject, found, crate="lua_flat"):
    names = [f"{it[0]}FlatAlike" for it in found]
    opens = OPENS if crate == "lua_flat" else OPENS + " count_leading_zeros point_code"
    head = PROOF_HEAD if crate == "lua_flat" else PROOF_HEAD + "use lib.Count.{count_leading_zeros}\nuse Rattle.lua_pattern.specs.Texts.{point_code}\n"
    text = f"-- {subject}\n{head}use Rattle.{crate}.specs.{module}.{{{', '.join(names)}, All{module}}}\n"
    for it in found:
        text += f"\n{it[3]}_alike : {it[0]}FlatAlike\nunfolding {opens}\n{it[3]}_alike = refl\n"
    text += f"\npub all_of_them : All{module}\nall_of_them = ({', '.join(it[3] + '_alike' for it in found)})\n"
    (CRATES / crate / "proofs" / f"{module}Runs.antt").write_text(text, encoding="utf-8")
    derived = ""
    for it in found:
        said = [maker.derivation() for maker in it[5]]
        whole = said[0] if len(said) == 1 else "(\n" + indented(",\n".join(said) + ",\n") + ")"
        derived += f"\n{it[3]}_is_flat : {it[0]}IsFlat\n{it[3]}_is_flat = {whole}\n"
    derived += f"\npub all_flat : AllFlat{module}\nall_flat = ({', '.join(it[3] + '_is_flat' for it in found)})\n"
    words = set(re.findall(r"[A-Za-z_']+", derived))
    lines = [f"-- {subject.split(':')[0]}: each function's flat code is code of it."]
    lines.append("use Rattle.std.proofs.Common.{[], ◌∷◌, refl, arith}")
    for home, names in DERIVATIONS.items():
        have = [n for n in names if n in words]
        if have:
            lines.append(f"use Rattle.lua_flat.specs.{home}.{{{', '.join(have)}}}")
    lines.append(f"use Rattle.{crate}.specs.{module}.{{{', '.join(it[0] + 'IsFlat' for it in found)}, AllFlat{module}}}")
    (CRATES / crate / "proofs" / f"{module}Flat.antt").write_text("\n".join(lines) + "\n" + derived, encoding="utf-8")


def main():
    found = write("ExampleCode", "Rattle.lua_slots.specs.ExampleCode", "FLAT CODE OF SMALL MODULES, beside their resolved code: both end alike, with the same steps.", CRATES / "lua_slots" / "specs" / "ExampleCode.antt")
    write_proofs("ExampleCode", "Flat code of small modules: the runs compute.", found)
    found = write("ExampleCalls", "Rattle.lua_slots.specs.ExampleCalls", "FLAT CODE OF MODULES THAT CALL, beside their resolved code: both end alike, with the same steps.", CRATES / "lua_slots" / "specs" / "ExampleCalls.antt")
    write_proofs("ExampleCalls", "Flat code of modules that call: the runs compute.", found)


if __name__ == "__main__":
    main()
