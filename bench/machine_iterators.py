"""The functions of the library that make iterators, for `machine_reference.py`, by the rules of docs/RULES.md: `string.gmatch`,
`mw.ustring.gmatch`, `mw.ustring.gcodepoint` and `mw.text.gsplit`. An iterator reads its pattern at each of its steps."""
from machine_library import a_number, a_text
from machine_texts import begins, bytes_in, part, part_from, reader_of, search, utf8_text
from machine_values import Builtin, is_true, nth


def iterator(run, name, step, start):
    """A new iterator. `step` gets a place, or None at the end, and gives values and the next place."""
    run.tick(8)
    place = start

    def does(args, ls):
        nonlocal place
        values, place = step(args, ls, place)
        return values
    return [Builtin(name, does)]


def gmatch(run, points):
    text = utf8_text if points else a_text

    def behind(s, found):
        """Where the search goes on: behind an empty match one symbol further, if there is one."""
        if found.start < found.end:
            return found.end
        return next((at for at in [*(begins(s) if points else range(len(s))), len(s)] if at > found.end), None)

    def make(args, ls):
        s, pattern = text(run, ls, args, 1, b"gmatch"), text(run, ls, args, 2, b"gmatch")

        def step(given, ls, place):
            run.tick((bytes_in(given) if points else 0) + len(pattern))
            reader = reader_of(run, ls, pattern, points, False)
            if place is None:
                return [None], None
            found = search(reader, s, place)
            run.tick(found.tries)
            if found.start is None:
                return [None], None
            values = found.captures or [s[found.start:found.end]]
            run.tick(bytes_in(values))
            return [(len(s[:v].decode()) if points else v) + 1 if type(v) is int else v for v in values], behind(s, found)
        return iterator(run, b"step", step, 0)
    return make


def gcodepoint(run):
    def make(args, ls):
        s, i = utf8_text(run, ls, args, 1, b"gcodepoint").decode(), a_number(run, ls, args, 2, b"gcodepoint", 1)
        given = part(s, i, a_number(run, ls, args, 3, b"gcodepoint", -1))

        def step(args, ls, place):
            run.tick(bytes_in(args))
            return ([ord(given[place])], place + 1) if place < len(given) else ([None], place)
        return iterator(run, b"step", step, 0)
    return make


def gsplit(run):
    def make(args, ls):
        s, pattern = utf8_text(run, ls, args, 1, b"gsplit"), utf8_text(run, ls, args, 2, b"gsplit")
        plain = is_true(nth(args, 2))

        def step(given, ls, place):
            run.tick(bytes_in(given) + (0 if plain else len(pattern)))
            reader = None if plain else reader_of(run, ls, pattern, True)
            if place is None:
                return [None], None
            text, tries, behind = part_from(s, pattern, reader, place)
            run.tick(tries + len(text))
            return [text], behind
        return iterator(run, b"step", step, 0)
    return make
