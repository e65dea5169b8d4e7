"""`string.gsub` and `mw.ustring.gsub`, for `machine_reference.py`, by the rules of docs/RULES.md. What is made is paid for piece by piece,
each before it is put behind the text. A text is put in the place of each match for its bytes, with those of what stands between. A table or
a function is asked for each match: what stands before it is paid for with its search, what is given when it is known, the rest in the end."""
import re

from machine_library import a_number, a_text
from machine_texts import begins, reader_of, search, utf8_text
from machine_values import Table, first, is_function, kind_of, nth


class Job:
    """A call: what it was given, and how far it is."""

    def __init__(self, run, ls, points, args):
        text = utf8_text if points else a_text
        self.run, self.ls, self.points, self.made, self.copied, self.count = run, ls, points, b"", 0, 0
        self.subject, self.pattern = text(run, ls, args, 1, b"gsub"), text(run, ls, args, 2, b"gsub")
        by = nth(args, 2)
        self.by = by if isinstance(by, Table) or is_function(by) else text(run, ls, args, 3, b"gsub")
        self.limit = a_number(run, ls, args, 4, b"gsub", len(self.subject) + 1)
        run.tick(len(self.pattern))
        self.reader = reader_of(run, ls, self.pattern, points)

    def behind(self, found):
        """Where the search goes on: behind an empty match one symbol further, if there is one."""
        if self.reader.anchored:
            return None
        if found.start < found.end:
            return found.end
        places = begins(self.subject) if self.points else range(len(self.subject))
        return next((at for at in [*places, len(self.subject)] if at > found.end), None)

    def matches(self):
        place = 0
        while place is not None and self.count < self.limit:
            found = search(self.reader, self.subject, place)
            self.run.tick(found.tries)
            if found.start is None:
                return
            yield found
            self.copied, self.count, place = found.end, self.count + 1, self.behind(found)

    def captures(self, found):
        def number(place):
            return (len(self.subject[:place].decode()) if self.points else place) + 1
        return [number(c) if type(c) is int else c for c in found.captures]

    def values(self):
        return [self.made + self.subject[self.copied:], self.count]


def filled(job, found):
    """What the replacement text stands for at a match."""
    whole = job.subject[found.start:found.end]
    captures = [c if isinstance(c, bytes) else b"%d" % c for c in job.captures(found)]

    def capture(n):
        if n == 0 or n == 1 and not captures:
            return whole
        if n > len(captures):
            job.run.raise_at(job.ls, b"malformed pattern (7)")
        return captures[n - 1]
    return re.sub(rb"(?s)%(.)", lambda m: capture(int(m[1])) if m[1].isdigit() else m[1], job.by)


def by_text(job):
    for found in job.matches():
        piece = job.subject[job.copied:found.start] + filled(job, found)
        job.run.tick(len(piece))
        job.made += piece
    job.run.tick(len(job.subject) - job.copied)
    return job.values()


def asked(job, values):
    return job.run.index_all(job.by, values[0], None) if isinstance(job.by, Table) else job.run.call(job.by, values, None)


def by_asking(job):
    for found in job.matches():
        between, whole = job.subject[job.copied:found.start], job.subject[found.start:found.end]
        job.run.tick(len(between))
        given = first(asked(job, job.captures(found) or [whole]))
        if given is None or given is False:
            given = whole
        elif type(given) is int:
            given = b"%d" % given
        elif not isinstance(given, bytes):
            job.run.raise_at(job.ls, b"invalid replacement value (a " + kind_of(given) + b")")
        job.run.tick(len(given))
        job.made += between + given
    job.run.tick(len(job.subject) - job.copied)
    return job.values()


def gsub(run, points):
    def does(args, ls):
        job = Job(run, ls, points, args)
        return by_text(job) if isinstance(job.by, bytes) else by_asking(job)
    return does
