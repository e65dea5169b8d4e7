#!/usr/bin/env python3
"""Counts the cases of the machine of Lua, as the READMEs name them: `count_rows.py`, from the tables that machine_rows.py writes."""
import pathlib
import re

TOP = pathlib.Path(__file__).resolve().parent.parent
CRATE = TOP / "crates" / "lua_machine_cases"
LONG_RUNS = TOP / "tests" / "long_runs.table"


def words_of_cases(table):
    """The words of the lines of each case."""
    cases = []
    for line in table.read_text().splitlines():
        word = line.split("\t", 1)[0]
        if word == "case":
            cases.append(set())
        elif cases and word:
            cases[-1].add(word)
    return cases


def rows_in(table):
    """How many calls stand as rows in modules that make many (machine_call_rows.py, machine_row_tables.py)."""
    return len(re.findall(r"\b(?:row|call)\(function\(\) return ", table.read_text().replace("\\n", "\n")))


def main():
    cases, ends = words_of_cases(CRATE / "stdin"), (CRATE / "stdout").read_text().count("\n")
    print(f"{len(cases):,} modules with {ends:,} ends")
    for said, words in (("an exact number of steps", {"exact", "took", "all", "every"}), ("each number of steps", {"all", "every"}), ("the least number of calls", {"levels"})):
        print(f"{sum(1 for case in cases if case & words):,} of them with {said}")
    print(f"{rows_in(CRATE / 'stdin'):,} rows of calls of the library")
    long_cases = words_of_cases(LONG_RUNS)
    print(f"{sum('every' in case for case in long_cases)} longer modules with each number of steps behind the gate, {sum('exact' in case for case in long_cases)} with some")


if __name__ == "__main__":
    main()
