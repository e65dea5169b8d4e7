#!/usr/bin/env python3
"""Writes the modules of the examples, as they stand, into `lua_resolve_cases`: its file src/modules.rt.

    example_modules.py            prints the file
    example_modules.py --write    writes it; `rt fmt` there lays it out

How many variables they have is counted by hand in src/tests.rt there: a module that is changed is counted anew.
"""
import pathlib

from written import TOP, give

MODULES = [
    ("TEXT", "examples/third/Module:Text.lua"),
    ("LANGUAGES", "examples/third/Module:Languages.lua"),
    ("BOOK", "examples/third/Module:Book.lua"),
    ("DATA", "examples/third/Module:Languages%2Fdata.lua"),
    ("INFOBOX", "crates/wikiexpand/data/d/Module:Infobox.lua"),
]


def module(name, path):
    text = (pathlib.Path(TOP) / path).read_text(encoding="utf-8")
    assert '"#' not in text, path
    return f'\n/// {path}\npub const {name}: &str = r#"{text}"#;\n'


if __name__ == "__main__":
    give("crates/lua_resolve_cases/src/modules.rt",
         "//! Written by bench/example_modules.py: the modules of the examples.\n" + "".join(module(*it) for it in MODULES))
