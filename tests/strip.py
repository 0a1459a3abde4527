#!/usr/bin/env python3
"""Turns Rattle crates into one Rust file, a module a crate: tests/strip.py [--std MODULE] CRATE.. >rattle.rs

Each module sees the others. With --std a module of that name, which is no crate, stands for the kit's std, and each sees what its
`prelude` has.
Dropped is what is for the proof alone: the `ghost use` lines, the clauses of the contracts, ghost fields and members, the `impl Model`
blocks, and the attributes that steer the check; all else stays as it is. Every struct and enum gets the derives that a comparison needs
beside its own, `fmt` of a `Display` goes to a `Formatter`, a `let .. else` is
written out as the `match` that it stands for and an `as_mut_array` as the `try_from`, since Debian 12's rustc (1.63) has neither, and
a crate's `use` lines and a program's `main` are made public, so that a name is found in every module that knows it."""
import argparse
import re
import sys
from pathlib import Path

GHOST_USE = re.compile(r"^[ \t]*(?:ghost use [^;]*|use std::marker::Model);[^\n]*\n", re.M)
# A clause, starred or not, named or not, or a ghost field or member; up to the brace that opens what it says.
CLAUSE = re.compile(r"^[ \t]*(?:pub )?(?:(?:requires|ensures)\*?(?: \w+)?|ghost \w+ ?[:=]) ?\{", re.M)
MODEL = re.compile(r"^[ \t]*impl(?:<[^\n]*>)? Model for [^{\n]*\{", re.M)
STEERS = re.compile(r"^[ \t]*#!?\[(?:tactic|cycle)\b[^\n]*\]\n", re.M)
TYPE = re.compile(r"^((?:[ \t]*#\[[^\n]*\]\n)*)((?:pub )?(?:struct|enum) (?:.*;$|(?:.|\n)*?\n\}))", re.M)
OWN_DERIVES = re.compile(r"^[ \t]*#\[derive\(([^\n]*)\)\]\n", re.M)
USE = re.compile(r"^(?=use |fn main\()", re.M)
MOD = re.compile(r"^mod (\w+);$", re.M)
LET_ELSE = re.compile(r"\blet ((?:\w+::)?\w+)\(([\w, ]*)\) = ((?:\[[^\[\]]*\]|[^;{}])+) else (\{[^{}]*\});")
AS_MUT_ARRAY = re.compile(r"\b(\w+)\.as_mut_array::<(?:\{ )?([\w:]+)(?: \})?>\(\)")
# A value's text goes to any writer here, to a `Formatter` there.
FMT = re.compile(r"\bfn fmt<W: fmt::Write>\(&self, f: &mut fmt::Formatter<W>\)")
# Comments, texts and characters, in which a brace is none.
NO_CODE = re.compile(r"//[^\n]*|b?\"(?:[^\"\\]|\\.)*\"|b?'(?:[^'\\\n]|\\[^\n][^'\n]*)'", re.S)
DERIVES_OF_RUST = {"Clone", "Copy", "Debug", "PartialEq", "Eq", "PartialOrd", "Ord", "Hash", "Default"}


def without(opening, text, name):
    """The text without what begins like that and goes up to the brace that closes it, with the comma or semicolon behind it and the line's end."""
    code = NO_CODE.sub(lambda found: " " * len(found[0]), text)
    out = []
    at = 0
    while found := opening.search(code, at):
        out.append(text[at : found.start()])
        depth, at = 1, found.end()
        while depth:
            if at == len(code):
                sys.exit(f"strip.py: crate {name}: a brace is not closed, behind: {found[0].strip()}")
            depth += {"{": 1, "}": -1}.get(code[at], 0)
            at += 1
        at += re.match(r"[,;]?\n?", code[at:]).end()
    return "".join(out) + text[at:]


def derived(item):
    """A type with its derives and those of a comparison; what holds a `&mut` or an error of std is not compared."""
    own = [word.strip() for words in OWN_DERIVES.findall(item[1]) for word in words.split(",")]
    more = [] if "mut " in item[2] or "io::Error" in item[2] else ["Debug", "PartialEq"]
    derives = dict.fromkeys([word for word in own if word in DERIVES_OF_RUST] + more)
    line = f"#[derive({', '.join(derives)})]\n" if derives else ""
    return OWN_DERIVES.sub("", item[1]) + line + item[2]


def stripped(name, path, others):
    """A file of a crate, with the files of its own `mod` lines in their place."""
    text = STEERS.sub("", GHOST_USE.sub("", path.read_text(encoding="utf-8")))
    text = without(CLAUSE, without(MODEL, text, name), name)
    text = USE.sub("pub ", TYPE.sub(derived, text))
    text = FMT.sub("fn fmt(&self, f: &mut fmt::Formatter<'_>)", text)
    text = AS_MUT_ARRAY.sub(r"<&mut [_; \2]>::try_from(\1).ok()", text)
    text = LET_ELSE.sub(r"let (\2) = match \3 { \1(\2) => (\2), _ => \4 };", text)
    code = NO_CODE.sub("", text)
    if re.search(r"\blet\b[^;{}]*\belse\b", code):
        sys.exit(f"strip.py: crate {name}: a `let .. else` of another form than `let A::B(c, d) = e else {{ .. }};` or `let B(c) = e else {{ .. }};`")
    if left := re.search(r"\b(?:requires|ensures|ghost)\b[^\n]*", code):
        sys.exit(f"strip.py: crate {name}: this is for the proof, and is of no form that is known here: {left[0]}")
    text = text.replace("crate::", f"crate::{name}::")
    if given.std:
        text = re.sub(r"\bstd::", f"crate::{given.std}::", text)
    text = MOD.sub(lambda mod: braced(mod[1], stripped(name, path.parent / f"{mod[1]}.rt", others), others), text)
    return text


def braced(name, text, others):
    prelude = f"use crate::{given.std}::prelude::*;\n" if given.std else ""
    return f"pub mod {name} {{\nuse crate::{{{', '.join(others)}}};\n{prelude}{text}}}\n"


def module(name, others):
    lib, main = Path("crates", name, "src", "lib.rt"), Path("crates", name, "src", "main.rt")
    return braced(name, stripped(name, lib if lib.exists() else main, others), others)


words = argparse.ArgumentParser(usage="tests/strip.py [--std MODULE] CRATE.. >rattle.rs")
words.add_argument("--std")
words.add_argument("crates", nargs="+")
given = words.parse_args()
for name in given.crates:
    print(module(name, [other for other in given.crates if other != name]))
