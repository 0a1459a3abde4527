#!/usr/bin/env python3
"""Counts the places of docs/DESIGN-PASS.md in crates/*/src: python3 tools/places.py [POINT] [-l]

POINT is a row of that page (1a to 7), all of them without one; -l lists the places too. It goes by the text: a place that it counts is one to look
at, and what stays has its reason beside it or in the page."""
import re
import sys
from collections import defaultdict
from pathlib import Path

FILES = sorted(Path("crates").glob("*/src/*.rt"))
TEXT = {path: path.read_text(encoding="utf-8") for path in FILES}
FUNCTION = re.compile(r"^( *)(?:pub )?fn (\w+)(?:<[^(]*>)?\(((?:[^()]|\([^()]*\))*)\)((?:.|\n)*?)^\1\}", re.M)


def at(path, position):
    return f"{path}:{TEXT[path].count(chr(10), 0, position) + 1}"


def lines(pattern, texts=TEXT):
    """The lines in which a pattern stands, comments aside."""
    found = []
    for path, text in texts.items():
        for number, line in enumerate(text.split("\n"), 1):
            code = line.split("//")[0]
            if re.search(pattern, code) and "ghost use" not in code:
                found.append(f"{path}:{number} {code.strip()}")
    return found


def widened():
    """Lines with an `as` that makes a u16, u32 or u64, where `From` serves if it widens: the text does not tell it from one that narrows. Left out are
    the constants, in which no `From` can stand."""
    constant = re.compile(r"^ *(?:pub )?const \w+:(?:.|\n)*?;$", re.M)
    return lines(r"\bas (?:u16|u32|u64)\b", {path: constant.sub(lambda found: "\n" * found[0].count("\n"), TEXT[path]) for path in FILES})


def functions():
    for path in FILES:
        for found in FUNCTION.finditer(TEXT[path]):
            yield path, found.start(), found[2], " ".join(found[3].split()), found[4]


def parameters(text):
    names = []
    for part in re.split(r",(?![^<(\[]*[>)\]])", text):
        name = part.split(":")[0].replace("mut ", "").strip()
        if name and "self" not in name:
            names.append(name)
    return names


def own_enums():
    """Enums of Option's or Result's shape: two cases, of which at most one or each holds a value, or one case that holds nothing beside those that do."""
    found = []
    for path in FILES:
        for enum in re.finditer(r"^(?:pub )?enum (\w+) \{\n((?:.|\n)*?)^\}", TEXT[path], re.M):
            cases = re.findall(r"^    (\w+)( ?[({])?", enum[2], re.M)
            held = [case for case, value in cases if value]
            if held and (len(cases) == 2 or len(cases) - len(held) == 1 and len(held) <= 2):
                found.append(f"{at(path, enum.start())} {enum[1]}")
    return found


def flagged():
    """Structs that hold a number or a flag of what became of a call beside what it gives."""
    found = []
    for path in FILES:
        for struct in re.finditer(r"^(?:pub )?struct (\w+)(?:<[^{]*>)? \{\n((?:.|\n)*?)^\}", TEXT[path], re.M):
            if re.search(r"\b(number: u8|more: bool|outcome: \w+|going: \w+|ended: bool|started: bool|end: End)\b", struct[2]):
                found.append(f"{at(path, struct.start())} {struct[1]}")
    return found


def number_codes():
    """Functions that take or give a number for a refusal, a kind or a mode, or say by a bool whether something went well."""
    found = []
    for path, start, name, given, rest in functions():
        gives = re.match(r"\s*-> (u8|bool)\b", rest)
        if re.search(r"\b(kind|mode|number): u8\b", given) or (gives and re.search(r"number|lowest|^own$|^first$|^write_oam$|^build$", name)):
            found.append(f"{at(path, start)} {name}")
        elif gives and gives[1] == "bool" and re.search(r"^(is_written|goes_on|tell|file_shown|file_picture|write_file|make_file|give_up)$", name):
            found.append(f"{at(path, start)} {name}")
    return found


def twins():
    """Pairs of functions of a crate whose bodies are the same but for names, types and numbers."""
    shapes = defaultdict(list)
    for path, start, name, given, rest in functions():
        body = rest[rest.index("{\n") + 2 :] if "{\n" in rest else rest
        body = re.sub(r"//[^\n]*|(?:requires|ensures)(?: \w+)? \{[^\n]*", "", body)
        shape = re.sub(r"\s+", " ", re.sub(r"\b0x[0-9A-F_]+\b|\b\d+\b|b?\"[^\"]*\"", "#", re.sub(r"[A-Za-z_]\w*", "w", body)))
        if shape.count(";") + shape.count("{") >= 3:
            shapes[shape].append(f"{at(path, start)} {name}")
    return [" = ".join(places) for places in shapes.values() if len(places) > 1]


def by_hand():
    """Loops that count an index by hand: `while`, and `for` over a range whose variable only picks an element."""
    return lines(r"^\s*(?:'\w+: )?while ")


def ranges():
    return lines(r"^\s*(?:'\w+: )?for \w+ in \w+\.\.")


def repeated_facts():
    """Facts of a `requires` that stand in three functions or more."""
    facts = defaultdict(set)
    for path, start, name, given, rest in functions():
        for clause in re.findall(r"requires(?: \w+)? \{((?:.|\n)*?)\}\n", rest):
            for fact in re.split(r"×", clause):
                facts[" ".join(fact.split()).strip("() ")].add(f"{path.parts[1]}::{name}")
    return [f"{len(users)} {fact}" for fact, users in sorted(facts.items(), key=lambda item: -len(item[1])) if len(users) > 2]


def travelling():
    """Functions whose first three or more parameters stand together, in that order, in at least three functions."""
    groups = defaultdict(set)
    for path, start, name, given, rest in functions():
        names = parameters(given)
        for size in range(3, len(names) + 1):
            for first in range(len(names) - size + 1):
                groups[tuple(names[first : first + size])].add(f"{at(path, start)} {name}")
    users = set()
    for group, places in groups.items():
        if len(places) > 2:
            users |= places
    return sorted(users)


def buffers():
    """Functions that take a buffer with a place or a length beside it, and structs that hold an array with a count."""
    found = []
    for path, start, name, given, rest in functions():
        if re.search(r"(out|text|buffer|requests|answers|line|slots): &?(?:mut )?\[[^\]]*\], (?:\w+: [^,]*, )?(at|n|count|held|first): (usize|u8)", given):
            found.append(f"{at(path, start)} {name}")
        elif re.match(r"\s*-> usize", rest) and re.search(r"out: &mut \[u8", given) and ", at:" not in given:
            found.append(f"{at(path, start)} {name}")
    for path in FILES:
        for struct in re.finditer(r"^(?:pub )?struct (\w+) \{\n((?:.|\n)*?)^\}", TEXT[path], re.M):
            if re.search(r": \[", struct[2]) and re.search(r"\b(count|len|held)\b: ", struct[2]):
                found.append(f"{at(path, struct.start())} {struct[1]}")
    return found


POINTS = {
    "1a": ("own enums of the shape of Option or Result", own_enums),
    "1b": ("structs with a number or a flag beside what a call gives", flagged),
    "1c": ("functions that take or give a number for a refusal, a kind, a mode or whether it went well", number_codes),
    "2": ("twins: functions alike but for names, types and numbers (groups)", twins),
    "3a": ("loops by `while`", by_hand),
    "3b": ("`for` over a range", ranges),
    "4a": ("words and bytes put together or taken apart by hand", lambda: lines(r"% (?:256|0x100)\) as u8|as (?:u16|u32) \* (?:256|0x100)|/ (?:256|0x1_?0+)\b")),
    "4b": ("conversions, equality and tests of a case by hand", lambda: lines(r"^\s*(?:pub )?fn (?:number|from_raw|to_raw|new|same|is_done|is_start|goes_on|more|one_more|next_line|least|at_most_eight|is_optional)\b|if let .* = .* \{$|\{ true \} else \{ false \}")),
    "4c": ("`as` that makes a u16, u32 or u64, where `From` serves if it widens", widened),
    "5a": ("facts that stand in the `requires` of three functions or more", repeated_facts),
    "5b": ("functions with three or more parameters that stand together in three functions or more", travelling),
    "6": ("buffers with a place or a length beside them", buffers),
    "7": ("a number that picks which step to run", lambda: lines(r"match (?:\w+\[0\]|kind|number|offset|mode|address) ")),
}

wanted = [word for word in sys.argv[1:] if word != "-l"] or list(POINTS)
for point in wanted:
    what, count = POINTS[point]
    places = count()
    print(f"{point:3} {len(places):4}  {what}")
    if "-l" in sys.argv:
        print("".join(f"         {place}\n" for place in places), end="")
