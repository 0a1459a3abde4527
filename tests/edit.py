#!/usr/bin/env python3
"""Applies an edit to crates in place: tests/edit.py EDIT CRATES

The form is that of crates/NAME/must-fail/*.edit, with `file:` lines relative to the folder of the crates, so that one edit can
change a crate below the one that must be refused. Every `old:` text must stand in its file exactly once."""
import sys
from pathlib import Path


class Misfit(Exception):
    """Why an edit cannot be applied."""


def edited(edit, folder):
    """The files that an edit changes, with their texts after it; its `file:` lines are relative to the folder."""
    texts, former, path, old = {}, {}, None, None
    for line in edit.read_text(encoding="utf-8").splitlines():
        key, _, text = line.partition(": ")
        if key == "file":
            path = folder / text
        elif key == "old":
            old = text
        elif key in ("new", "new:") and path and old is not None:
            if path not in texts:
                if not path.is_file():
                    raise Misfit(f"{edit}: there is no file {path}")
                texts[path] = former[path] = path.read_text(encoding="utf-8")
            if texts[path].count(old) != 1:
                raise Misfit(f"{edit}: an `old:` text stands {texts[path].count(old)} times in {path}: {old}")
            texts[path], old = texts[path].replace(old, text), None
    if not texts:
        raise Misfit(f"{edit}: it has no `old:` and `new:` pair")
    if texts == former:
        raise Misfit(f"{edit}: it changes nothing")
    return texts


if __name__ == "__main__":
    if len(sys.argv) != 3:
        sys.exit("usage: tests/edit.py EDIT CRATES")
    try:
        after = edited(Path(sys.argv[1]), Path(sys.argv[2]))
    except Misfit as why:
        sys.exit(f"edit.py: {why}")
    for path, text in after.items():
        path.write_text(text, encoding="utf-8")
