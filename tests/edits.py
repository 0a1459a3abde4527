#!/usr/bin/env python3
"""Every edit that the documents name is a file, and every file is named: one row of docs/EDITS.md each, or its path (tests/edits).
Every edit fits the text that it changes."""
import re
import sys
from pathlib import Path

from edit import Misfit, edited

HEADS = [("crate", "edit"), ("cheat", "edits")]
text = {path.name: path.read_text(encoding="utf-8") for path in Path("docs").glob("*.md")}
files = {(path.parts[1], path.stem): path for path in Path("crates").glob("*/must-fail/*.edit")}
labels = {label for _, label in files}
rows = [row for row in re.findall(r"^\| (\w+) \| (\w+) \|", text["EDITS.md"], re.M) if row not in HEADS]
cheats = re.findall(r"(\w+): (\w+_\w+)", text["EDITS.md"])
bold = re.findall(r"\*\*(\w+_\w+)\*\*", text["PROMISES.md"])
paths = re.findall(r"(?:tests|crates)/[a-z0-9_/-]*\.edit\b", " ".join(text.values()))
weakened = list(Path("tests/edits").glob("*.edit"))

wrong = [f"docs/EDITS.md names {crate}: {label}, which is no file" for crate, label in rows + cheats if (crate, label) not in files]
wrong += [f"docs/EDITS.md has {rows.count(row)} rows for {row[0]}: {row[1]}" for row in files if rows.count(row) != 1]
wrong += [f"docs/PROMISES.md has **{label}**, which is no edit" for label in bold if label not in labels]
wrong += [f"the documents name {path}, which is no file" for path in paths if not Path(path).is_file()]
wrong += [f"no document names {path}" for path in weakened if str(path) not in paths]
if not files or not weakened:
    wrong.append("there are none")
for folder, edits in [(path.parent.parent, [path]) for path in files.values()] + [(Path("crates"), weakened)]:
    for edit in edits:
        try:
            edited(edit, folder)
        except Misfit as why:
            wrong.append(str(why))
if wrong:
    sys.exit("edits: " + "\nedits: ".join(sorted(wrong)))
print(f"edits: {len(files)} and {len(weakened)}, each a file, named in the documents, and fitting")
