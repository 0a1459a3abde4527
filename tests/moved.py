#!/usr/bin/env python3
"""What a change moved and what stayed, by name, with counts, as a table: tests/moved.py BEFORE [AFTER]
Two commits; AFTER is the working tree if it is not given. For the note of a request in docs/changes/.
Definitions are the declarations of specs/; types and constants those of the code; promises are the contracts of functions; code is their bodies; proofs are what
is written of a function's proof (most have nothing, and are found by search), and the laws of the other files of proofs/; edits are those of
must-fail/. Comments, imports, layout and `pub` are no change: which functions are public is a list of its own."""
import io
import re
import subprocess
import sys
import tarfile
from pathlib import Path

DECLARED = re.compile(r"(?:(?:abbrev|unfoldable|opaque|pub|record|data|ruleset) )*(\S+)")
IMPORT = re.compile(r"^[ \t]*(?:(?:pub|unfoldable) )*(?:use\b[^\n{]*(?:\{[^}]*\})?[^\n]*|mod \w+)\n", re.M)
FUNCTION = re.compile(r"\s*(?:pub )?fn (\w+)")
OWNER = re.compile(r"impl(?:<.*?>)? (?:[\w:]+(?:<.*?>)? for )?(\w+)")
CLAUSE = re.compile(r"\s*(?:requires|ensures|ghost)\b.*\{")
PROOF = re.compile(r"proofs/(.+)/(?:Proof|Invariants|Answers)\.antt")
TYPE = re.compile(r"^ *(?:pub )?(?:struct|enum|const) (\w+)(?:[^;\n]*\{$.*?^ *\}|.*?;$)", re.M | re.S)
KINDS = ["definitions", "types and constants", "promises", "public functions", "code", "proofs of functions", "laws", "edits"]


def texts(revision):
    """The files below crates/ by their paths."""
    if revision is None:
        found = subprocess.check_output(["git", "ls-files", "-co", "--exclude-standard", "crates"], text=True).split()
        return {path: Path(path).read_text(encoding="utf-8") for path in found if wanted(path) and Path(path).exists()}
    packed = subprocess.check_output(["git", "archive", revision, "crates"])
    with tarfile.open(fileobj=io.BytesIO(packed)) as tar:
        return {m.name: tar.extractfile(m).read().decode("utf-8") for m in tar if m.isfile() and wanted(m.name)}


def wanted(path):
    return path.endswith((".rt", ".antt", ".edit"))


def plain(text):
    return " ".join(word for word in text.split() if word != "pub")


def declarations(text):
    """Name and text of each block of an .antt file; blocks are parted by empty lines."""
    for block in IMPORT.sub("", text + "\n").split("\n\n"):
        block = re.sub(r"^ *module _.*? where$", "", block, flags=re.M | re.S)
        lines = [line for line in block.splitlines() if line.strip() and not re.match(r"\s*--", line)]
        named = [line for line in lines if not line.startswith("infix")]
        if named and (name := DECLARED.match(named[0].strip())):
            yield name[1], "\n".join(lines)


def functions(text):
    """Name, contract and body of each function of an .rt file; a method's name has its type before it."""
    owner, name = "", None
    for line in re.sub(r"//.*", "", text).splitlines():
        if owner_line := OWNER.match(line):
            owner = owner_line[1] + "::"
        elif line == "}" and name is None:
            owner = ""
        if name is None and (found := FUNCTION.match(line)):
            name, margin, contract, body, deep = owner + found[1], line[: len(line) - len(line.lstrip())], [], None, 0
        if name is None:
            continue
        if body is None:
            contract.append(line)
            if deep or CLAUSE.match(line):
                deep += line.count("{") - line.count("}")
            elif line.rstrip().endswith("{"):
                body = []
            elif line.rstrip().endswith(";"):
                name = None
        else:
            body.append(line)
            if line == margin + "}":
                yield name, "\n".join(contract), "\n".join(body)
                name = None


def things(files):
    """Everything with a name: kind, then where and name, to its text."""
    out = {kind: {} for kind in KINDS}
    for path, text in files.items():
        crate, rest = path.split("/", 2)[1:]
        place = rest.rsplit(".", 1)[0]
        if rest.startswith("must-fail/"):
            out["edits"][crate, "", place.split("/")[1]] = plain(text)
        elif rest.startswith("specs/"):
            for name, said in declarations(text):
                out["definitions"][crate, place, name] = plain(said)
        elif proof := PROOF.fullmatch(rest):
            said = "\n".join(said for _, said in declarations(text))
            key = crate, "", proof[1].replace("/", "::")
            out["proofs of functions"][key] = " ".join([out["proofs of functions"].get(key, ""), plain(said)]).strip()
        elif rest.startswith("proofs/"):
            for name, said in declarations(text):
                out["laws"][crate, place, name] = plain(said)
        elif rest.startswith("src/"):
            file = "" if place in ("src/lib", "src/main") else place
            for found in TYPE.finditer(re.sub(r"//.*", "", text)):
                out["types and constants"][crate, file, found[1]] = plain(found[0])
            for name, contract, body in functions(text):
                if "ensures" in contract or "requires" in contract:
                    out["promises"][crate, file, name] = plain(contract)
                if contract.lstrip().startswith("pub "):
                    out["public functions"][crate, file, name] = ""
                out["code"][crate, file, name] = plain(body)
    return out


def told(names):
    """How many, and the names by their places."""
    by = {}
    for crate, place, name in sorted(names):
        by.setdefault(f"{crate} {place}".strip(), []).append(f"`{name}`")
    listed = "; ".join(f"{where} {', '.join(those)}".strip() for where, those in by.items())
    return f"{len(names)}: {listed}" if names else "0"


def row(cells):
    print("| " + " | ".join(cells) + " |")


def head(cells):
    row(cells)
    print("|---" * len(cells) + "|")


def main():
    if len(sys.argv) not in (2, 3):
        sys.exit("usage: tests/moved.py BEFORE [AFTER]")
    before, after = things(texts(sys.argv[1])), things(texts(sys.argv[2] if len(sys.argv) == 3 else None))
    stayed, touched = {}, set()
    head(["", "stayed word for word", "new", "gone", "changed"])
    for kind in KINDS:
        old, new = before[kind], after[kind]
        stayed[kind] = {key for key in old.keys() & new.keys() if old[key] == new[key]}
        lists = [new.keys() - old.keys(), old.keys() - new.keys(), (old.keys() & new.keys()) - stayed[kind]]
        touched.update(crate for names in lists for crate, _, _ in names)
        row([kind, str(len(stayed[kind]))] + [told(names) for names in lists])
    print("\nWhat stayed, in the crates where something moved; definitions and promises by name.\n")
    head(["crate"] + KINDS)
    for crate in sorted(touched):
        of = {kind: {("", "", name) for those, place, name in stayed[kind] if those == crate} for kind in KINDS}
        row([crate] + [told(of[kind]) if kind in ("definitions", "promises") else str(len(of[kind])) for kind in KINDS])
    row(["all others"] + [str(sum(crate not in touched for crate, _, _ in stayed[kind])) for kind in KINDS])


main()
