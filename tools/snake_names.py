#!/usr/bin/env python3
"""Brings the repository's own words (definitions, lemmas, fields) to snake case, once, at the top of the repository.

A word is renamed where a file of crates/*/specs or crates/*/proofs declares it and it has a hyphen or is written likeThis. Types and
modules stay in camel case. Words that a file imports from the kit keep their spelling in that file, and so do the names that the
prover makes (goals, invariants, steps). In .rt files and documents a word is renamed in clauses, comments and backticks, never in
strings. Prints the words that fell together with another of the same folder.
"""
import collections, glob, os, re, sys

MODIFIERS = r'(?:(?:pub|abbrev|unfoldable|private|record|data)\s+)*'
TOKEN = re.compile(r"[^\s(){}\[\].,;:`\"‵]+")
DECLARED = re.compile(r'^\s*' + MODIFIERS + r'((?:[^\s(){}.,;:"λ∷]+ )*[^\s(){}.,;:"λ∷]+)(?: \{[^}:]*\})?\s:\s(.*)$')
BINDER = re.compile(r"[({]((?:[^\s(){}.,;:\"]+ )*[^\s(){}.,;:\"]+) : ")
GOAL = re.compile(r'^(Need-|invariant-|decreases-|returns|loop-|overflow)|-requires(-\d+)?$|-spec$|-reads$')
# lemmas that port.py had already called as what they speak of
TAKEN = {'crates/history/proofs/Demand.antt': 'in_order', 'crates/registers/proofs/Table.antt': 'listed_in'}
CRATES = {os.path.basename(p) for p in glob.glob('crates/*')}


def snake(word):
    parts = word.split('-')
    if word[:1].isupper() or re.match(r'^[^a-z]', word):
        return '_'.join(parts) if len(parts) > 1 else word
    out = []
    for part in parts:
        if re.match(r"^[a-z][a-z0-9']*[A-Z]", part) and part != 'tEXt':
            part = re.sub(r'(?<=[a-z0-9])([A-Z])', lambda m: '_' + m.group(1).lower(), part)
        out.append(part)
    return '_'.join(out)


def plain(line):
    return line.split('--', 1)[0] if re.search(r'(^|\s)--(\s|$)', line) else line


def declared_in(path, inner):
    words = set()
    for line in open(path, encoding='utf-8'):
        line = plain(line)
        if line.lstrip().startswith('use '):
            continue
        m = DECLARED.match(line)
        if m and not (inner and re.match(r'(tie|goal)\.|\{M : Type 1\} → statement', m.group(2))):
            words.update(m.group(1).split())
        for group in BINDER.findall(line):
            words.update(group.split())
    return {w for w in words if snake(w) != w and '◌' not in w and not (inner and GOAL.search(w))}


def declared_all(path):
    words = set()
    for line in open(path, encoding='utf-8'):
        m = DECLARED.match(plain(line))
        if m and not line.lstrip().startswith('use '):
            words.update(m.group(1).split())
    return words


def imports(text):
    """The words that a file imports from the kit."""
    kit = set()
    for m in re.finditer(r'use\s+([^\s;{]+?)\.?\{([^}]*)\}', text):
        path = m.group(1).split('.')
        own = path[0] == 'Rattle' and len(path) > 1 and path[1] in CRATES
        if not own:
            kit.update(w.strip().split(' as ')[0] for w in m.group(2).split(','))
    return kit


def renamed_line(line, names):
    out, at = [], 0
    for m in TOKEN.finditer(line):
        word = m.group(0)
        # a part of a path that begins with the facts of a goal is the prover's own
        head = re.search(r"([A-Za-z][\w']*)(?:\.[^\s(){}\[\],;:]*)?\.$", line[:m.start()])
        if head and head.group(1) in ('c', 'l', 'goal', 'tie'):
            continue
        if word in names:
            out.append(line[at:m.start()] + names[word])
            at = m.end()
    return ''.join(out) + line[at:]


def in_backticks(text, names):
    return re.sub(r'`[^`]*`', lambda m: renamed_line(m.group(0), names), text)


def comment_of(line, mark):
    at = line.find(mark)
    return (line, '') if at < 0 else (line[:at], line[at:])


def camel_alone(names):
    return {w: n for w, n in names.items() if '-' not in w}


def main():
    outer = glob.glob('crates/*/specs/**/*.antt', recursive=True) + glob.glob('crates/*/proofs/*.antt')
    inner = [p for p in glob.glob('crates/*/proofs/**/*.antt', recursive=True) if p not in outer]
    common = {}
    for path in outer:
        for word in declared_in(path, False):
            common[word] = snake(word)
    texts = {p: open(p, encoding='utf-8').read() for p in outer + inner}
    for path, word in TAKEN.items():
        texts[path] = '\n'.join(renamed_line(l, {word: word + '_law'}) for l in texts[path].split('\n'))
    # words that fall together
    by_new = collections.defaultdict(set)
    for word, new in common.items():
        by_new[new].add(word)
    every = set().union(*(declared_all(p) for p in outer)) - set(TAKEN.values())
    for new, words in sorted(by_new.items()):
        hyphened = sorted(w for w in words if '-' in w)
        if new in every or len(words) > 1:
            # a lemma that is called as what it speaks of says that it is a law
            told = hyphened if len(words) > len(hyphened) or new in every else hyphened[1:]
            for word in told:
                common[word] = new + '_law'
            left = words - set(told)
            if len(left) > 1 or (left and new in every) or new + '_law' in every | set(by_new):
                print('falls together:', new, sorted(words), new in every)
    changed = 0
    for path in outer + inner:
        text = texts[path]
        names = dict(common)
        if path in inner:
            names.update((w, snake(w)) for w in declared_in(path, True))
        for word in imports(text):
            names.pop(word, None)
        out = []
        for line in text.split('\n'):
            code, said = comment_of(line, '-- ') if re.search(r'(^|\s)-- ', line) else (line, '')
            out.append(renamed_line(code, names) + in_backticks(renamed_line(said, camel_alone(names)), names))
        new = '\n'.join(out)
        if new != text or path in TAKEN:
            changed += 1
            open(path, 'w', encoding='utf-8').write(new)
    # words that port.py had already brought to snake case, where documents and edits still have the older spelling
    older = {}
    declared = set().union(*(declared_all(p) for p in outer))
    pages = ['README.md'] + glob.glob('docs/*.md') + glob.glob('docs/changes/*.md') + glob.glob('oracle/*.md')
    for path in pages + glob.glob('crates/*/must-fail/*.edit') + glob.glob('crates/*/src/**/*.rt', recursive=True) + glob.glob('tests/edits/*.edit'):
        for word in TOKEN.findall(open(path, encoding='utf-8').read()):
            if snake(word) != word and word not in common and snake(word) in declared and not GOAL.search(word):
                older[word] = snake(word)
    told = {**older, **common}
    camel = camel_alone(told)
    for path in glob.glob('crates/*/src/**/*.rt', recursive=True) + glob.glob('crates/*/must-fail/*.edit') + glob.glob('tests/edits/*.edit'):
        text = open(path, encoding='utf-8').read()
        names = {w: n for w, n in camel.items() if w not in imports(text)}
        pieces = re.split(r'("(?:[^"\\]|\\.)*")', text)
        new = ''.join(p if p.startswith('"') else in_backticks('\n'.join(renamed_line(l, names) for l in p.split('\n')), told) for p in pieces)
        if new != text:
            changed += 1
            open(path, 'w', encoding='utf-8').write(new)
    for path in pages:
        if path == 'docs/01-scope.md':
            continue
        text = open(path, encoding='utf-8').read()
        new = in_backticks(text, told)
        if new != text:
            changed += 1
            open(path, 'w', encoding='utf-8').write(new)
    print(f'{len(common)} words, {changed} files')


main()
