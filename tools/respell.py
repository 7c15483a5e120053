#!/usr/bin/env python3
"""Respells this repository's own definitions and lemmas.

Run at the top of the repository, once, after the kit's port.py:

    python3 tools/respell.py [--list]

A function, lemma, field or constructor with dashes becomes snake case (net-of: net_of), a type or a
fact camel case (Set-laws: SetLaws). A name from Rust source, and a name that the check makes
(loop-arc-preserved), keep their spelling. The lemmas in KEPT stay as they are: each is named by the
left side of its equation, where a dash joins the names of two functions. Respelled are specs/ and
proofs/, the clauses in src/, and names in backticks in README.md and docs/. The script stops, and
writes nothing, where two names would fall together. --list prints old and new names alone.
"""
import glob
import re
import sys

# Lemmas that are named by the left side of an equation: the dash joins two functions' names.
KEPT = {
    'count-append', 'count-members', 'has-below', 'has-fire', 'has-only', 'has-union', 'has-without',
    'map-replicate', 'take-set', 'total-append',
}
WORD = r"[A-Za-z_'₀-₉ℕ0-9·≤<≡+*-]"
HEAD = re.compile(r"^\s*(?:pub )?(?:record|data) ([A-Za-z][^\s(){}:.;,]*)")
USE = re.compile(r"^\s*(?:pub )?(?:ghost )?(?:pub )?use ([^{}]*?)(?:\.\{([^}]*)\})?(?: as (\S+?))?;?$")
TOKEN = re.compile(r"(?<!" + WORD + r")([A-Za-z][A-Za-z0-9_'₀-₉]*(?:-[A-Za-z0-9_'₀-₉]+)+)(?!" + WORD + r")")


def respelled(name):
    parts = name.split('-')
    if name[0].isupper():
        return ''.join(part[0].upper() + part[1:] for part in parts)
    return '_'.join(parts)


def code_only(text, comment, change):
    """`change` applied to what is neither a comment nor a string; in a comment, to names in backticks."""
    kinds = re.compile(r'(?P<comment>' + comment + r'[^\n]*)|(?P<string>b?"(?:\\.|[^"\\])*")|(?P<char>\'(?:\\.|[^\'\\])\'(?!\w))')

    def ticked(part):
        return re.sub(r'`[^`\n]*`', lambda m: change(m.group(0)), part)

    out, last = [], 0
    for match in kinds.finditer(text):
        out.append(change(text[last:match.start()]))
        out.append(ticked(match.group(0)) if match.group('comment') else match.group(0))
        last = match.end()
    out.append(change(text[last:]))
    return ''.join(out)


def declared_names(text):
    names = set()
    for line in text.split('\n'):
        if ': goal.' in line or line.lstrip().startswith(('use ', 'pub use ', '--')):
            continue
        match = HEAD.match(line) or re.match(r"^\s*(?:(?:abbrev|unfoldable|pub) )*([A-Za-z][^\s(){}:.;,]*) :(?:\s|$)", line)
        if match:
            names.add(match.group(1))
    return names


def imported_names(text):
    """The names that a file imports from outside the repository's crates, and the aliases that it gives."""
    outside, aliases = set(), set()
    for line in text.split('\n'):
        match = USE.match(line)
        if not match:
            continue
        path, names, alone = match.groups()
        own = any(path.startswith('Rattle.%s.' % crate) for crate in CRATES)
        for item in (names or '').split(','):
            words = item.split()
            if not words:
                continue
            if len(words) == 3 and words[1] == 'as':
                aliases.add(words[2])
            if not own:
                outside.add(words[0])
        if alone:
            aliases.add(alone)
    return outside, aliases


CRATES = [path.split('/')[1] for path in glob.glob('crates/*/')]


def main():
    antt = sorted(glob.glob('crates/*/specs/**/*.antt', recursive=True) + glob.glob('crates/*/proofs/**/*.antt', recursive=True))
    rust = sorted(glob.glob('crates/*/src/**/*.rt', recursive=True))
    pages = sorted(glob.glob('README.md') + glob.glob('docs/*.md'))
    texts = {path: open(path, encoding='utf-8').read() for path in antt + rust + pages}
    wanted, taken = set(), {}
    for path in antt + rust:
        outside, aliases = imported_names(texts[path])
        own = declared_names(texts[path]) if path in antt else set()
        wanted |= {name for name in own | aliases if '-' in name}
        for name in outside | own | aliases:
            taken.setdefault(name, []).append(path)
    kits = {name for path in antt + rust for name in imported_names(texts[path])[0]}
    names = {name: respelled(name) for name in sorted(wanted - KEPT)}
    wrong = ['%s is a name of the library too' % name for name in names if name in kits]
    for old, new in names.items():
        if new in taken:
            wrong.append('%s and %s would fall together: %s' % (old, new, ', '.join(sorted(set(taken[new])))))
    olds = {}
    for old, new in names.items():
        olds.setdefault(new.lower(), []).append(old)
    wrong += ['apart in case alone: %s' % ', '.join(group) for group in olds.values() if len(group) > 1]
    if '--list' in sys.argv:
        for old, new in names.items():
            print(old, new)
    for line in wrong:
        print('respell:', line)
    if '--list' in sys.argv:
        return
    if wrong:
        sys.exit(1)

    def change(part):
        return TOKEN.sub(lambda m: names.get(m.group(1), m.group(1)), part)

    count = 0
    for path, text in texts.items():
        if path in pages:
            new = re.sub(r'`[^`\n]*`', lambda m: change(m.group(0)), text)
        else:
            new = code_only(text, '--' if path in antt else '//', change)
        if new != text:
            open(path, 'w', encoding='utf-8').write(new)
            count += 1
    print('respell: %d names, %d files' % (len(names), count))


main()
