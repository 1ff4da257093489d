#!/usr/bin/env python3
"""Brings the repository's own definitions and lemmas to the library's spelling of names.

Words are in snake case (`ids-of` is `ids_of`), facts and types in camel case (`Comes-out-whole` is `ComesOutWhole`), and in a
lemma's name a dash joins two names (`length-entered`, of `length` and `entered`) where each side is one, else it is `_`.
Run once at the top of the repository, on files that were written with dashes throughout: python3 tools/spelling.py
It changes definitions, lemmas, fields and their uses in specs/ and proofs/, and their uses in the clauses of src/, in the texts
of must-fail/ and in docs/. Functions of src/, strings, inputs and outputs keep their names. `--list` prints the names alone.
"""
import glob
import re
import sys

DECLARED = re.compile(r'^((?:(?:abbrev|unfoldable|pub|record|data)\s+)*)([^\s(){}:.,;]+)\s*(?::\s|$|\{|\()')
# a field, or a lemma in a module with parameters: each has `_` throughout
FIELD = re.compile(r'^\s+pub\s+([^\s(){}:.,;]+)\s+:\s')
WORD = re.compile(r'^\s+(?:abbrev|unfoldable)\s+(?:pub\s+)?([^\s(){}:.,;]+)\s+:\s')
CONSTRUCTOR = re.compile(r'^\s+([^\s(){}:.,;]+)\s+:\s')
KEYWORDS = {'use', 'module', 'unfolding', 'pub', 'mod', 'where', '--'}
# What a lemma's name may join besides the repository's own words: those of the library.
LIBRARY = set('length take drop append map set insert remove reverse put_mid count sum get_or cond eqb ltb leb'.split())
# Names of the library, and those that Rattle makes: none of the repository's own.
FOREIGN = set('length-append length-drop length-insert length-map length-remove length-set length-take take-append-le '
              'drop-cons bytes_eq-Decides slice_eq-Decides'.split())
TOKEN = re.compile(r"[^\s(){}\[\];,.@\"`⌜⌝«»λ⟨⟩]+")


def antt_files():
    return sorted(f for f in glob.glob('crates/*/specs/**/*.antt', recursive=True)
                  + glob.glob('crates/*/proofs/**/*.antt', recursive=True))


def declared():
    """The names that specs/ and proofs/ declare: words and types, constructors and words in modules, and lemmas."""
    words, inner, lemmas = set(), set(), set()
    for path in antt_files():
        in_data = False
        for line in open(path, encoding='utf-8'):
            if line.strip() and not line[0].isspace():
                in_data = re.match(r'(pub )?data ', line) is not None
            field = FIELD.match(line)
            if field:
                words.add(field.group(1))
                continue
            field = WORD.match(line) or (in_data and CONSTRUCTOR.match(line))
            if field:
                inner.add(field.group(1))
                continue
            found = DECLARED.match(line)
            if not found or found.group(2) in KEYWORDS or line.startswith('--'):
                continue
            kinds, name = found.group(1).split(), found.group(2)
            rest = line[found.start(2) + len(name):].lstrip()
            if rest.startswith(': goal.'):
                continue  # what Rattle asks for, as `invariant-loop-i`, has Rattle's name
            if 'record' in kinds or 'data' in kinds or 'abbrev' in kinds or 'unfoldable' in kinds:
                words.add(name)
            elif rest.startswith(':'):
                lemmas.add(name)
    return words, inner, lemmas


def spelled(name):
    """A word in snake case, a fact or a type in camel case."""
    parts = re.split(r'[-_]', name)
    if name[0].isupper():
        return ''.join(p[:1].upper() + p[1:] for p in parts)
    return re.sub(r'([a-z0-9])([A-Z])', lambda m: m.group(1) + '_' + m.group(2).lower(), name).replace('-', '_')


def lemma(name, known):
    """A lemma's name: a dash where it joins two names."""
    for at in [m.start() for m in re.finditer('-', name)]:
        left, right = spelled(name[:at]), spelled(name[at + 1:])
        if left in known and right in known:
            return left + '-' + right
    return spelled(name)


def renamings():
    words, inner, lemmas = declared()
    words = {w for w in words if w not in FOREIGN}
    known = {spelled(w) for w in words} | LIBRARY
    new = {w: spelled(w) for w in words | (inner - FOREIGN)}
    for name in lemmas - words - inner - FOREIGN:
        new[name] = lemma(name, known)
    return {a: b for a, b in new.items() if a != b}


def collisions(new):
    """Two old names, or an old and a new one, that would become the same in one crate."""
    said = []
    for crate in sorted(glob.glob('crates/*')):
        tokens = set()
        for path in antt_files():
            if path.startswith(crate + '/'):
                tokens |= set(TOKEN.findall(open(path, encoding='utf-8').read()))
        seen = {}
        for t in sorted(tokens):
            seen.setdefault(new.get(t, t), []).append(t)
        said += [(crate, b, a) for b, a in seen.items() if len(a) > 1]
    return said


def respelled(text, new):
    return TOKEN.sub(lambda m: new.get(m.group(0), m.group(0)), text)


def clause_lines(text, new):
    """The clauses and ghost lines of a source file; its code and strings stay."""
    out, depth, inside = [], 0, False
    for line in text.split('\n'):
        begins = re.match(r'^\s*(ghost\b|(requires|ensures)\b)', line)
        if begins or inside:
            line = respelled(line, new)
            depth += line.count('{') - line.count('}')
            inside = depth > 0
            if not inside:
                depth = 0
        out.append(line)
    return '\n'.join(out)


def main():
    new = renamings()
    for said in collisions(new):
        print('falls together:', *said)
    if '--list' in sys.argv:
        for a, b in sorted(new.items()):
            print(a, b)
        return
    for path in antt_files():
        write(path, lambda t: respelled(t, new))
    for path in glob.glob('crates/*/src/**/*.rt', recursive=True):
        write(path, lambda t: clause_lines(t, new))
    dashed = {a: b for a, b in new.items() if '-' in a}
    for path in glob.glob('crates/*/must-fail/*.edit') + glob.glob('docs/*.md') + ['README.md']:
        write(path, lambda t: re.sub(r'`[^`\n]*`', lambda m: respelled(m.group(0), dashed), t) if path.endswith('.md') else respelled(t, dashed))


def write(path, change):
    old = open(path, encoding='utf-8').read()
    new = change(old)
    if new != old:
        open(path, 'w', encoding='utf-8').write(new)


main()
