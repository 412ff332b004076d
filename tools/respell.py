#!/usr/bin/env python3
"""Brings the repository's own definitions and lemmas to the spelling of today's Rattle: words in snake case.

Run once, at the top, on a tree that port.py has turned. It goes over specs/, proofs/ and the clauses of src/:
- a word in camel case that begins with a small letter is written in snake case (`chargesOf` is `charges_of`),
  part by part where a dash joins names; parts that begin with a capital are names from the source and stay;
- a record's field with a dash gets an underscore (`adds-up` is `adds_up`);
- a word that would fall together with a field or parameter of the source gets the name below.
Functions of src/, strings, inputs and outputs keep their names.
"""
import glob
import re
import sys

# words whose plain spelling is taken by a field, a parameter or a type
OTHER = {'dueDay': 'due_day_of', 'kWh': 'kwh', 'kWQuarterHours': 'kw_quarter_hours'}
WORD = re.compile(r"[A-Za-z_ℕℤ][A-Za-z0-9_'ℕℤ≡≤<₁-]*")


def snake(part):
    if part in OTHER:
        return OTHER[part]
    if not re.match(r'[a-z]', part):
        return part
    return re.sub(r'([a-z0-9])([A-Z])', lambda m: m.group(1) + '_' + m.group(2).lower(), part)


def spelled(word, fields):
    if word in fields:
        word = word.replace('-', '_')
    return '-'.join(snake(part) for part in word.split('-'))


def dashed_fields(text):
    """The fields with a dash of the records that a file declares."""
    found, inside = set(), None
    for line in text.split('\n'):
        indent = len(line) - len(line.lstrip())
        if inside is not None and line.strip() and indent <= inside:
            inside = None
        if inside is not None:
            name = re.match(r"\s+(?:pub )?([a-z0-9_]+(?:-[a-z0-9_]+)+) :", line)
            if name:
                found.add(name.group(1))
        if re.match(r'\s*(pub )?record .*where$', line):
            inside = indent
    return found


def turn(text, fields):
    return WORD.sub(lambda m: spelled(m.group(0), fields), text)


def turn_source(text):
    """Only what antt reads: `ghost use` lines, clauses and ghost fields."""
    out, depth, seen = [], 0, False
    for line in text.split('\n'):
        starts = re.match(r'\s*(ghost |pub ghost |requires|ensures)', line)
        if starts or depth > 0:
            line = turn(line, set())
            depth += line.count('{') - line.count('}')
            if line.lstrip().startswith('ghost use'):
                depth = 0
        out.append(line)
    return '\n'.join(out)


def main():
    files = sorted(glob.glob('crates/**/*.antt', recursive=True))
    texts = {f: open(f, encoding='utf-8').read() for f in files}
    fields = set().union(*(dashed_fields(t) for t in texts.values()))
    words = {}
    for f, text in texts.items():
        for w in set(WORD.findall(text)):
            words.setdefault(w, set()).add(f)
    for w in sorted(words):
        new = spelled(w, fields)
        if new != w and new in words and words[new] & words[w]:
            print(f'look: {w} and {new} stand in one file: {sorted(words[new] & words[w])[0]}')
    for f, text in texts.items():
        new = turn(text, fields)
        if new != text:
            open(f, 'w', encoding='utf-8').write(new)
    for f in sorted(glob.glob('crates/**/*.rt', recursive=True)):
        text = open(f, encoding='utf-8').read()
        new = turn_source(text)
        if new != text:
            open(f, 'w', encoding='utf-8').write(new)
    print('fields:', ' '.join(sorted(fields)))


if __name__ == '__main__':
    sys.exit(main())
