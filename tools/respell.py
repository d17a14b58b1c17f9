#!/usr/bin/env python3
"""Brings the names of this repository's own definitions and lemmas to the spelling of today's Rattle.

Functions, lemmas, fields and constructors of specs/ and proofs/ are in snake case; a dash stays only where it joins the
names of two functions. Names that a check makes (goals, steps) and names of src/ keep their spelling. It is run once, at
the top of the repository, right after the toolchain's own script, and not again: names that stand already in the new
spelling are not for it. Where two names would fall together it writes nothing and ends with status 1.
"""
import collections
import glob
import re
import sys

# Names that would fall together with another one, or that read better so.
CHOSEN = {
    'isOne-ofBool': 'is_one-of_bool',
    'madeAt': 'made_at',
    'made_at': 'made_at_lem',
    'pair_size': 'pair_sum',
    'row-of': 'row_of_bits',
    'rowNumber': 'number_of_row',
    'value-at': 'value_at_pin',
    'zero-at': 'zero_past_pins',
    'gate-named': 'gate_by_name',
    'number-named': 'number_by_name',
    'pair-named': 'pair_by_name',
    'pair-shape': 'pair_shaped',
}

# Lemmas whose dash joins the names of two functions.
DASHED = {'length-numbered', 'onward-onward', 'onward-suc'}

SIGNATURE = re.compile(
    r'^\s*(?:(?:abbrev|unfoldable|pub)\s+)*((?:[^\s(){}:;,.λ→≡"]+\s+)*[^\s(){}:;,.λ→≡"]+)\s+:(?:\s+(.*))?$')
HEAD = re.compile(r'\s*(?:pub )?(?:data|record)\s+(\S+)')
WORDS = {'abbrev', 'unfoldable', 'pub', 'data', 'record', 'let', 'in', 'use', 'mod', 'module', 'where'}
TOKEN = re.compile(r"[^\s.(){}\[\],;:\"`]+")


def sources():
    found = glob.glob('crates/*/specs/**/*.antt', recursive=True) + glob.glob('crates/*/proofs/**/*.antt', recursive=True)
    return sorted(found)


def snake(name):
    return re.sub(r'(?<=[a-z0-9])([A-Z])', lambda m: '_' + m.group(1).lower(), name)


def collect():
    """The repository's own names, each with its files; and the names that a check makes."""
    own, made = collections.defaultdict(set), set()
    for path in sources():
        for line in open(path, encoding='utf-8'):
            if line.strip().startswith('--'):
                continue
            for name in re.findall(r'\b(?:goal|given|need)\.([^\s(){},;]+)', line):
                made.add(name)
            match = SIGNATURE.match(line)
            if match:
                for name in match.group(1).split():
                    if name not in WORDS:
                        own[name].add(path)
            match = HEAD.match(line)
            if match:
                own[match.group(1)].add(path)
    for name in made:
        own.pop(name, None)
    return own, made


def respelled(name):
    if name in CHOSEN:
        return CHOSEN[name]
    if name in DASHED:
        return name
    return '_'.join(snake(part) for part in name.split('-'))


def main():
    own, made = collect()
    wanted = [n for n in own if n[0].islower() and ('-' in n or n != snake(n) or n in CHOSEN)]
    renames = {n: respelled(n) for n in wanted}
    renames = {a: b for a, b in renames.items() if a != b}
    fell = 0
    by_new = collections.defaultdict(list)
    for old, new in renames.items():
        by_new[new].append(old)
    for new, olds in sorted(by_new.items()):
        if len(olds) > 1 or (new in own and new not in renames) or new in made:
            print('fall together:', new, olds)
            fell = 1
    changed = {}
    paths = sources() + sorted(glob.glob('crates/*/src/**/*.rt', recursive=True))
    for path in paths:
        text = open(path, encoding='utf-8').read()
        foreign = set()
        for line in text.split('\n'):
            match = re.match(r'(?:ghost )?use Rattle\.(?:std|core)\S*\.\{(.*)\}', line.strip())
            if match:
                foreign |= {n.strip() for n in match.group(1).split(',')}
        clash = [renames[t] for t in set(TOKEN.findall(text)) if t in renames and renames[t] in foreign]
        if clash:
            print('hides a library name:', path, clash)
            fell = 1
        lines = []
        for line in text.split('\n'):
            lines.append(TOKEN.sub(lambda m: renames.get(m.group(0), m.group(0)), line))
        new = '\n'.join(lines)
        if new != text:
            changed[path] = new
    if fell:
        return fell
    for path, new in changed.items():
        open(path, 'w', encoding='utf-8').write(new)
    print(len(renames), 'names in', len(changed), 'files')
    if '--list' in sys.argv:
        for old in sorted(renames):
            print(old, renames[old])
    return 0


if __name__ == '__main__':
    sys.exit(main())
