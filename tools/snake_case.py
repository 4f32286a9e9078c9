#!/usr/bin/env python3
"""Brings the repository's own definitions to snake case: run once at the top of the repository, after the port's script.

Definitions, constructors and fields in camel case (stateLength, addVcpu), and fields with a dash (is-sound), get snake case (state_length, add_vcpu,
is_sound) wherever they are named: in specs/, proofs/, clauses, `ghost use` items, comments, must-fail edits, the pages and the texts of generated
theorems. Functions of src/, exported names, strings, inputs and outputs keep theirs. Names that would fall together are shown, and nothing is written.

usage: snake_case.py [--check]
"""
import glob
import os
import re
import sys

WORD = re.compile(r'[^\s(){}.;,@"«»]+')
DECLARED = re.compile(r'^\s*(?:(?:abbrev|unfoldable|opaque|data|record|pub|ruleset)\s+)*([^\s(){}.;,@"«»]+)(?:\s+\{[^}]*\})*\s+:(?:\s|$)')
CAMEL = re.compile(r"^[a-z][a-z0-9]*(?:[A-Z][A-Za-z0-9]*)+[₀-₉']*$")


# Names that would fall together with one that is there: the new name of each, of the older one or of the one in camel case.
APART = {
    'get_value': 'get_value_is',
    'number_ok': 'number_ok_listed',
    'apart_from': 'free_apart',
    'sameNumber': 'is_same_number',
    'setUp': 'set_up_word',
}


def read(path):
    with open(path, encoding='utf-8') as file:
        return file.read()


def snake(name):
    name = re.sub(r'([a-z0-9])([A-Z])', r'\1_\2', name)
    return name.replace('-', '_').lower()


def antt_files():
    return sorted(p for p in glob.glob('crates/**/*.antt', recursive=True) if '/out/' not in p)


def declared_names(path):
    """The names in camel case that a file declares, and the fields of its records that have a dash."""
    camel, dashed = set(), set()
    in_record = False
    for line in read(path).split('\n'):
        if line.strip().startswith('--') or not line.strip():
            continue
        if not line[0].isspace():
            in_record = bool(re.match(r'(pub )?record\b.*\bwhere', line))
        match = DECLARED.match(line)
        if not match:
            continue
        name = match.group(1)
        if CAMEL.match(name):
            camel.add(name)
        elif in_record and line[0].isspace() and '-' in name and re.match(r'^[a-z][a-z0-9_-]*$', name):
            dashed.add(name)
    return camel, dashed


def table():
    names = set()
    for path in antt_files():
        camel, dashed = declared_names(path)
        names |= camel | dashed
    return {**{name: snake(name) for name in names}, **APART}


def falls_together(rows):
    """Two names with one new spelling, or a new spelling that a proof file, a specification or a clause has already."""
    said = []
    by_new = {}
    for old, new in sorted(rows.items()):
        if new in by_new:
            said.append(f'{old} and {by_new[new]} both become {new}')
        by_new[new] = old
    for path in antt_files():
        for number, line in enumerate(read(path).split('\n'), 1):
            if line.strip().startswith('--') or line.startswith(('use ', 'mod ', 'pub mod ')):
                continue
            for match in WORD.finditer(line):
                word = match.group(0)
                behind_dot = line[: match.start()].endswith('.')
                if word in by_new and word not in rows and by_new[word] not in APART and not behind_dot:
                    said.append(f'{path}:{number}: {word} is there already, {by_new[word]} becomes it')
    return said


def turn_words(text, rows):
    return WORD.sub(lambda m: rows.get(m.group(0), m.group(0)), text)


def turn_camel(text, rows):
    """In text that is not antt: whole identifiers in camel case alone."""
    return re.sub(r"(?<![\w])[a-z][a-z0-9]*(?:[A-Z][A-Za-z0-9]*)+(?![\w])", lambda m: rows.get(m.group(0), m.group(0)), text)


def turn_prose(text, rows):
    """Quoted code in comments and pages, as `addVcpu`, with what stands beside it."""
    return re.sub(r"(?<![\w-])[a-z][a-z0-9]*(?:-[a-z0-9]+)+(?![\w-])", lambda m: rows.get(m.group(0), m.group(0)), turn_camel(text, rows))


def turn_antt(text, rows):
    lines = []
    for line in text.split('\n'):
        code, dash, comment = line.partition('-- ') if line.lstrip().startswith('-- ') else (line, '', '')
        lines.append(turn_words(code, rows) + dash + turn_camel(comment, rows))
    return '\n'.join(lines)


def main():
    check = '--check' in sys.argv[1:]
    rows = table()
    said = falls_together(rows)
    for line in said:
        print('look: ' + line)
    if said:
        sys.exit(1)
    turned = 0
    places = [(p, turn_antt) for p in antt_files()]
    places += [(p, turn_camel) for p in sorted(glob.glob('crates/*/src/*.rt') + glob.glob('crates/*/must-fail/*.edit'))]
    places += [(p, turn_camel) for p in sorted(glob.glob('docs/**/*.md', recursive=True) + ['README.md'])]
    places += [(p, turn_camel) for p in ('tests/sessions.py', 'host/calls/src/call.rs') if os.path.exists(p)]
    for path, turn in places:
        old = read(path)
        new = turn(old, rows)
        if new != old:
            turned += 1
            if not check:
                with open(path, 'w', encoding='utf-8') as file:
                    file.write(new)
    print(f'snake case: {len(rows)} names, {turned} files')


main()
