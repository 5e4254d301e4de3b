#!/usr/bin/env python3
"""Lists functions of crates/*/src that have the same shape: the same keywords and signs, with other names, types, variants,
numbers or texts, and with more or fewer arms of a match that look alike. Each group is a place to look for twins;
docs/DESIGN-PASS.md says which of them are.

tools/twins.py [DIR]    DIR is a checkout, this one where none is named
"""
import collections
import glob
import os
import re
import sys

TOKEN = re.compile(r'"[^"]*"|b?\'[^\']*\'|[A-Za-z_]\w*|0x[0-9a-f_]+|\d[\d_]*|[^\s\w]')
KINDS = re.compile(r'^(u8|i8|u16|i16|u32|i32|u64|i64|i128|usize|f32|f64)$')
KEYWORDS = frozenset('as bool break else false for fn if in let loop match move mut return self true while'.split())


def functions(text):
    """Each function: its name, its line, and its text from the parameters to the closing brace, without clauses."""
    lines = []
    for line in text.split('\n'):
        bare = line.strip()
        is_clause = re.match(r'(requires|ensures)\b', bare) and '{' in bare
        is_ghost = bare.startswith('ghost ')
        lines.append('' if is_clause or is_ghost or bare.startswith('//') else line)
    body = '\n'.join(lines)
    for found in re.finditer(r'\bfn (\w+)', body):
        start = body.find('{', found.end())
        semicolon = body.find(';', found.end())
        if start < 0 or 0 <= semicolon < start and '[' not in body[found.end():semicolon]:
            continue
        depth, at = 0, start
        while at < len(body):
            depth += {'{': 1, '}': -1}.get(body[at], 0)
            at += 1
            if depth == 0:
                break
        yield found.group(1), body[:found.start()].count('\n') + 1, body[found.end():at]


def shape(text):
    """The text with a sign for every type, variant, number and text, and every other name by the order of its first use."""
    signs, names = [], {}
    for token in TOKEN.findall(text):
        if KINDS.match(token) or token[0].isupper():
            signs.append('T')
        elif token[0].isdigit() or token[0] in '"\'' or token.startswith("b'"):
            signs.append('N')
        elif token[0].isalpha() and token not in KEYWORDS:
            signs.append(names.setdefault(token, f'n{len(names)}'))
        else:
            signs.append(token)
    arms = ' '.join(signs)
    return re.sub(r'((?:T : : T|T : : T \{ \. \. \}|N) = > (?:T : : T|N) ,)(?: (?:T : : T|T : : T \{ \. \. \}|N) = > (?:T : : T|N) ,)+', r'\1', arms)


def main():
    root = sys.argv[1] if len(sys.argv) > 1 else os.path.join(os.path.dirname(os.path.abspath(__file__)), '..')
    groups = collections.defaultdict(list)
    for path in sorted(glob.glob(os.path.join(root, 'crates/*/src/**/*.rt'), recursive=True)):
        with open(path, encoding='utf-8') as source:
            for name, line, text in functions(source.read()):
                signs = shape(text)
                if signs.count(' ') >= 16:
                    groups[signs].append(f'{os.path.relpath(path, root)}:{line} {name}')
    twins = sorted(places for places in groups.values() if len(places) > 1)
    for places in twins:
        print('; '.join(places))
    print(f'{len(twins)} groups, {sum(len(places) for places in twins)} functions')


main()
