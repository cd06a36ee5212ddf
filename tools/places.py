#!/usr/bin/env python3
"""Lists the places in crates/*/src that look like the older language, by kind, for docs/DESIGN-PASS.md.

Usage: places.py [POINT..] [--at COMMIT] [--list]

Each point is a search that finds too much rather than too little; which of its places count is judged by a reader.
  1  enums, struct fields of bool, results that are a bare number or bool beside a value
  2  functions of different crates or modules that have one name or one body but for names and constants
  3  while and loop, `for` over a range, and numbers that are counted up beside one
  4  hand-written comparisons, conversions and texts: match arms that give numbers or texts, functions named for them
  5  clauses that stand in three or more contracts, and sets of three or more parameters in three or more functions
  6  a number for a length or an index beside an array or slice in one struct; Vecs searched by key; pairs of Vecs
  7  match on an enum of steps that calls one function for each; tables of functions
  8  proof files: the goals with an answer, and the lemmas
"""
import os
import re
import subprocess
import sys
from collections import defaultdict


def read_tree(commit, pattern):
    """The files whose paths match, by path, of the work tree or of a commit."""
    if commit is None:
        paths = [os.path.join(folder, name) for folder, _, names in os.walk('crates') for name in names]
        return {path: open(path, encoding='utf-8').read() for path in paths if re.fullmatch(pattern, path)}
    listed = subprocess.run(['git', 'ls-tree', '-r', '--name-only', commit], capture_output=True, text=True, check=True).stdout
    show = lambda path: subprocess.run(['git', 'show', f'{commit}:{path}'], capture_output=True, text=True, check=True).stdout
    return {path: show(path) for path in listed.splitlines() if re.fullmatch(pattern, path)}


def lines_matching(files, pattern, keep=lambda path, line: True):
    found = []
    for path in sorted(files):
        for number, line in enumerate(files[path].splitlines(), 1):
            if not line.lstrip().startswith('//') and re.search(pattern, line) and keep(path, line):
                found.append((path, number, line.strip()))
    return found


def functions(files):
    """(path, line, name, signature, body) of each function."""
    found = []
    for path in sorted(files):
        text = files[path]
        for m in re.finditer(r'^[ \t]*(?:pub(?:\([a-z]+\))? )?fn (\w+)', text, re.M):
            rest = text[m.start():]
            depth, start = 0, None
            for i, c in enumerate(rest):
                if c == '{' and rest[:i].rstrip().endswith(('requires', 'ensures')) is False and start is None:
                    line = rest[rest.rfind('\n', 0, i) + 1:i]
                    if re.match(r'\s*(requires|ensures)', line):
                        continue
                    start = i
                    depth = 1
                elif start is not None:
                    depth += (c == '{') - (c == '}')
                    if depth == 0:
                        found.append((path, text.count('\n', 0, m.start()) + 1, m.group(1), rest[:start], rest[start:i + 1]))
                        break
                elif c == ';' and '\n' in rest[i:i + 1 + 1] and start is None:
                    found.append((path, text.count('\n', 0, m.start()) + 1, m.group(1), rest[:i], ''))
                    break
    return found


def point1(files):
    return lines_matching(files, r'^\s*(pub(\([a-z]+\))? )?enum \w+|^\s*(pub(\([a-z]+\))? )?\w+: bool,|let mut \w+ = (true|false);|: u8,$|-> u8\b|Option<\(|-> \(\w+, bool\)')


def normal(body):
    body = re.sub(r'//.*', '', body)
    body = re.sub(r'"[^"]*"|\b\d[\d_]*\b', '0', body)
    words = {}
    keep = {'if', 'else', 'for', 'in', 'while', 'let', 'mut', 'match', 'return', 'true', 'false', 'Ok', 'Err', 'Some', 'None', 'self'}
    return re.sub(r'\w+', lambda m: m.group(0) if m.group(0) in keep else words.setdefault(m.group(0), f'w{len(words)}'), re.sub(r'\s+', ' ', body))


def point2(files):
    by_body = defaultdict(list)
    by_name = defaultdict(list)
    for path, line, name, sig, body in functions(files):
        if len(normal(body)) > 60:
            by_body[normal(body)].append((path, line, name))
        if name not in ('main', 'new', 'from', 'refusal', 'drop', 'name', 'all'):
            by_name[name].append((path, line, name))
    found = []
    for group in by_body.values():
        if len(group) > 1:
            found += [(p, n, f'{f}: one body, {len(group)} times') for p, n, f in group]
    for name, group in by_name.items():
        if len({p for p, _, _ in group}) > 1 and len(group) > 1:
            found += [(p, n, f'{f}: one name, {len(group)} times') for p, n, f in group]
    return sorted(set(found))


def point3(files):
    return lines_matching(files, r'^\s*(while\b|loop\b|for \w+ in [^{]*\.\.|\w+ [+-]= \d+;)')


def point4(files):
    return lines_matching(files, r'fn (same|equals?|eq|cmp|compare|copy|clone|to_\w+|as_\w+|parse_\w+|\w*_name|text|text_of|name_of|show_\w+|kind_number|hex_digits?|write_(decimal|word|words|refusal|trouble|mistake|serials|kit|greeting|help))\b|^impl .*\b(From|TryFrom|Display|PartialEq|Ord)\b|=> (b?"[^"]*"|\d+),$')


def clauses(sig):
    return [re.sub(r'\s+', ' ', m.group(2)).strip() for m in re.finditer(r'^\s*(requires|ensures)\*?[^{\n]*\{(.*)\}\s*$', sig, re.M)]


def parameters(sig):
    m = re.search(r'\((.*?)\)\s*(?:->|\n|$|where)', sig, re.S)
    return [] if not m else re.findall(r'(\w+): ', re.sub(r'<[^<>]*>', '', m.group(1)))


def point5(files):
    by_clause = defaultdict(list)
    by_set = defaultdict(list)
    for path, line, name, sig, _ in functions(files):
        for clause in set(clauses(sig)):
            by_clause[clause].append((path, line, name))
        names = [p for p in parameters(sig) if p not in ('rt', 'heap', 'f', 'out')]
        for i in range(len(names)):
            for j in range(i + 1, len(names)):
                for k in range(j + 1, len(names)):
                    by_set[(path.split('/')[1], tuple(sorted((names[i], names[j], names[k]))))].append((path, line, name))
    found = []
    for clause, group in by_clause.items():
        if len(group) >= 3:
            found += [(p, n, f'{f}: clause of {len(group)}: {clause[:90]}') for p, n, f in group]
    largest = defaultdict(set)
    for (crate, names), group in by_set.items():
        if len({(p, f) for p, _, f in group}) >= 3:
            for p, n, f in group:
                largest[(p, n, f)] |= set(names)
    found += [(p, n, f'{f}: travels with {", ".join(sorted(names))}') for (p, n, f), names in largest.items()]
    return sorted(found)


def point6(files):
    found = []
    for path in sorted(files):
        for m in re.finditer(r'^[ \t]*(?:pub(?:\([a-z]+\))? )?struct (\w+)[^;{]*\{(.*?)^\}', files[path], re.M | re.S):
            fields = re.findall(r'^\s*(?:pub(?:\([a-z]+\))? )?(\w+): ([^,\n]*(?:<[^\n]*>)?),$', m.group(2), re.M)
            buffers = [f for f, t in fields if re.match(r"(&.*)?(mut )?\[|Vec<|&'\w+ (mut )?\[", t)]
            numbers = [f for f, t in fields if t == 'usize']
            if buffers and (numbers or len(buffers) > 1):
                found.append((path, files[path].count('\n', 0, m.start()) + 1, f'{m.group(1)}: {", ".join(buffers + numbers)}'))
    return found + lines_matching(files, r'\blocate\(|count_below\(|partition_point|binary_search|\.insert\(at|\.remove\(at')


def point7(files):
    found = []
    for path, line, name, sig, body in functions(files):
        arms = re.findall(r'^\s*(\w+)::(\w+)[^=\n]*=> ?(\{|.*\()', body, re.M)
        if len(arms) >= 3:
            found.append((path, line, f'{name}: {len(arms)} arms on {arms[0][0]}'))
    return found + lines_matching(files, r'\bfn\(|\bdyn\b|: (bool),? *\)|value: bool|wanted: bool')


def point8(files):
    """The goals that have an answer, and each lemma, in proof files."""
    return [(path, text.count('\n', 0, m.start()) + 1, m.group(1)) for path, text in sorted(files.items())
            for m in re.finditer(r'^(?:abbrev )?(?:pub )?([^\s:]+) : ', text, re.M)]


def main():
    args = sys.argv[1:]
    commit = args[args.index('--at') + 1] if '--at' in args else None
    points = [a for a in args if a.isdigit()] or [str(n) for n in range(1, 9)]
    for point in points:
        kind = r'crates/[^/]+/proofs/.*\.antt' if point == '8' else r'crates/[^/]+/src/.*\.rt'
        found = globals()[f'point{point}'](read_tree(commit, kind))
        print(f'point {point}: {len(found)}')
        if '--list' in args:
            for path, line, what in found:
                print(f'  {path}:{line}: {what}')


main()
