#!/usr/bin/env python3
"""Counts the older forms in the sources: forms.py [COMMIT] lists, for each point of docs/DESIGN-PASS.md, the places that it finds."""
import collections
import re
import subprocess
import sys

FUNCTION = re.compile(r'^( *)(?:pub(?:\(crate\))? )?(?:extern "C" )?fn (\w+)')
CLAUSE = re.compile(r'\s*(?:requires|ensures|where)\b')
INTEGER = re.compile(r'\b[ui](?:8|16|32|64|128|size)\b')


def sources(commit):
    """The path and text of each source file, of a commit or of the work tree."""
    if commit:
        names = subprocess.check_output(['git', 'ls-tree', '-r', '--name-only', commit], text=True).split('\n')
    else:
        names = subprocess.check_output(['git', 'ls-files', '-co', '--exclude-standard'], text=True).split('\n')
    for name in names:
        if re.fullmatch(r'crates/\w+/src/.*\.rt', name):
            try:
                text = subprocess.check_output(['git', 'show', f'{commit}:{name}'], text=True) if commit else open(name).read()
            except FileNotFoundError:
                continue
            yield name, text.split('#[cfg(test)]')[0]


def functions(text):
    """The line, name, signature, clauses and body of each function that has a body."""
    lines = text.split('\n')
    for at, line in enumerate(lines):
        m = FUNCTION.match(line)
        if not m:
            continue
        start = at
        while not lines[start].endswith(('{', ';', '{}')) or lines[start].lstrip().startswith(('requires', 'ensures')):
            start += 1
        if lines[start].endswith(';'):
            continue
        head = lines[at:start + 1]
        clause = next((i for i, x in enumerate(head) if CLAUSE.match(x)), len(head))
        end = start
        while not lines[end].endswith('{}') and lines[end] != m[1] + '}':
            end += 1
        signature = '\n'.join(head[:clause]).rstrip('{} \n')
        yield at + 1, m[2], signature, '\n'.join(head[clause:]), '\n'.join(lines[start + 1:end])


def shape(name, head, body):
    """A function's text with its integer types, numbers and own name left out."""
    text = INTEGER.sub('INT', head + body)
    text = re.sub(r'\b(?:kem|dsa|Kem|Dsa)(?=_|\b|[A-Z])|(?<=_)u?(?:16|32)\b|\b\d[\d_a-fx]*', 'N', re.sub(r'//.*', '', text))
    return re.sub(r'\s+', ' ', re.sub(rf'\b{name}\b', 'SELF', text)).strip()


def places(commit):
    found = collections.defaultdict(list)
    twins = collections.defaultdict(list)
    facts = collections.Counter()
    for path, text in sources(commit):
        where = path.removeprefix('crates/').replace('/src/', '/')
        for line, name, head, clauses, body in functions(text):
            here = f'{where}:{line} {name}'
            answer = re.search(r'-> (.*)$', head, re.S)
            answer = answer[1].strip() if answer else ''
            if answer == 'bool' and '&mut' in head:
                found['1 a flag beside a value'].append(here)
            if re.search(r'\b(?:set|n): u(?:8|32)\b', head) and re.search(r'Refusal|heap|Result', head) or re.fullmatch(r'u(?:8|32)', answer) and re.search(r'Refusal|word', head):
                found['1 a number for a set or a refusal'].append(here)
            code = re.sub(r'\s+', '', body)
            if len(code) > 30:
                twins[shape(name, head, body)].append(here)
            if len(re.findall(r'=> (?:Some\()?(?:\w+::)?\w+\)?,', body)) >= 3 and 'match' in body and not re.search(r'\bimpl\b', head):
                found['4 a conversion written as a match'].append(here)
            if re.search(r'\bif \w+(?:\.\w+)? == \d+|match d \{|match call', body):
                found['7 a choice by a number or a word'].append(here)
            if re.search(r'\[0\w*; \d+\]', body) and re.search(r'\[0?\.\.(?!\])', body):
                found['6 a fixed room cut to a length'].append(here)
            if re.search(r': &(?:mut )?\[(?:\w+|\[\w+; \d+\]); \d+\]', head) and re.search(r'\b(?:k|have|pos|before|n): (?:&mut )?usize', head):
                found['6 a buffer with a length beside it'].append(here)
            for fact in ('KemFits', 'DsaFits', 'Gamma2', 'RowsBelow', 'all_below'):
                if re.search(rf'\b{fact}\b', clauses):
                    facts[fact] += 1
        for m in re.finditer(r'^ *(?:\'\w+: )?(while|loop)\b.*|^ *for [^{]* in [^{]*\.\.[^{]*\{', text, re.M):
            found['3 a loop over an index'].append(f'{where}:{text.count(chr(10), 0, m.start() + 1) + 1} {m[0].strip()}')
        for m in re.finditer(r'^impl\b.*\b(Clone|Copy|PartialEq|Eq|PartialOrd|Ord|Default) for .*', text, re.M):
            found['4 an impl that a derive could be'].append(f'{where} {m[0].strip()}')
    for group in twins.values():
        if len(group) > 1:
            found['2 functions alike but for types and numbers'].append(' = '.join(group))
    for fact, count in facts.items():
        if count >= 3:
            found['5 a fact in the clauses of many functions'].append(f'{fact}: {count}')
    return found


def main():
    found = places(sys.argv[1] if len(sys.argv) > 1 else None)
    for kind in sorted(found):
        print(f'{kind}: {len(found[kind])}')
        for place in found[kind]:
            print(f'    {place}')


main()
