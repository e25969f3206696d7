#!/usr/bin/env python3
"""Lines of the sources and documents that are longer than 160 columns.

    checks/long_lines.py [PART ..]            lists them, of the paths that have one of these parts, or of all
    checks/long_lines.py --write [PART ..]    breaks those that can be broken without a change of meaning
    checks/long_lines.py --documents          lists those of the documents, without the indented blocks; status 1 where there is one

A line is broken at a blank outside texts and comments: a list of imports becomes two, a clause, a definition or a
lemma goes on in the next line, before an operator. `rt fmt` keeps such breaks. A text in Rattle is broken behind a
line's end or a blank within it.
"""
import pathlib
import re
import sys

MOST = 160
ROOT = pathlib.Path(__file__).resolve().parent.parent
# What a line may be broken before, or behind where it ends a part; the lower the number the sooner, and outer parts before inner ones.
BEFORE = {'→': 0, '⊎': 1, '×': 2, '≡': 3, '↔': 3, '≤': 3, '<': 3, '++': 4, '∷': 4, '∙': 4}
BEHIND = {';': 2, ',': 4, '=': 3, 'in': 1}
# The same in a proof, which is broken before its arguments.
PROOF_BEFORE = {'∙': 0, '→': 2, '⊎': 2, '×': 2, '≡': 2, '↔': 2, '≤': 2, '<': 2, '++': 2, '∷': 2}
PROOF_BEHIND = {';': 1, ',': 2, '=': 0, 'in': 0}
# A line that states: a clause of code, a definition's or a lemma's type.
STATES = re.compile(r"\s*(pub )?(abbrev|record|data) |\s*(pub )?[\w\-'+]+ :|\s*→|\s*(requires|ensures|ghost) ")


def imports(line):
    """Two or more imports of the same module, or None."""
    found = re.fullmatch(r'(\s*(?:ghost )?use [^{]*\{)(.*)(\};?)', line)
    if not found:
        return None
    head, names, tail = found.groups()
    parts, last = [], ''
    for name in names.split(', '):
        longer = f'{last}, {name}' if last else name
        if len(head) + len(longer) + len(tail) > MOST and last:
            parts.append(last)
            longer = name
        last = longer
    parts.append(last)
    return [head + part + tail for part in parts]


def places(line, start):
    """The blanks from `start` on at which the line may be broken, each with its weight."""
    depth, k, found = 0, 0, []
    is_head = re.match(r'(pub )?(record|data) ', line)
    states = STATES.match(line)
    before, behind, argument, inner = (BEFORE, BEHIND, 6, 2) if states else (PROOF_BEFORE, PROOF_BEHIND, 1, 3)
    while k < len(line):
        char = line[k]
        if char == '"':
            k += 1
            while k < len(line) and line[k] != '"':
                k += 2 if line[k] == '\\' else 1
        elif line.startswith('--', k) and (k == 0 or line[k - 1] == ' '):
            break
        elif line.startswith('//', k):
            break
        elif char in '([{':
            depth += 1
        elif char in ')]}':
            depth -= 1
        elif char == ' ' and k > start and (depth >= 0 or not states):
            word = re.match(r'\S*', line[k + 1:]).group(0)
            last = re.search(r'\S*$', line[:k]).group(0)
            weight = None
            if word in before:
                weight = before[word]
            elif last in behind or last[-1:] in (';', ','):
                weight = behind.get(last, behind.get(last[-1:]))
            elif word.startswith('(') and last and last not in before and not last.startswith('('):
                weight = 0 if is_head and depth == 0 else argument
            if weight is not None:
                found.append((k, depth * inner + weight))
        k += 1
    return found


def broken(line):
    """The line in several lines, or None where it can't be broken."""
    if len(line) <= MOST:
        return [line]
    indent = len(line) - len(line.lstrip())
    at = [(weight, -k) for k, weight in places(line, indent + 12) if k <= MOST]
    if not at:
        return None
    weight, k = min(at)
    k = -k
    return [line[:k].rstrip(), line[k + 1:]]


def in_lines(line, more):
    """A clause, a definition or a lemma in lines of at most 160 columns, or None."""
    indent = len(line) - len(line.lstrip())
    lines, rest = [], line
    while True:
        parts = broken(rest)
        if parts is None:
            return None
        if len(parts) == 1:
            return lines + parts
        lines.append(parts[0])
        rest = ' ' * (indent + more) + parts[1]


def texts(line):
    """A text in Rattle, broken behind a line's end or a blank within it, or None."""
    if line.count('"') != 2 or '//' in line:
        return None
    indent = len(line) - len(line.lstrip())
    first, last = line.index('"') + 1, line.rindex('"')
    lines, rest = [], line
    while len(rest) > MOST:
        ends = len(rest) - (len(line) - last) if rest is line else len(rest.rstrip(',;)')) - 1
        begins = first if rest is line else indent + 2
        for mark in (r'\\n', r' '):
            at = [m.end() for m in re.finditer(mark, rest) if begins < m.end() < min(MOST, ends) and rest[m.end()] not in '" ']
            if at:
                break
        if not at:
            return None
        lines.append(rest[:at[-1]] + '\\')
        rest = ' ' * (indent + 2) + rest[at[-1]:]
    return lines + [rest]


def shortened(path, line):
    """The line in several lines, or None where it stays."""
    if re.match(r'\s*(ghost )?use ', line):
        return imports(line)
    if re.match(r'\s*(//|--|#)', line):
        return None
    if path.suffix == '.rt' and 'b"' in line:
        return texts(line)
    return in_lines(line, 4)


def documents():
    """The places of long lines in documents, those aside that show what a program prints."""
    for path in sorted([*ROOT.glob('*.md'), *ROOT.glob('*/*.md'), *ROOT.glob('docs/dev/*.md')]):
        before, in_block = '', False
        for number, line in enumerate(path.read_text(encoding='utf8').split('\n'), 1):
            in_block = line.startswith('    ') and (in_block or not before.strip())
            if len(line) > MOST and not in_block:
                yield f'{path.relative_to(ROOT)}:{number}: {len(line)}'
            before = line


def main(words):
    if '--documents' in words:
        found = list(documents())
        print('\n'.join(found) or f'long_lines: no line of a document has more than {MOST} columns')
        sys.exit(1 if found else 0)
    writes = '--write' in words
    parts = [word for word in words if word != '--write']
    for path in sorted((ROOT / 'crates').rglob('*')):
        name = str(path.relative_to(ROOT))
        if path.suffix not in ('.rt', '.antt') or '/out/' in name:
            continue
        if parts and not any(part in name for part in parts):
            continue
        kept, changed = [], False
        for number, line in enumerate(path.read_text(encoding='utf8').split('\n'), 1):
            lines = [line]
            if len(line) > MOST:
                lines = shortened(path, line) or [line] if writes else [line]
                if lines == [line]:
                    print(f'{name}:{number}: {len(line)}')
            changed = changed or lines != [line]
            kept += lines
        if changed:
            path.write_text('\n'.join(kept), encoding='utf8')


main(sys.argv[1:])
