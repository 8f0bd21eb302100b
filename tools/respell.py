#!/usr/bin/env python3
"""Spells this repository's own definitions and lemmas as today's Rattle spells names.

usage: tools/respell.py        at the top of the repository, once, right after the kit's porting script

Words are in snake case, types and modules in camel case: `edit-refusal` becomes `edit_refusal`, `Carries-on` becomes
`CarriesOn`. Constructors mirror Rust's variants and are spelled like types. What stays: names that a file imports from the
standard library, the labels that Rattle makes for a function's goals, everything in strings, and prose.
"""
import collections
import os
import re
import sys

WORD = r'[^\s(){}.;,@"«»]+'
DASHED = re.compile(r"[A-Za-z_◌][\w'◌]*(?:-[\w'◌]+)+|[A-Z]\w*_\w+")
HEADS = {'goal', 'given', 'c', 'w', 'l', 'g', 'v'}
LABELS = re.compile(r'/proofs/.*/(Answers|Invariants)\.antt$')
# words of an older library inside names of ours, and a name that begins with an operator
WORDS = {'≤ℤ-trans': '≤ℤ_trans', 'leZ-true': 'int_le_true', 'ltZ-false': 'int_lt_false', 'in-getD': 'in_get_or'}


def files(ending):
    for folder, dirs, names in os.walk('crates'):
        dirs[:] = [d for d in dirs if d != 'out']
        for name in sorted(names):
            if name.endswith(ending):
                yield os.path.join(folder, name)


def uncommented(text):
    return re.sub(r'--[^\n]*', '', text)


def declared():
    """Each name that an .antt file declares at its own level, with what it is."""
    found = collections.defaultdict(set)
    for path in files('.antt'):
        if LABELS.search(path):
            continue
        lines = uncommented(open(path).read()).split('\n')
        block, depth = None, 0
        for i, line in enumerate(lines):
            indent = len(line) - len(line.lstrip())
            if line.strip() and block and indent <= depth:
                block = None
            head = re.match(r'^( *)(?:(?:pub|abbrev|unfoldable)\s+)*(record|data)\s+(' + WORD + ')', line)
            if head:
                found[head[3]].add('type')
                block, depth = head[2], len(head[1])
                continue
            item = re.match(r'^( *)(?:(?:pub|abbrev|unfoldable)\s+)*(' + WORD + r')((?: \{[^{}]*\}| \([^()]*\))*)\s:\s?(.*)$', line)
            if not item:
                continue
            kind = {'record': 'field', 'data': 'constructor'}.get(block, 'word')
            if kind == 'word':
                shape = item[4]
                for later in lines[i + 1:]:
                    if not later.strip() or len(later) - len(later.lstrip()) <= indent:
                        break
                    shape += ' ' + later.strip()
                if re.search(r'Type( \d+|\b[^→]*)?$', shape.strip()):
                    kind = 'type'
            found[item[2]].add(kind)
    return found


def camel(name):
    return ''.join(part[:1].upper() + part[1:] for part in re.split('[-_]', name))


def spelled(name, kinds):
    if kinds & {'type', 'constructor'}:
        return camel(name)
    return name.replace('-', '_')


def imported(text):
    """The names that a file takes from a library that is not of this repository."""
    own = {line.split(':')[0] for line in open('crates.txt') if ':' in line and not line.startswith('#')}
    names = set()
    for path, items in re.findall(r'use ([\w.]*)\.\{([^}]*)\}', text):
        steps = path.split('.')
        if steps[0] == 'Rattle' and steps[1] in own:
            continue
        for item in items.split(','):
            names |= set(re.split(r'\s+as\s+', item.strip())[:1])
    return names


def made(text):
    """The labels of a function's goals that an answer file names."""
    names = set(re.findall(r'(?m)^(?:abbrev )?(?:pub )?(' + WORD + r') : (?:goal|given)\.', text))
    for items in re.findall(r'use Rattle[\w.+]*\.(?:Goals|Given)\.\{([^}]*)\}', text):
        names |= {item.strip() for item in items.split(',')}
    return names


def turned(code, names, stay, answers):
    out, at = [], 0
    for match in DASHED.finditer(code):
        name = match[0]
        out.append(code[at:match.start()])
        at = match.end()
        before = code[:match.start()]
        new = spelled(name, names[name]) if name in names else name.replace('-', '_') if '-' in name else name
        if '◌' in name or name in stay:
            new = name
        elif re.search(r'\w\Z', before):
            new = name
        elif answers and (before.endswith('+') or code[at:at + 1] == '+'):
            # a way into a join, named by its tests
            new = name
        elif answers:
            chain = re.search(r"([\w'\-+]+(?:\.[\w'\-+]+)*)\.\Z", before)
            if chain:
                links = chain[1].split('.')
                label = len(links) == 1 and links[0] in HEADS
                if label or name not in names:
                    new = name
        elif before.endswith('.') and name not in names:
            new = name
        out.append(new)
    out.append(code[at:])
    return ''.join(out)


def spans(comment, names):
    """A comment or a page: only what stands between backquotes, and only names that are declared."""
    def span(m):
        return DASHED.sub(lambda d: spelled(d[0], names[d[0]]) if d[0] in names else d[0], m[0])
    return re.sub(r'`[^`\n]*`', span, comment)


def turn_file(path, names):
    old = open(path).read()
    text = old
    for word, other in WORDS.items():
        text = re.sub(r"(?<![\w'-])" + word + r"(?![\w'-])", other, text)
    if path.endswith('.md'):
        new = spans(text, names)
    else:
        mark = '--' if path.endswith('.antt') else '//'
        answers = bool(LABELS.search(path))
        stay = imported(text) | (made(text) if answers else set())
        quiet = re.compile(r'"(?:[^"\\\n]|\\.)*"|(?<![\w])' + mark + r'[^\n]*')
        out, at = [], 0
        for m in quiet.finditer(text):
            out.append(turned(text[at:m.start()], names, stay, answers))
            out.append(spans(m[0], names) if m[0].startswith(mark) else m[0])
            at = m.end()
        out.append(turned(text[at:], names, stay, answers))
        new = ''.join(out)
    if new != old:
        open(path, 'w').write(new)
        return True
    return False


def main():
    names = declared()
    new = collections.defaultdict(set)
    for name, kinds in names.items():
        new[spelled(name, kinds)].add(name)
    for name, old in sorted(new.items()):
        if len(old) > 1:
            print('fall together: ' + ' '.join(sorted(old)) + ' -> ' + name)
    count = sum(turn_file(path, names) for ending in ('.antt', '.rt', '.edit') for path in files(ending))
    pages = ['README.md'] + [os.path.join('docs', p) for p in os.listdir('docs') if p.endswith('.md')]
    count += sum(turn_file(path, names) for path in pages)
    print(f'{count} files turned')
    if '--table' in sys.argv:
        for name, kinds in sorted(names.items()):
            if spelled(name, kinds) != name:
                print(f'{name}\t{spelled(name, kinds)}')


if __name__ == '__main__':
    main()
