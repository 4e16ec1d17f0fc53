#!/usr/bin/env python3
"""Spells the repository's own names of specs/ and proofs/ as today's Rattle does, after the kit's port.py: `python3 tools/respell.py`, once, at the top.

A word's dashes become underscores, a fact's or a type's words run together with capitals (In-range: InRange), a prime is an apostrophe. The crate `log`,
whose name the kit has taken, is `request_log`. Names of src/, of C, and of the kit's libraries stay, and so do strings, inputs and outputs.
The must-fail edits are respelled with the text that they change.
"""
import os
import re
import subprocess
import sys

TOP = subprocess.run(['git', 'rev-parse', '--show-toplevel'], capture_output=True, text=True, check=True).stdout.strip()
NAME = r"[^\W\d_](?:[\w'′₀-₉]|-(?=[\w]))*"
TOKEN = re.compile(r"(?<![\w'′-])" + NAME)
DECLARED = re.compile(r"^\s*(?:pub |abbrev |unfoldable |record |data )*(" + NAME + r")(?: \(.*?\)| \{.*?\})* :", re.M)
# where the new spelling would fall together with a name that is there already
APART = {'server-count': 'server_count_of'}


def files(suffixes):
    for folder, dirs, names in os.walk(os.path.join(TOP, 'crates')):
        dirs[:] = sorted(d for d in dirs if d != 'out')
        for name in sorted(names):
            if name.endswith(suffixes):
                yield os.path.join(folder, name)


def read(path):
    with open(path, encoding='utf-8') as f:
        return f.read()


def is_walk(path):
    """A function's own proof, whose names Rattle makes."""
    return os.path.basename(path) == 'Proof.antt'


def crates():
    with open(os.path.join(TOP, 'crates.txt'), encoding='utf-8') as f:
        return [line.split(':')[0].split()[0] for line in f if line.strip() and not line.startswith('#')]


def outside(texts, own):
    """The names that are imported from the kit."""
    names = set()
    for text in texts:
        for module, items in re.findall(r'use ([\w.+-]+)\.\{([^}]*)\}', text):
            head = module.split('.')
            if head[0] == 'Rattle' and len(head) > 1 and head[1] in own:
                continue
            names |= {item.split(' as ')[0].strip() for item in items.split(',')}
    return names


def respelled(name):
    if name in APART:
        return APART[name]
    name = name.replace('′', "'")
    if name[0].isupper():
        first, *rest = name.split('-')
        return first + ''.join(word[:1].upper() + word[1:] for word in rest)
    return name.replace('-', '_')


def table():
    own = set(crates()) | {'log', 'request_log'}
    texts = {path: read(path) for path in files(('.antt', '.rt'))}
    kit = outside(texts.values(), own)
    names = set()
    for path, text in texts.items():
        if path.endswith('.antt') and not is_walk(path):
            names |= {token for line in text.split('\n') if not line.startswith(('use ', '--')) for token in TOKEN.findall(line.split(' -- ')[0])}
    for path, text in texts.items():
        if is_walk(path):
            names |= {name for name in TOKEN.findall(text) if name.endswith('-spec')}
    return {name: respelled(name) for name in names - kit if respelled(name) != name}


def turned(text, names, comment):
    """A file's text with its names respelled: in comments only those in backquotes."""
    def word(match):
        return names.get(match.group(0), match.group(0))
    lines = []
    for line in text.split('\n'):
        if line.lstrip().startswith(comment):
            line = re.sub(r'`[^`]*`', lambda m: TOKEN.sub(word, m.group(0)), line)
        else:
            line = TOKEN.sub(word, line)
        lines.append(line)
    return '\n'.join(lines)


def main():
    names = table()
    if '--list' in sys.argv:
        for name in sorted(names):
            print(name, names[name])
        return
    for path in list(files(('.antt', '.rt', '.edit'))):
        old = read(path)
        new = turned(old, names, '//' if path.endswith('.rt') else '--')
        new = re.sub(r'\bRattle\.log\.', 'Rattle.request_log.', new)
        if path.endswith(('.rt', '.edit')):
            new = re.sub(r'(?<![\w:.])log::', 'request_log::', new)
        if new != old:
            with open(path, 'w', encoding='utf-8') as f:
                f.write(new)
    if os.path.isdir(os.path.join(TOP, 'crates/log')):
        subprocess.run(['git', 'mv', 'crates/log', 'crates/request_log'], cwd=TOP, check=True)
        path = os.path.join(TOP, 'crates.txt')
        text = re.sub(r'\blog\b(?=[ :\n])', 'request_log', read(path))
        with open(path, 'w', encoding='utf-8') as f:
            f.write(text)
    for crate in crates():
        subprocess.run(['rt', 'fmt'], cwd=os.path.join(TOP, 'crates', crate), check=True, stdout=subprocess.DEVNULL)


main()
