#!/usr/bin/env python3
"""Gives the repository's own definitions and lemmas their new names, once, at the top of the repository.

tools/respell.txt has a line for each name: the old name, a space, the new one. Only whole names are changed: in
specs/ and proofs/ everywhere, in .rt files in the lines of contracts, ghost members and ghost imports, in must-fail
edits everywhere, and in pages between backticks. Code, strings, inputs and outputs stay as they are.
"""
import glob
import re

TABLE = dict(line.split() for line in open('tools/respell.txt', encoding='utf-8'))
NAME = re.compile(r"[A-Za-z0-9_'\-\u00aa-\u1fff\u2080-\u208e\u2100-\u214f]+")
GHOST = re.compile(r"^\s*(ghost\b|requires\b|ensures\b|invariant\b|decreases\b)")


def respell(text):
    return NAME.sub(lambda m: TABLE.get(m.group(0), m.group(0)), text)


def respell_source(text):
    return ''.join(respell(line) if GHOST.match(line) else line for line in text.splitlines(keepends=True))


def respell_page(text):
    return re.sub(r'`[^`\n]*`', lambda m: respell(m.group(0)), text)


def turn(pattern, change):
    for path in sorted(glob.glob(pattern, recursive=True)):
        with open(path, encoding='utf-8') as file:
            old = file.read()
        new = change(old)
        if new != old:
            with open(path, 'w', encoding='utf-8') as file:
                file.write(new)
            print(path)


if __name__ == '__main__':
    turn('crates/*/specs/**/*.antt', respell)
    turn('crates/*/proofs/**/*.antt', respell)
    turn('crates/*/src/**/*.rt', respell_source)
    turn('crates/*/must-fail/*.edit', respell)
    turn('docs/*.md', respell_page)
    turn('README.md', respell_page)
