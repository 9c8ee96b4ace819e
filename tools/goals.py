#!/usr/bin/env python3
"""Turns the names of goals and steps in the proof files of functions to today's spelling, once, at the top of the repository.

A dash joins the parts of such a name; a name of the source, and a word of the prover's own, keeps its underscores.
"""
import glob
import re

NAME = re.compile(r"[A-Za-z0-9_'\-\u00aa-\u1fff\u2080-\u208e\u2100-\u214f]+")
OWN = ['overflow_add', 'overflow_sub', 'overflow_mul', 'overflow_shl', 'overflow_shr', 'overflow_cast', 'overflow_step',
       'nonzero_div', 'nonzero_rem', 'invariant_of', 'offset_bounds', 'slice_bounds', 'in_ok', 'in_err', 'in_default',
       'copy_from_slice', 'to_be_bytes', 'from_residual', 'saturating_add', 'saturating_sub', 'saturating_mul', 'as_slice',
       'the_impl']


def identifiers(crate):
    found = set(OWN)
    for path in glob.glob(f'crates/{crate}/src/**/*.rt', recursive=True):
        with open(path, encoding='utf-8') as file:
            text = re.sub(r'//.*', '', file.read())
        found.update(re.findall(r'\b[A-Za-z][A-Za-z0-9]*(?:_[A-Za-z0-9]+)+\b', text))
    return sorted(found, key=len, reverse=True)


def respell(name, words):
    if '-' not in name:
        return name
    for word in words:
        name = re.sub(rf"(?<![A-Za-z0-9_]){re.escape(word.replace('_', '-'))}(?![A-Za-z0-9_])", word, name)
    return name


def main():
    for folder in sorted(glob.glob('crates/*/proofs')):
        words = identifiers(folder.split('/')[1])
        for path in sorted(glob.glob(f'{folder}/*/**/*.antt', recursive=True)):
            with open(path, encoding='utf-8') as file:
                old = file.read()
            lines = []
            for line in old.splitlines(keepends=True):
                keep = line.startswith('use ') and '.proofs.' not in line or line.lstrip().startswith('--')
                lines.append(line if keep else NAME.sub(lambda m: respell(m.group(0), words), line))
            new = ''.join(lines)
            if new != old:
                with open(path, 'w', encoding='utf-8') as file:
                    file.write(new)
                print(path)


if __name__ == '__main__':
    main()
