#!/usr/bin/env python3
"""Whether each misreading of crates/*/misreadings.txt can still be made.

    tools/misreadings.py

A misreading is a sentence of the paper read otherwise, in a definition: a line `--- NAME`, then a line `file: specs/FILE.antt`, lines `old: ..` and `new: ..`,
as in a must-fail edit, and `why: ..`. Each old text has to stand once in its file, once those before it are made. Says what does not, and exits
with 1. Whether a figure refuses it is tried by tools/pins.py.
"""
import re
import sys
from pathlib import Path

CRATES = Path(__file__).resolve().parent.parent / 'crates'


class Fault(Exception):
    pass


def misread(lines, text_of):
    """The file that a misreading changes, and its text then: misread LINES (file -> its text)"""
    file, text, old = None, None, None
    for line in lines:
        key, _, value = line.partition(': ')
        if key == 'file':
            if file:
                raise Fault('changes two files')
            file = value
            text = text_of(file)
        elif key == 'old':
            old = value
        elif key == 'new':
            if not file or not old:
                raise Fault(f'no file or no old text before the new one: {value}')
            if text.count(old) != 1:
                raise Fault(f'stands {text.count(old)} times in {file}: {old}')
            text, old = text.replace(old, value), None
    if not file:
        raise Fault('names no file')
    if text == text_of(file):
        raise Fault('changes nothing')
    return file, text


def misreadings(source):
    """Each misreading of a file: its name and its lines."""
    for block in re.split(r'^--- ', source, flags=re.M)[1:]:
        name, *lines = block.splitlines()
        yield name.strip(), lines


def main():
    count, faults = 0, 0
    for written in sorted(CRATES.glob('*/misreadings.txt')):
        for name, lines in misreadings(written.read_text(encoding='utf-8')):
            count += 1
            try:
                misread(lines, lambda file: (written.parent / file).read_text(encoding='utf-8'))
            except (Fault, OSError) as fault:
                faults += 1
                print(f'{written.relative_to(CRATES.parent)}: {name}: {fault}')
    print(f'{count} misreadings, {count - faults} of them can be made')
    sys.exit(1 if faults or not count else 0)


if __name__ == '__main__':
    main()
