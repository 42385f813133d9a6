#!/usr/bin/env python3
"""Holds the links of the project's pages to what they point at.

    tools/links.py [--write]

Every link to a file of the repository has to lead to one. Where it names a line, `[`name`](FILE#L12)`, that line has to have the name; with
--write a line that moved is found again, where the file has one line that begins with the name.
"""
import re
import sys
from pathlib import Path

ROOT = Path(__file__).resolve().parent.parent
LINK = re.compile(r'\[([^\]]*)\]\(([^)#\s]+)(?:#L(\d+))?\)')


def pages():
    return sorted(page for page in ROOT.rglob('*.md') if not {'target', 'dist', 'wip'} & set(page.relative_to(ROOT).parts))


def begins(line, name):
    """Whether a line of definitions begins with the name."""
    return re.match(rf'\s*(?:(?:abbrev|unfoldable|pub|record|data)\s+)*{re.escape(name)}(?![\w·-])', line) is not None


def fault_of(page, text, target, number):
    """What is wrong with the link, and the line that it should have, where that is known."""
    file = (page.parent / target).resolve()
    if not file.exists():
        return f'{target} is not there', None
    if number is None:
        return None, None
    lines = file.read_text(encoding='utf-8').splitlines()
    name = re.search(r'`([^`]+)`', text)
    if number > len(lines):
        return f'{target} has {len(lines)} lines, not {number}', found(lines, name)
    if name and name.group(1) not in lines[number - 1]:
        return f'{target}, line {number}, does not have {name.group(1)}', found(lines, name)
    return None, None


def found(lines, name):
    if not name:
        return None
    numbers = [n for n, line in enumerate(lines, 1) if begins(line, name.group(1))]
    return numbers[0] if numbers else None


def check(page, write):
    faults = []
    text = page.read_text(encoding='utf-8')

    def follow(match):
        label, target, number = match.groups()
        if '://' in target:
            return match.group(0)
        fault, line = fault_of(page, label, target, number and int(number))
        if fault and write and line:
            return f'[{label}]({target}#L{line})'
        if fault:
            faults.append(f'{page.relative_to(ROOT)}: [{label}]: {fault}')
        return match.group(0)

    new = LINK.sub(follow, text)
    if new != text:
        page.write_text(new, encoding='utf-8')
    return faults


def main():
    write = sys.argv[1:] == ['--write']
    faults = [fault for page in pages() for fault in check(page, write)]
    print('\n'.join(faults) if faults else 'every link of the pages leads to what it names')
    sys.exit(1 if faults else 0)


if __name__ == '__main__':
    main()
