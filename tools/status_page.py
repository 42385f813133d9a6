#!/usr/bin/env python3
"""Holds docs/STATUS-TABLE.md to the program.

    tools/status_page.py FLOWS..

The rows of the page have to be those of status_table.rt, in its order. Each example, an offer and an answer, is played by the command FLOWS (crates/flows), and
has to get the status and the deciding line that the page says, the status being that of the row it stands under.
"""
import re
import subprocess
import sys
from pathlib import Path

ROOT = Path(__file__).resolve().parent.parent
PAGE = ROOT / 'docs/STATUS-TABLE.md'
CODE = ROOT / 'crates/policy/src/status_table.rt'
FRESH = 2  # the head of an exchange: origin + 2 * mode, mode 1 a fresh session

ROW = re.compile(r'^\| (\d) \| `(StatusRow\(.*, (\w+)\))` \|.*\| (\d) (\w+) \|$', re.M)
EXAMPLE = re.compile(r'### Row (\d)\n\nThe (handset|network) offers\n\n((?:    .*\n)+)\nand the (handset|network) answers\n\n((?:    .*\n)+)\nStatus (\d), by `(.*?)`\.')


def text_of(block):
    return re.sub('^    ', '', block, flags=re.M).encode()


def exchange(example):
    """The example as crates/flows reads it."""
    origin = 0 if example[2] == 'handset' else 1
    parts = [f'{FRESH + origin}\n'.encode()]
    for block in (example[3], example[5]):
        parts.append(f'{len(text_of(block))}\n'.encode() + text_of(block))
    return b''.join(parts)


def faults(rows, examples, told):
    code = re.findall(r'^    (StatusRow\(.*?\)),$', CODE.read_text(), re.M)
    if [row[2] for row in rows] != code:
        yield f'the rows of {PAGE.name} are not those of {CODE.name}'
    if [row[1] for row in rows] != [example[1] for example in examples] or len(rows) != len(told):
        yield 'not every row has its example'
    for row, example, (status, line) in zip(rows, examples, told):
        if example[2] == example[4]:
            yield f'row {row[1]}: one side both offers and answers'
        if row[3].lower() != row[5].replace('_', '').lower():
            yield f'row {row[1]}: it gives {row[3]}, and not {row[5]}'
        if not row[4] == example[6] == status or example[7] != line:
            yield f'row {row[1]}: the program says status {status}, by {line}'


def main():
    if len(sys.argv) < 2:
        sys.exit(__doc__)
    page = PAGE.read_text()
    rows, examples = list(ROW.finditer(page)), list(EXAMPLE.finditer(page))
    played = subprocess.run(sys.argv[1:], input=b''.join(map(exchange, examples)), stdout=subprocess.PIPE, check=True).stdout.decode()
    told = re.findall(r'^1 \d \d (\d) .*\n1 by (.*)$', played, re.M)
    found = list(faults(rows, examples, told))
    for fault in found:
        print(fault)
    if found:
        sys.exit(1)
    print(f'{len(rows)} rows of the status table, and their examples, are as {PAGE.name} says')


main()
