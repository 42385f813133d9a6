#!/usr/bin/env python3
"""Writes anew what follows from the table of fields that C shares with the library, fields.txt.

    tools/row/write.py

A new field of a row is a line of that table. From it are written, each in place, and it is said which changed:

    include/frumxadda.h        the structs, between the marked lines of each section
    host/lent/row_fields.h     each field of a row, with its range
    host/layout/offsets.h      size of each struct, and offset of each field
    host/layout/fields.h       the fields of each struct that the library gives

Offsets are those of C, and a struct that C would pad is refused. In the end the table is compared with the structs of the crates: it exits
with 1, and says why on standard error, where names, order or widths differ.
"""
import sys
from pathlib import Path

from header import header
from host_layout import layout_fields, offsets
from host_lent import lent_fields
from rattle import differences
from table import read_table

ROOT = Path(__file__).resolve().parent.parent.parent

FILES = {
    'include/frumxadda.h': header,
    'host/lent/row_fields.h': lent_fields,
    'host/layout/offsets.h': offsets,
    'host/layout/fields.h': layout_fields,
}


def write(name, make, table):
    """Writes the file, and says whether it changed."""
    file = ROOT / name
    before = file.read_text(encoding='utf-8') if file.exists() else ''
    text = make(table, before)
    if text != before:
        file.write_text(text, encoding='utf-8')
    print(f'{name}: {"as it was" if text == before else "written"}')


def main():
    try:
        table = read_table()
        for name, make in FILES.items():
            write(name, make, table)
    except ValueError as error:
        sys.exit(f'fields.txt: {error}')
    found = list(differences(table))
    for text in found:
        print(text, file=sys.stderr)
    sys.exit(1 if found else 0)


if __name__ == '__main__':
    main()
