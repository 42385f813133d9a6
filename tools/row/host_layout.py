"""Sizes, offsets and fields of all structs, for the host that checks them: host/layout/offsets.h and host/layout/fields.h."""
from table import PREFIX

OFFSETS_HEAD = f"""\
/* Written by tools/row/write.py. */
#ifndef LAYOUT_OFFSETS_H
#define LAYOUT_OFFSETS_H

#include <assert.h>
#include <frumxadda.h>
#include <stddef.h>

/* Size of every struct and offset of every field as the library has them, for C and C++. No struct has padding. */

#define SIZE(type, bytes) static_assert(sizeof(struct {PREFIX}##type) == (bytes), #type)
#define AT(type, field, offset) static_assert(offsetof(struct {PREFIX}##type, field) == (offset), #type "." #field)
"""

OFFSETS_END = """\
#undef SIZE
#undef AT

#endif
"""

FIELDS_HEAD = f"""\
/* Written by tools/row/write.py, for check.c: the fields of each struct that the library gives, down to plain numbers. */
#include "check.h"

#include <frumxadda.h>

#define PLACE(type, member) offsetof(struct {PREFIX}##type, member), sizeof(((struct {PREFIX}##type *)0)->member)
#define AT(type, member) {{ #member, PLACE(type, member), NULL }}
#define AS(type, member, other) {{ #member, PLACE(type, member), #other }}
"""


def offsets(table, _):
    texts = [OFFSETS_HEAD]
    for struct in table.structs.values():
        lines = [f'SIZE({struct.name}, {struct.bytes});']
        lines += [f'AT({struct.name}, {field.name}, {field.offset});' for field in struct.fields]
        texts.append('\n'.join(lines) + '\n')
    return '\n'.join([*texts, OFFSETS_END])


def entry(name, path, field):
    if field.range.startswith('as '):
        return f'AS({name}, {path}, {field.range.removeprefix("as ")})'
    return f'AT({name}, {path})'


def layout_fields(table, _):
    texts, given = [FIELDS_HEAD], [struct.name for struct in table.structs.values() if struct.given]
    for name in given:
        entries = [entry(name, path, field) for path, field, _ in table.numbers(name)]
        fields = ''.join(f'    {each},\n' for each in entries)
        texts.append(f'struct layout layout_{name} = {{ .name = "{name}", .count = {len(entries)}, .fields = {{\n{fields}}} }};\n')
    names = ''.join(f'    &layout_{name},\n' for name in given)
    return '\n'.join([*texts, f'static const struct layout *const layouts[] = {{\n{names}}};\n'])
