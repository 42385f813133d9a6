"""The fields of a row with their ranges, for the host that tries each at its ends: host/lent/row_fields.h."""
import re

from table import BYTES, PREFIX

# The parts of a row: the host's name, the path from the row, and whether it is one of eight.
PARTS = [
    ('HELD', 'held'),
    ('COMPONENT', 'held.components[0]'),
    ('OFFER', 'offer'),
    ('DESCRIPTION', 'offer.said.media[0]'),
]

HEAD = f"""\
/* Written by tools/row/write.py, for fields.c: each field of a row, its part and its range. */
#include "fields.h"

#define PLACE(member) offsetof(struct {PREFIX}row, member), sizeof(((struct {PREFIX}row *)0)->member)
#define AT(kind, path, member, range, least, greatest) {{ #member, kind, 0, PLACE(path.member), range, least, greatest, 0, 0 }}
#define WITH(kind, path, member, range, least, greatest, other) \\
    {{ #member, kind, 0, PLACE(path.member), range, least, greatest, PLACE(path.other) }}
"""

NAMED = {'class': 'CLASS', 'transport': 'TRANSPORT', 'port': 'PORT', 'part': 'PART', 'count': 'COUNT'}
ENDS = {'class': (0, 9), 'transport': (1, 2), 'port': (0, 65535), 'part': (0, 1), 'count': (0, 8)}
FROM_TO = re.compile(r'(?P<least>\d+)\.\.(?P<greatest>\d+)')


def ends_of(field, text):
    """The least and the greatest value of a range without its condition."""
    if text in ENDS:
        return ENDS[text]
    if text == 'any':
        return 0, 256 ** BYTES[field.element] - 1
    match = FROM_TO.fullmatch(text)
    if not match:
        raise ValueError(f'{field.name}: {text}: no range of a field of a row')
    return int(match['least']), int(match['greatest'])


def speaks_for(struct, flag):
    """The field that is 0 unless this one is 1, if there is one."""
    for field in struct.fields:
        if field.range.endswith(f' if {flag.name}'):
            return field.name
    return None


def entry(kind, path, member, field, struct):
    text, _, flag = field.range.partition(' if ')
    least, greatest = ends_of(field, text)
    where = f'{kind}, {path}, {member}'
    ends = f'{least}, {greatest}u' if greatest < 2 ** 32 else f'{least}, UINT64_C({greatest})'
    if flag:
        if flag not in (other.name for other in struct.fields):
            raise ValueError(f'{field.name}: no field {flag} beside it')
        return f'WITH({where}, IF_GIVEN, {ends}, {flag})'
    if other := speaks_for(struct, field):
        return f'WITH({where}, GIVEN, {ends}, {other})'
    return f'AT({where}, {NAMED.get(text, "FROM_TO")}, {ends})'


def element_of(table, path):
    """The name of the struct at a path from the row."""
    name = 'row'
    for step in path.split('.'):
        fields = {field.name: field for field in table.structs[name].fields}
        name = fields[step.removesuffix('[0]')].element
    return name


def fields_of(table, kind, path):
    return [entry(kind, path, *number) for number in table.numbers(element_of(table, path))]


def list_text(name, entries):
    return f'static const struct field {name}[] = {{\n' + ''.join(f'    {each},\n' for each in entries) + '};\n'


def lent_fields(table, _):
    held, component, offer, description = (fields_of(table, *part) for part in PARTS)
    lists = [list_text('plain', held + offer), list_text('of_component', component), list_text('of_description', description)]
    return '\n'.join([HEAD, *lists])
