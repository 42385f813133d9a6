"""The structs of include/frumxadda.h, section by section, between two marked lines each."""
import re

from table import C_TYPES, PREFIX

WIDTH = 140


def declaration(field):
    type_ = C_TYPES.get(field.element, f'struct {PREFIX}{field.element}')
    return f'{type_} {field.name}{f"[{field.length}]" if field.length else ""};'


def struct_text(struct):
    declarations = [declaration(field) for field in struct.fields]
    width = max(map(len, declarations))
    lines = [f'    {text:{width}} /* {field.comment} */' for text, field in zip(declarations, struct.fields)]
    lines = [f'/* {struct.comment} */', f'struct {PREFIX}{struct.name} {{', *lines, '};']
    for line in lines:
        if len(line) > WIDTH:
            raise ValueError(f'{struct.name}: longer than {WIDTH} columns in the header: {line}')
    return '\n'.join(lines)


def header(table, text):
    """The header with its structs as the table has them."""
    for section in dict.fromkeys(struct.section for struct in table.structs.values()):
        structs = '\n\n'.join(struct_text(struct) for struct in table.structs.values() if struct.section == section)
        begin, end = f'/* begin {section}: written by tools/row/write.py */', f'/* end {section} */'
        between = re.compile(f'(?s){re.escape(begin)}.*?{re.escape(end)}')
        text, found = between.subn(lambda _: f'{begin}\n\n{structs}\n\n{end}', text)
        if found != 1:
            raise ValueError(f'{section}: begun and ended {found} times in the header')
    return text
