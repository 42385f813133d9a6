"""Whether the structs of the crates have the fields of the table: the same names, in the same order, of the same widths."""
from structs import ARRAY, BYTES as RATTLE_BYTES, struct_named
from table import BYTES

# A word of Rattle that C++ has too.
NAMES = {'class_number': 'class'}


def of_table(table, element, path=''):
    """Each number of a type of the table: its path, and its bytes."""
    if element in BYTES:
        return [(path, BYTES[element])]
    numbers = []
    for field in table.structs[element].fields:
        name = f'{path}_{NAMES.get(field.name, field.name)}'
        paths = [f'{name}{i + 1}' for i in range(field.length)] if field.length else [name]
        numbers += [number for each in paths for number in of_table(table, field.element, each)]
    return numbers


def of_rattle(type_, path=''):
    """Each number of a type of Rattle: its path, and its bytes. The field of a tuple struct has no name of its own."""
    if type_ in RATTLE_BYTES:
        return [(path, RATTLE_BYTES[type_])]
    if array := ARRAY.fullmatch(type_):
        return [number for i in range(int(array['length'])) for number in of_rattle(array['element'].strip(), f'{path}{i + 1}')]
    struct = struct_named(type_)
    if not struct.is_c:
        raise ValueError(f'{type_}: not #[repr(C)]')
    numbers = []
    for name, field in zip(struct.names, struct.fields):
        numbers += of_rattle(field, f'{path}_{name}' if name else path)
    return numbers


def difference(table, struct):
    """How a struct of the table differs from that of Rattle; None where it does not."""
    try:
        there = of_rattle(struct.rattle)
    except ValueError as error:
        return str(error)
    here = of_table(table, struct.name)
    for one, other in zip(here, there):
        if one != other:
            return f'{one[0][1:]} of {one[1]} bytes, in Rattle {other[0][1:]} of {other[1]}'
    return None if len(here) == len(there) else f'{len(here)} numbers, in Rattle {len(there)}'


def differences(table):
    """What is to be said of each struct that differs."""
    for struct in table.structs.values():
        if text := difference(table, struct):
            yield f'{struct.name}, in Rattle {struct.rattle}: {text}'
