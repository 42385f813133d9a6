"""The table of fields: what fields.txt says, and where each field stands as C lays it out."""
import re
from dataclasses import dataclass
from pathlib import Path

PREFIX = 'frumxadda_'
BYTES = {'u8': 1, 'u16': 2, 'u32': 4, 'u64': 8, 'i64': 8}
C_TYPES = {'u8': 'uint8_t', 'u16': 'uint16_t', 'u32': 'uint32_t', 'u64': 'uint64_t', 'i64': 'int64_t'}

STRUCT = re.compile(r'struct (?P<name>\w+) (?P<rattle>\w+) (?P<section>\w+)(?P<given> given)?')
TYPE = re.compile(r'(?P<element>\w+)(?:\[(?P<length>\d+)\])?')


@dataclass(frozen=True)
class Field:
    """A field: `element` is its type, or that of the elements of its array, which has `length` of them, else None."""

    name: str
    element: str
    length: int | None
    range: str
    comment: str
    offset: int
    bytes: int

    @property
    def is_plain(self):
        """Whether it is a single number."""
        return self.element in BYTES and self.length is None


@dataclass(frozen=True)
class Struct:
    """A struct, laid out; `alignment` is the power of two that its address is a multiple of."""

    name: str
    rattle: str
    section: str
    given: bool
    comment: str
    fields: tuple[Field, ...]
    bytes: int
    alignment: int


class Table:
    """The structs by their names, in their order."""

    def __init__(self, text):
        self.structs = {}
        for block in re.split(r'\n\s*\n', re.sub(r'(?m)^#.*\n', '', text).strip()):
            struct = self.struct_of(block.split('\n'))
            self.structs[struct.name] = struct

    def struct_of(self, lines):
        head = STRUCT.fullmatch(lines[0])
        if not head or len(lines) < 3 or not lines[1].startswith('| '):
            raise ValueError(f'{lines[0]}: not a struct, what is said of it, and fields')
        name = head['name']
        fields, end, widest = [], 0, 1
        for line in lines[2:]:
            field, alignment = self.field_of(name, line, end)
            fields.append(field)
            end, widest = end + field.bytes, max(widest, alignment)
        if end % widest:
            raise ValueError(f'{name}: C pads its end')
        return Struct(name, head['rattle'], head['section'], bool(head['given']), lines[1][2:], tuple(fields), end, widest)

    def field_of(self, struct, line, offset):
        """The field that stands at that offset, and its alignment."""
        columns = [column.strip() for column in line.split('|')]
        type_ = TYPE.fullmatch(columns[1]) if len(columns) == 4 else None
        if not type_:
            raise ValueError(f'{struct}: {line}: not a name, a type, a range and what is said of it')
        size, alignment = self.extent(type_['element'])
        if offset % alignment:
            raise ValueError(f'{struct}.{columns[0]}: C pads before it')
        length = int(type_['length']) if type_['length'] else None
        return Field(columns[0], type_['element'], length, columns[2], columns[3], offset, size * (length or 1)), alignment

    def extent(self, element):
        if element in BYTES:
            return BYTES[element], BYTES[element]
        if element not in self.structs:
            raise ValueError(f'{element}: no type, and no struct above')
        return self.structs[element].bytes, self.structs[element].alignment

    def numbers(self, name, path=''):
        """The single numbers of a struct and of those in it, but for arrays: each with its path, and the struct it stands in."""
        for field in self.structs[name].fields:
            if field.is_plain:
                yield path + field.name, field, self.structs[name]
            elif field.length is None:
                yield from self.numbers(field.element, f'{path}{field.name}.')


def read_table():
    return Table(Path(__file__).with_name('fields.txt').read_text(encoding='utf-8'))
