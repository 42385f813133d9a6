"""The structs that the crates declare: where each stands, and its fields."""
import re
from dataclasses import dataclass
from functools import cache
from pathlib import Path

CRATES = Path(__file__).resolve().parent.parent.parent / 'crates'

BYTES = {'bool': 1, 'u8': 1, 'i8': 1, 'u16': 2, 'i16': 2, 'u32': 4, 'i32': 4, 'u64': 8, 'i64': 8, 'usize': 8, 'isize': 8}

COMMENT = re.compile(r'//.*')
STRUCT = re.compile(r'(?P<marks>(?:#\[[^\n]*\]\s*)*)pub struct (?P<name>\w+)\s*[{(](?P<fields>[^})]*)[})]')
FIELD = re.compile(r'\s*(?:pub\s+)?(?:(?P<name>\w+)\s*:\s*)?(?P<type>\S[^,]*)')
ARRAY = re.compile(r'\[(?P<element>.*);\s*(?P<length>\d+)\]')


@dataclass(frozen=True)
class Struct:
    """A struct, with the types of its fields, and their names, None in a tuple struct; `modules` are those of its crate that it stands in."""

    name: str
    crate: str
    modules: tuple[str, ...]
    is_c: bool
    fields: tuple[str, ...]
    names: tuple[str | None, ...]


def structs_in(file, crate):
    """The structs that a source file of a crate declares."""
    modules = file.relative_to(CRATES / crate / 'src').with_suffix('').parts
    if modules in (('lib',), ('main',)):
        modules = ()
    for match in STRUCT.finditer(COMMENT.sub('', file.read_text(encoding='utf-8'))):
        fields = [field for field in map(FIELD.match, match['fields'].split(',')) if field]
        types = tuple(field['type'].strip() for field in fields)
        yield Struct(match['name'], crate, modules, '#[repr(C)]' in match['marks'], types, tuple(field['name'] for field in fields))


@cache
def declared():
    """All structs, by their names."""
    found = {}
    for file in sorted(CRATES.glob('*/src/**/*.rt')):
        for struct in structs_in(file, file.relative_to(CRATES).parts[0]):
            found.setdefault(struct.name, []).append(struct)
    return found


def struct_named(name):
    """The one struct of that name, or of that path, from its crate on."""
    *modules, last = name.split('::')
    structs = [struct for struct in declared().get(last, []) if not modules or [struct.crate, *struct.modules] == modules]
    if len(structs) != 1:
        raise ValueError(f'{name}: declared {len(structs)} times in crates/*/src')
    return structs[0]
