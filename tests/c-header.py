#!/usr/bin/env python3
"""Checks that the C header and rust/capi agree, since no compiler sees both.

- Functions and structs have the same names. Their parameters and fields have the same names and
  types, in the same order.
- Statuses, operators, reasons, dialects and rules have the same numbers, in the Python package too.
- The name of a status is the name of its constant.
- rust/capi/semver_parser.map and the file of symbols in debian/ list each function once.
- All have the version of the library.

Prints what differs, and exits with 1 if anything does.
"""
import difflib
import glob
import os
import re
import sys

TOP = os.path.dirname(os.path.dirname(os.path.abspath(__file__)))
NUMBERS = ('dialect', 'pre_releases', 'status', 'reason', 'op', 'operator', 'component_kind')
# Types of the header by the types of Rust. A number of an enumeration is an int32_t.
TYPES = {
    'i32': 'int32_t', 'u32': 'uint32_t', 'u64': 'uint64_t', 'usize': 'size_t', 'bool': 'bool', 'c_char': 'char', '()': 'void', 'u8': 'char',
    'Status': 'int32_t', 'StringView': 'semver_parser_string', 'Options': 'semver_parser_options', 'Error': 'semver_parser_error',
    'Version': 'semver_parser_version', 'Comparator': 'semver_parser_comparator', 'Range': 'semver_parser_range',
    'Comparators': 'semver_parser_comparators', 'Component': 'semver_parser_component', 'Term': 'semver_parser_term',
    'PartialVersion': 'semver_parser_partial_version', 'Span': 'semver_parser_span',
}


def read(path):
    with open(os.path.join(TOP, path), encoding='utf-8') as file:
        return file.read()


def without_comments(text):
    text = re.sub(r'/\*.*?\*/', '', re.sub(r'^ *//.*$', '', text, flags=re.M), flags=re.S)
    return re.sub(r'\s+', ' ', text)


def header():
    text = without_comments(re.sub(r'^#.*(\\\n.*)*$', '', read('rust/capi/include/semver_parser.h'), flags=re.M))
    for name in NUMBERS:
        text = re.sub(rf'\bsemver_parser_{name}\b(?! ?[;(])', 'int32_t', text)
    return text


def rust():
    return without_comments(''.join(read(path) for path in sorted(glob.glob(os.path.join(TOP, 'rust/capi/src/*.rs')))))


def in_c(kind):
    """Returns the C form of a type of Rust, with a star directly after it for each pointer."""
    match = re.fullmatch(r'(\*const|\*mut) (.*)', kind)
    if match is None:
        return TYPES[kind]
    return ('const ' if match[1] == '*const' and not match[2].startswith('*') else '') + in_c(match[2]) + ' *'


def parameter(name, kind):
    array = re.fullmatch(r'\[i32; (\d+)\]|\[u64; (\d+)\]', kind)
    if array is not None:
        return f'{"int32_t" if array[1] else "uint64_t"} {name}[{array[1] or array[2]}]'
    return re.sub(r'\* ', '*', f'{in_c(kind)} {name}').replace('* *', '**')


def parameters(text):
    """Returns the parameters of a list. An array is followed by its count."""
    found = []
    for name, kind, count in re.findall(r'(?:pub )?(\w+): (\[[^\]]*\]|[^,\[]+?)(?:\[(\w+)\])? ?(?:,|$)', text.strip()):
        found.append(parameter(name, kind.replace('&', '*const ')))
        found += [f'size_t {count}'] if count else []
    return ', '.join(found)


def functions_in_rust():
    text = rust()
    table = re.search(r'functions! \{ (semver_parser_free.*?;) \}', text)[1]
    outputs = re.findall(r'(semver_parser_\w+)\(([^)]*)\) -> (\w+): ([^,=]+?)(, error)? = ', table)
    for name, given, out, kind, error in outputs:
        made = ', semver_parser_error *error' if error else ''
        yield f'int32_t {name}({parameters(given)}, {parameter(out, "*mut " + kind)}{made})'
    for name, given, kind in re.findall(r'(semver_parser_\w+)\(([^)]*)\) => (\S.*?) = ', table):
        yield re.sub(r'\* ', '*', f'{in_c(kind)} {name}({parameters(given)})')
    for name, given in re.findall(r'(semver_parser_\w+)\((\w+: \*mut \w+)\) = ', table):
        yield f'void {name}({parameters(given)})'
    for name, given in re.findall(r'pub unsafe extern "C" fn (semver_parser_\w+)\( ?([^)]*?) ?\) -> Status', text):
        yield f'int32_t {name}({parameters(given)})'


def functions_in_c():
    for kind, name, given in re.findall(r'(?<!inline )((?:const )?\w+ \*?)(semver_parser_\w+)\(([^)]*)\);', header()):
        given = given.strip().replace('void *string', 'char *string')
        yield f'{kind}{name}({"" if given == "void" else given})'


def structs_in_rust():
    for name, fields in re.findall(r'#\[repr\(C\)\] (?:#\[derive\([^)]*\)\] )?pub struct (\w+) \{([^}]*)\}', rust()):
        of_bytes = parameters(fields.strip().rstrip(',')).replace('const char *data', 'const char *data')
        yield f'{TYPES[name]}: {of_bytes}'


def structs_in_c():
    for fields, name in re.findall(r'typedef struct \{([^}]*)\} (\w+);', header()):
        yield f'{name}: ' + ', '.join(field.strip() for field in fields.split(';') if field.strip())


def constants_in_c():
    return re.findall(r'SEMVER_PARSER_(\w+) = (\d+)', read('rust/capi/include/semver_parser.h'))


def constants_in_rust():
    yield from re.findall(r'const ([A-Z_0-9]+): Status = (\d+);', rust())
    operators = {'Lt': 'LESS', 'Lte': 'LESS_EQUAL', 'Gt': 'GREATER', 'Gte': 'GREATER_EQUAL', 'Eq': 'EQUAL'}
    for name, number in re.findall(r'Op::(\w+) => (\d)', rust()):
        yield 'OP_' + operators[name], number
    kinds = re.search(r'impl Component \{.*?\n\}', read('rust/capi/src/types.rs'), re.S)[0]
    yield 'COMPONENT_NONE', '0' if 'None => Component::default()' in kinds else '?'
    for name, number in re.findall(r'Component::(\w+)(?:\(\w+\))?\) => Component \{ kind: (\d)', kinds):
        yield f'COMPONENT_{name.upper()}', number
    yield 'REASON_NONE', '0'
    for path, kind, function, prefix in (
        ('invalid_strings/reasons', 'Reason', 'row', 'REASON'), ('semver_ranges/dialect', 'Dialect', 'number', 'DIALECT'),
        ('version_sets/rules', 'PreReleases', 'number', 'PRE_RELEASES'), ('semver_ranges/operator', 'Operator', 'number', 'OPERATOR'),
    ):
        body = re.search(rf'fn {function}\(.*?\n    \}}', read(f'rust/src/proved/{path}.rs'), re.S)[0]
        for name, number in re.findall(rf'{kind}::(\w+) => \(?\s*(\d+)', body):
            # Rattle still calls the rule ByDialect by this name.
            name = 'ByDialect' if name == 'Default' else name
            yield prefix + re.sub(r'([A-Z])', r'_\1', name).upper(), number


def statuses_by_name():
    """Yields the names in STATUS_NAMES, each with its index as its number."""
    source = read('rust/capi/src/message.rs')
    names = re.search(r'STATUS_NAMES: [^=]* = \[(.*?)\];', source, re.S)[1]
    for number, name in enumerate(re.findall(r'"([a-z-]+)\\0"', names)):
        yield f'{name.upper().replace("-", "_")} = {number}'


def statuses_in_c():
    """Returns the statuses in the header."""
    text = read('rust/capi/include/semver_parser.h')
    statuses = re.search(r'semver_parser_status;\nenum \{(.*?)\n\};', text, re.S)[1]
    found = re.findall(r'SEMVER_PARSER_(\w+) = (\d+)', statuses)
    return [f'{name} = {number}' for name, number in found]


def errors_of_statuses():
    statuses = statuses_in_c()
    yield from differences(statuses, statuses_by_name())
    path = 'python/semver_parser/_interface.py'
    in_python = re.findall(r'^[A-Z_]+ = \d+$', read(path), re.M)
    yield from (f'{path}: {it} is not a status' for it in in_python if it not in statuses)
    if len(statuses) < 8 or len(in_python) < 7:
        yield f'{len(statuses)} statuses and {len(in_python)} of Python are too few'


def versions():
    text = read('rust/capi/include/semver_parser.h')
    parts = re.findall(r'#define SEMVER_PARSER_VERSION_(?:MAJOR|MINOR|PATCH) (\d+)', text)
    yield '.'.join(parts)
    yield from re.findall(r'#define SEMVER_PARSER_VERSION "([^"]*)"', text)
    number = int(re.search(r'#define SEMVER_PARSER_VERSION_NUMBER (\d+)', text)[1])
    yield f'{number // 1000000}.{number // 1000 % 1000}.{number % 1000}'
    for manifest in 'rust/Cargo.toml', 'rust/programs/Cargo.toml', 'rust/capi/Cargo.toml', 'rust/wasm/Cargo.toml':
        yield from re.findall(r'^version = "(.*)"$', read(manifest), re.M)
    yield from re.findall(r'^version: (.*)$', read('CITATION.cff'), re.M)


def differences(wanted, told):
    return list(difflib.unified_diff(sorted(wanted), sorted(told), 'in C', 'in Rust', lineterm='', n=0))


def errors():
    functions, structs = list(functions_in_c()), list(structs_in_c())
    constants = [f'{name} = {number}' for name, number in constants_in_c()]
    yield from differences(functions, functions_in_rust())
    yield from differences(structs, structs_in_rust())
    yield from differences(constants, (f'{name} = {number}' for name, number in constants_in_rust()))
    yield from errors_of_statuses()
    names = [re.search(r'(semver_parser_\w+)\(', it)[1] for it in functions]
    yield from differences(names, re.findall(r'^    (semver_parser_\w+);$', read('rust/capi/semver_parser.map'), re.M))
    symbols = read('debian/libsemver-parser1.symbols')
    yield from differences(names, re.findall(r'^ (semver_parser_\w+)@SEMVER_PARSER_1\.0 1\.0\.0$', symbols, re.M))
    yield from differences([read('VERSION').strip()] * 9, versions())
    if len(functions) < 34 or len(structs) < 5 or len(constants) < 39:
        yield f'{len(functions)} functions, {len(structs)} structs and {len(constants)} numbers were found, which are too few'


def main():
    found = list(errors())
    for error in found:
        print(error)
    print('C header: failed' if found else 'C header: passed')
    return 1 if found else 0


sys.exit(main())
