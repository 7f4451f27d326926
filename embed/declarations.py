"""declarations.py REPOSITORY LIBRARY..: compares what C and Rust declare with the exports.

Of each library it compares the names of the functions, their parameters and results, the numbers of
the statuses, and the fields of the structs: those of crates/LIBRARY_c with embed/include/LIBRARY.h,
and with the declarations of embed/rust, whose statuses must have the numbers that they have in the
headers. It prints each difference, and fails if there is one.
"""
import os
import re
import sys

from unproved import exports

NUMBERS = {'u8': 'uint8_t', 'u32': 'uint32_t', 'u64': 'uint64_t', 'usize': 'size_t', 'bool': 'bool'}


def read(path):
    with open(path, encoding='utf-8') as file:
        return file.read()


def camel(library):
    return ''.join(it.capitalize() for it in library.split('_'))


def in_c(library, kind):
    """How C declares a parameter of this type of Rattle: the types of one or two parameters."""
    own = {'Holder': f'struct {library}', 'Handle': f'struct {library}_handle', **NUMBERS}
    array = re.fullmatch(r'&(mut )?\[(\w+)\]', kind)
    if array:
        return [('' if array[1] else 'const ') + own[array[2]] + ' *', 'size_t']
    lent = re.fullmatch(r'&(mut )?(\w+)', kind)
    if lent:
        return [('' if lent[1] else 'const ') + own[lent[2]] + ' *']
    return [own[kind]]


def in_rust(library, kind):
    """The same in the `extern` block."""
    own = {it: it for it in NUMBERS}
    own['Holder'] = f'Raw{camel(library)}'
    own['Handle'] = camel(library).removesuffix('Map') + 'Handle'
    array = re.fullmatch(r'&(mut )?\[(\w+)\]', kind)
    if array:
        return [('*mut ' if array[1] else '*const ') + own[array[2]], 'usize']
    lent = re.fullmatch(r'&(mut )?(\w+)', kind)
    if lent:
        return [('*mut ' if lent[1] else '*const ') + own[lent[2]]]
    return [own[kind]]


def of_exports(library, text, spell):
    found = {}
    for name, parameters, result in exports(text):
        kinds = [it for _, kind in parameters if kind != 'Global' for it in spell(library, kind)]
        found[name] = (kinds, result)
    return found


def of_header(library, text):
    text = re.sub(r'/\*.*?\*/', '', text, flags=re.S)
    found = {}
    for m in re.finditer(rf'(\w+) ({library}_\w+)\(([^)]*)\);', text):
        kinds = [re.sub(r'\s*\w+$', '', ' '.join(it.split())) for it in m[3].split(',')]
        kinds = [it if it.endswith('*') else it for it in kinds]
        result = {c: own for own, c in NUMBERS.items()}.get(m[1])
        found[m[2]] = ([re.sub(r' ?\*', ' *', it) for it in kinds], result)
    return found


def of_block(library, text):
    found = {}
    form = rf'^    fn ({library}_\w+)\(([^)]*)\)(?:\s+-> (\w+))?;'
    for m in re.finditer(form, text, re.M | re.S):
        kinds = [it.split(':', 1)[1].strip() for it in m[2].split(',') if it.strip()]
        found[m[1]] = (kinds, m[3])
    return found


def fields(text, head):
    """The fields of a struct, without those of the proof alone."""
    body = re.search(rf'{head} \{{(.*?)\n\}}', text, re.S)[1]
    lines = [it.strip().rstrip(',;').removeprefix('pub ') for it in body.split('\n') if it.strip()]
    return [it for it in lines if not it.startswith(('//', 'ghost'))]


def compared_fields(library, repository, header, block):
    """Whether what keeps a map, and a handle, have the same fields everywhere."""
    folder = f'{repository}/crates/{library}_c/src'
    holder = ['at: *mut u8', 'is_made: bool']
    handle = ['index: u32', 'generation: u32']
    places = [
        (read(f'{folder}/holder.rt'), 'pub struct Holder', holder),
        (block, f'struct Raw{camel(library)}', holder),
        (header, f'struct {library}', ['void *at', 'bool is_made']),
    ]
    if os.path.exists(f'{folder}/handle.rt'):
        places += [
            (read(f'{folder}/handle.rt'), 'pub struct Handle', handle),
            (header, f'struct {library}_handle', ['uint32_t index', 'uint32_t generation']),
            (
                read(f'{repository}/embed/rust/src/{library}.rs'),
                f"pub struct {in_rust(library, 'Handle')[0]}",
                handle,
            ),
        ]
    for text, head, wanted in places:
        if fields(text, head) != wanted:
            yield f'{library}: {head} has the fields {fields(text, head)}'


def statuses(library, crate, header):
    told = set(re.findall(r'result (?:≡|≢) (\d+)', crate))
    listed = set(re.findall(rf'{library.upper()}_\w+ = (\d+)', header))
    return [] if told == listed else [f'{library}: statuses {sorted(told)} and {sorted(listed)}']


def numbers(library, header, block):
    """The statuses that have another number in Rust than in the header."""
    here = dict(re.findall(rf'{library.upper()}_(\w+) = (\d+)', header))
    for name, number in re.findall(r'const (\w+): u8 = (\d+);', block):
        if here.get(name, number) != number:
            yield f'{library}: {name} is {here[name]} in C and {number} in Rust'


def differences(one, other, place):
    for name in sorted(one.keys() | other.keys()):
        if one.get(name) != other.get(name):
            yield f'{name}: the export has {one.get(name)}, {place} has {other.get(name)}'


def main(repository, *libraries):
    found = []
    block = read(f'{repository}/embed/rust/src/exports.rs')
    for library in libraries:
        crate = read(f'{repository}/crates/{library}_c/src/lib.rt')
        header = read(f'{repository}/embed/include/{library}.h')
        found += differences(of_exports(library, crate, in_c), of_header(library, header), 'C')
        found += differences(of_exports(library, crate, in_rust), of_block(library, block), 'Rust')
        found += statuses(library, crate, header)
        found += numbers(library, header, block)
        found += compared_fields(library, repository, header, block)
        print(f'{library}: {len(of_header(library, header))} declarations in C and Rust')
    for it in found:
        print(it, file=sys.stderr)
    sys.exit(1 if found else 0)


if __name__ == '__main__':
    main(*sys.argv[1:])
