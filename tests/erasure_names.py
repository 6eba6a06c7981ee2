"""Checks the names that something else may have in Rust, and the traits and types that have them,
for tests/erasure_refusals.py."""
import functools
import re

from erasure_code import head_of, in_use, is_listed, is_method, is_name, of_and_for
from erasure_known import IMPLEMENTATIONS, IMPORTS, KNOWN, RENAMED, TRAITS, WRITERS
from erasure_laws import is_module_of_laws


def generics(code, i):
    """Yields the indices of type parameters, if there is a `<` at `i`."""
    depth = 0
    while code.at(i) == '<' or depth > 0 and i < len(code.words):
        if code.at(i) in ('<', ',') and depth == (code.at(i) == ','):
            yield i + 1 + (code.at(i + 1) == 'const')
        depth += (code.at(i) == '<') - (code.at(i) == '>')
        i = code.pair[i] + 1 if code.at(i) in ('(', '[', '{') else i + 1


def declarations(code):
    """Yields the indices of the names that types, modules, constants and type parameters get."""
    for i in code.all('mod', 'struct', 'enum', 'trait', 'type', 'const', 'fn', 'impl'):
        if code.at(i) not in ('fn', 'impl') and is_name(code.at(i + 1)):
            yield i + 1
        yield from generics(code, i + 1 + (code.at(i) != 'impl'))


def declared(code, names):
    """Rejects declarations of names that a rule knows."""
    for i in declarations(code):
        name = code.at(i)
        if (name in KNOWN or name in names) and (code.at(i - 1), name) != ('mod', 'laws'):
            yield i, f'`{name}`, declared as something else'


def methods(code):
    """Rejects methods whose name a rule changes in each call."""
    for found in code.functions:
        if found.name.startswith('fallible_') or found.name in RENAMED and is_method(code, found):
            yield found.at, f'`fn {found.name}`, a method whose name a rule changes'


def imports(code, names):
    """Rejects imports that aren't at the top level, or not name by name. From laws, only the module
    may be imported."""
    for use in code.uses:
        words = code.words[use.start + 1:use.stop]
        said = ' '.join(words)
        if code.outer[use.start] != -1 or '*' in words:
            yield use.start, f'`use {said}`, not at the top or not name by name'
        for at in use:
            name = code.at(at + 1)
            if code.at(at) == 'as' and (name in KNOWN or name in names or name != name.lower()):
                yield at, f'`as {name}`, a name that something else may have'
            if name == 'laws' and not is_module_of_laws(said, names):
                yield at, f'`use {said}`: of laws only `use CRATE::laws` is known'
        for path in imported(words):
            if path.split('::')[0] in ('std', 'core', 'alloc', 'thiserror') and path not in IMPORTS:
                yield use.start, f'`use {path}`, a name of std that is not known'


def imported(words):
    """Yields the paths that an import names."""
    path, brace, names = ' '.join(words).replace(' :: ', '::').partition('{ ')
    for name in names.replace('}', '').split(',') if brace else ['']:
        yield re.sub(r' as _$|::self *$', '', path + name.strip()).strip()


@functools.lru_cache(maxsize=None)
def renamed(code):
    """Yields each comment `// In Rust: NAME.`: its index, and the function below it, or None if
    that isn't in an `impl TYPE { .. }`."""
    functions, pairs = {found.at: found for found in code.functions}, []
    for i in [i for i, token in enumerate(code.tokens) if token.kind == 'name']:
        at, outer = i + 1, code.outer[i]
        while code.at(at) in ('///', '#', 'pub'):
            at = code.pair[at + 1] + 1 if code.at(at + 1) in ('(', '[') else at + 1
        is_inherent = code.words[code.head(outer):outer - 1] == ['impl']
        pairs.append((i, functions.get(at) if is_inherent else None))
    return pairs


def other_names(codes):
    """Checks that `// In Rust: try_NAME.` is above a function NAME of a type that has no other one
    of the new name, and that for a method nothing else has it. The function may not be called as
    `Self::..`."""
    old = {found.name for code in codes for _, found in renamed(code) if found}
    for code in codes:
        for i in code.all('Self'):
            if code.at(i + 1) == '::' and code.at(i + 2) in old:
                yield code, i, f'`Self::{code.at(i + 2)}`, which has another name in Rust'
        for i, found in renamed(code):
            new, owner = code.tokens[i].text, code.at(code.outer[i] - 1)
            if found is None or new != f'try_{found.name}' or any(
                    other.name == new and (is_method(code, found) or owner in head_of(each, other))
                    for each in codes for other in each.functions):
                yield code, i, f'`// In Rust: {new}.`, a name that something else may have'


def implementations(codes):
    """Rejects an `impl` of a trait for a type that isn't in the sources: such a type has methods in
    Rust that this doesn't know. Of the traits of std, only what the sources implement is known."""
    own = {kind: {code.at(i + 1) for code in codes for i in code.all(*kind)}
           for kind in (('trait',), ('struct', 'enum'))}
    for code in codes:
        for i in code.all('impl'):
            opening = code.end(i, ('{', ';'))
            before, kind = of_and_for(code.words[i:opening])
            said, functions = code.said(i, opening), {
                found.name for found in code.functions if code.outer[found.at] == opening}
            if kind and not (kind in own['struct', 'enum']
                             or is_listed((code.name, said), IMPLEMENTATIONS)):
                yield code, i, f'`{said}`, a trait of a type of std'
            name = next((word for word in before[::-1] if word in TRAITS), None)
            if kind and not own['trait',] & set(before) and (
                    name is None or not functions <= TRAITS[name]
                    or name == 'Write' and kind not in WRITERS):
                yield code, i, f'`{said}`, of which something is not known'


def facts(code):
    """Rejects a fact about a public field, which a caller in Rust can change."""
    for i in code.all('struct', 'enum'):
        opening, name = code.end(i, ('{', '(', ';')), code.at(i + 1)
        if code.at(i - 1) != 'pub' or code.at(opening) == ';':
            continue
        inside = range(opening + 1, code.pair[opening])
        said = [code.words[at] for at in inside if re.match(r'ghost\s+\w+\s*:', code.words[at])]
        said += [word for word in invariants(code, name)]
        public = {code.at(at + 1) for at in inside
                  if code.at(at) == 'pub' and code.at(at + 1) != '(' and code.outer[at] == opening}
        is_listed_type = code.at(i) == 'struct' and code.at(opening) == '{'
        for fact in said:
            whole = re.search(r'λ\s*(\w+)\.', fact)
            if not is_listed_type or public & set(re.findall(r'\w+', fact)) or public and whole \
                    and re.search(rf'\b{whole[1]}\b(?!\.)', fact[whole.end():]):
                yield i, f'`{name}`, of which a fact names a public field'


def invariants(code, name):
    """Yields the invariants of a type, which are in an `impl Model` of the same file."""
    for i in code.all('Model'):
        opening = code.end(i, ('{', ';'))
        if code.words[i + 1:i + 3] == ['for', name]:
            yield from (word for word in code.words[opening:code.pair.get(opening, opening)]
                        if re.match(r'ghost\s+invariant\b', word))


def invariants_elsewhere(code):
    """Rejects an invariant of a type that isn't in the same file."""
    here = {code.at(i + 1) for i in code.all('struct', 'enum')}
    for i in code.all('Model'):
        if code.at(i + 1) == 'for' and code.at(i + 2) not in here \
                and [*invariants(code, code.at(i + 2))]:
            yield i, f'`Model for {code.at(i + 2)}`, an invariant of a type of another file'
