"""What stops tools/erase.py: words, names and forms of Rattle that no rule covers, and the lists of
what it knows of std. docs/ERASURE.md has a row for each function of std."""
import re

from rattle_source import OPEN, begins_item

# Types and modules of std.
OWNERS = set('Vec String Box Rc Option Result Iterator str mem io env fs iter slice char'.split())
# What is imported of std, besides modules.
IMPORTS = set('''AllocError BoxedSlice BufRead BufReader BufWriter Display Env ErrorKind ExitCode
    Formatter Global Hash Hasher IsTerminal Model Ordering Range Read Write'''.split())
MODULES = set('''alloc as boxed cmp env fmt fs hash io iter marker mem ops process rt self
    str'''.split())
SAME_MACROS = {'matches', 'unreachable', 'write'}
SAME_ATTRIBUTES = {'cold', 'derive', 'inline', 'must_use', 'non_exhaustive'}
DERIVES = set('Clone Copy Debug Drop Eq Error Hash Ord PartialEq PartialOrd'.split())
# The only type of std for which a trait of the sources is implemented.
SLICE = ['&', "'a", '[', 'T', ']']
# Words that have no meaning in Rust: none may be left.
LEFT = set('ghost requires ensures tactic alloc _alloc Global Model unsafe Drop prove laws'.split())
# Words of Rust that no source needs.
UNKNOWN = set("""async await box do dyn extern f32 f64 final gen i128 i16 i64 i8 isize
    macro macro_rules move raw ref static try u16 where yield""".split())
PRIMITIVES = set('bool char i32 str u8 u16 u32 u64 u128 usize'.split())
# Casts to these types lose nothing, wherever they are: Rattle proves that the value fits.
CAST_TO = {'u8', 'u32', 'u64'}
# The functions of the traits of std that the sources implement. `Write` only for these types: Rust
# may pass a text on in other pieces than Rattle.
TRAITS = {'Debug': {'fmt'}, 'Default': {'default'}, 'Display': {'fmt'}, 'Eq': set(),
          'From': {'from'}, 'Hash': {'hash'}, 'Iterator': {'next'}, 'Ord': {'cmp'},
          'PartialEq': {'eq'}, 'PartialOrd': {'partial_cmp'},
          'Write': {'flush', 'write', 'write_str'}, 'Model': set()}
WRITERS = {'Checksum', 'Fixed', 'Limited'}
# Formats of a value in a text. Files with `{:?}`, which prints a text otherwise than in Rattle: the
# messages that are as in 0.10.3, which nothing reads again, the `Debug` of a range, which prints no
# text by it, and tests.
FORMAT = re.compile(r'\{\w*(?::(\?|04x|x)?)?\}')
WITH_DEBUG = {f'{crate}/{module}' for crate, modules in {
    'library_tests': 'made', 'replayed_cases': 'lexing parsing ranges',
    'semver_tokens': 'parser', 'small_inputs': 'versions',
    'tool_ranges': 'version_range'}.items()
              for module in modules.split()}
ITEMS = {'const', 'enum', 'fn', 'mod', 'struct', 'trait', 'type'}
# Rule 12: the prefix of a function that returns a `Result` because it allocates.
PREFIX = 'fallible_'
# Rule 13: macros that take an allocator or the runtime in Rattle.
MACROS = {'vec', 'format', 'println', 'eprintln'}


def tidied(text):
    """Removes the white space that removed items leave. No string in the sources has what changes
    here."""
    text = re.sub(r'[ \t]+\n', '\n', text)
    text = re.sub(r'([^\s{};,])\n *\{\n', r'\1 {\n', text)
    text = re.sub(r'\n{3,}', '\n\n', text)
    return re.sub(r'([{(])\n\n', r'\1\n', text)


def words(code):
    """Stops at words, casts, formats and pointers to functions that no source needs."""
    for i, token in enumerate(code.t):
        after = code.text(code.after(i)) if token.kind == 'word' else ''
        if token.kind == 'word' and token.text in UNKNOWN:
            code.stop(i, 'no rule for this word')
        if (token.text, token.kind) == ('fn', 'word') and not after.isidentifier():
            code.stop(i, 'no rule for a pointer to a function')
        is_cast = (token.text, token.kind) == ('as', 'word') and not code.in_use(i)
        if is_cast and after not in CAST_TO:
            code.stop(i, f'no rule for a cast to {after}')
        if (token.text, token.kind) in (('use', 'word'), ('mod', 'word')) and not (
                after.isidentifier() and begins_item(code.t, i, public=True)
                and code.around(i) is None):
            code.stop(i, 'no rule for this word at this place')
        if (token.text, after) == ('const', 'fn'):
            code.stop(i, 'no rule for a function that is const')
        if token.text == 'const' and code.around(i) is not None:
            code.stop(i, 'no rule for a constant at this place')
        if token.text == 'by_ref' and after == '(' and code.text(code.at(i + 3)) != '{':
            code.stop(i, 'no rule for this but at the head of a loop')
        if token.kind == 'text' and (
                tidied(token.text) != token.text or re.search(r'\\\n *\n', token.text)):
            code.stop(i, 'no rule for white space as in this text')
        if token.kind == 'text':
            formats(code, i)


def formats(code, i):
    """Stops at a format of a value, such as one with a width, that no source needs."""
    for found in re.finditer(r'\{\w*:[^{}]*\}', code.text(i)):
        known = FORMAT.fullmatch(found[0])
        if not known or known[1] == '?' and f'{code.crate}/{code.module}' not in WITH_DEBUG:
            code.stop(i, f'no rule for the format {found[0]}')


def ranges(code):
    """Stops at ranges without an end, which Rust counts differently, except for those that index,
    and at fields that are taken from an element, which Rattle doesn't read."""
    for i, token in enumerate(code.t):
        if token.text != '..':
            continue
        before, after, bracket = code.before(i), code.after(i), code.around(i)
        if code.ends_operand(before):
            callee = code.before(bracket)
            cuts = (code.text(after) == ']' and code.ends_operand(callee)
                    or code.text(after) == ')' and code.text(callee) == 'get'
                    and code.text(code.before(callee)) == '.')
            begins = code.t[after].kind != 'sign' or code.text(after) in ('(', '[', '*', '&', '-')
            if not cuts and not begins:
                code.stop(i, 'no rule for a range without an end')
        elif code.text(bracket) == '{' and '[' in code.words(i, code.close(bracket)):
            code.stop(i, 'no rule for the fields of an element')


def sorts(code):
    """Stops at a sort that isn't by `compare` of both elements, or whose function has no clause
    that says that this is a total order: otherwise Rust may panic."""
    for (i,) in code.find('sort_unstable_by'):
        opened = code.after(i)
        compared = ' '.join(code.words(opened + 1, code.close(opened)))
        form = r'\| (\w+) , (\w+) \| \1((?: \. \w+)*) \. compare \( (?:& )?\2\3 \)'
        function = max(p[0] for p in code.find('fn') if p[0] < i)
        if 'total_order' not in code.t[function].clauses or not re.fullmatch(form, compared):
            code.stop(i, 'no rule for a sort but by `compare`, with a clause total_order')
    for (i,) in code.find('partition_point'):
        opened = code.after(i)
        compared = ' '.join(code.words(opened + 1, code.close(opened)))
        if not re.fullmatch(
                r'\| (\w+) \| \1 \. compare\w* \( [\w ,]* \) \. is_le \( \)', compared):
            code.stop(i, 'no rule for a search but by `compare`')


def around(code, i):
    """Returns the words before the brace around an item, such as those of an `impl`."""
    end = code.around(i) or 0
    begin = end
    while begin and code.text(begin - 1) not in ('{', '}', ';'):
        begin -= 1
    return code.words(begin, end)


def declarations(code, crates):
    """Stops at items whose names mean something else in the result."""
    taken = {*crates, *PRIMITIVES, 'std', 'core', 'alloc', 'rattle_std', 'proved', 'thiserror'}
    for i, token in enumerate(code.t):
        if token.kind == 'word' and token.text in crates and not code.in_use(i):
            if code.text(code.after(i)) != '::':
                code.stop(i, 'no rule for another thing of the name of a crate')
        if token.kind == 'word' and token.text in OWNERS | PRIMITIVES \
                and code.text(code.after(i)) == ':':
            code.stop(i, 'no rule for a parameter of this name')
        if token.kind != 'word' or token.text not in ITEMS:
            continue
        name = code.text(code.after(i))
        types = token.text not in ('fn', 'const')
        if name in taken or types and name in OWNERS | MODULES or name == 'write_fmt' \
                or name.startswith(PREFIX):
            code.stop(i, f'no rule for an item of this name, {name}')
        if token.text == 'mod' and code.text(code.after(code.after(i))) != ';':
            code.stop(i, 'no rule for a module within a file')


def traits(code, defined, types):
    """Stops at a trait for a type of std, which may have a method of its own, and at a trait or a
    function of one that no source implements."""
    for (i,) in code.find('impl'):
        j = code.after(i)
        j = code.after(code.close(j)) if code.text(j) == '<' else j
        while code.text(code.after(j)) == '::':
            j = code.after(code.after(j))
        end = code.close(code.after(j)) if code.text(code.after(j)) == '<' else j
        of = code.after(code.after(end))
        if code.text(code.after(end)) != 'for':
            continue
        opened, name = code.find_from(of, '{'), code.text(j)
        functions = {code.text(code.after(p[0])) for p in code.find('fn')
                     if code.around(p[0]) == opened}
        if name not in TRAITS.keys() | defined or name not in defined and (
                not functions <= TRAITS[name] or name == 'Write' and code.text(of) not in WRITERS):
            code.stop(i, f'no rule for this implementation of {name}')
        if code.text(of) not in types and code.words(of, opened) != SLICE:
            code.stop(i, 'no rule for an implementation for a type of std')


def facts(code):
    """Stops at a fact about a public field of a public type, since Rust's caller can change it."""
    invariants = {code.text(code.after(p[1])): code.t[code.find_from(p[1], '{')].facts
                  for p in code.find('Model', 'for')}
    for kind in ('struct', 'enum'):
        for (i,) in code.find(kind):
            name, opened = code.after(i), i
            while code.text(opened) not in ('{', '(', ';'):
                opened += 1
            about = code.t[opened].facts + invariants.pop(code.text(name), [])
            if about and code.text(code.before(i)) == 'pub':
                check_facts(code, i, opened, about)
    if any(invariants.values()):
        code.stop(0, 'an invariant of a type of another file')


def check_facts(code, i, opened, about):
    """Stops unless each of these facts names only fields that aren't public."""
    parts = code.parts(opened, angles=True) if code.text(i) == 'struct' else []
    begins = [code.words(*part) for part in parts]
    public = {words[1] for words in begins if words[0] == 'pub' and words[1] != '('}
    for fact in about:
        whole = re.search(r'λ\s*(\w+)\.', fact)
        is_whole = whole and re.search(rf'\b{whole[1]}\b(?!\.)', fact[whole.end():])
        if code.text(opened) != '{' or code.text(i) != 'struct' or public and (
                is_whole or public & set(re.findall(r'\w+', fact))):
            code.stop(i, 'no rule for a fact about a public field')


def modules(codes):
    """Stops at files that no `mod` names, and at modules without a file."""
    named = set()
    for code in codes:
        inner = '' if code.module in ('lib', 'main') else f'{code.module}/'
        for places in code.find('mod'):
            named.add((code.crate, inner + code.text(code.after(places[0]))))
    for code in codes:
        root = [c.module for c in codes if c.crate == code.crate and c.module in ('lib', 'main')]
        if code.module not in root and (code.crate, code.module) not in named or len(root) != 1:
            code.stop(0, 'a file that no module is of, or a second root')


def stops(codes, crates):
    """Makes the checks that come before anything is changed."""
    modules(codes)
    declared = {code.text(code.after(p[0])) for code in codes for p in code.find('trait')}
    types = {code.text(code.after(p[0])) for code in codes
             for kind in ('struct', 'enum') for p in code.find(kind)}
    for code in codes:
        words(code)
        ranges(code)
        sorts(code)
        declarations(code, crates)
        traits(code, declared, types)
        facts(code)


def check_use(code, i, words, roots):
    """Stops at an import from elsewhere, of everything in a module, or under another name."""
    first, alias = words[1], words[words.index('as') + 1] if 'as' in words else '_'
    named = {word for word in words[2:] if word.isidentifier()}
    if first == 'std' and named - MODULES - IMPORTS - {'_'} or '*' in words:
        code.stop(i, 'no rule for an import of this line')
    local = {code.text(code.after(p[0])) for p in code.find('mod')}
    if first not in local | roots or first == 'thiserror' and words[2:] != ['::', 'Error']:
        code.stop(i, 'no rule for an import from there')
    if alias != '_' and (first == 'std' or words.count('as') > 1 or not alias.islower()
                         or alias in roots | MODULES | OWNERS | MACROS | PRIMITIVES):
        code.stop(i, 'no rule for an import under another name')


def check_message(code, i, members, message):
    """Stops if a message is missing, has an escape, or shows anything except whole fields."""
    if not re.fullmatch(r'"[^"\\\n]*"', message or ''):
        code.stop(i, 'no rule for an error without a message, or for this one')
    shown = re.sub(r'\{(\d+|[a-z]\w*)(:\?)?\}', '', message)
    names = [re.sub(r'^(?=\d)', '_', n) for n, _ in re.findall(r'\{(\w+)(:\?)?\}', message)]
    if '{' in shown or '}' in shown or not set(names) <= set(members) - {'f', 'self'}:
        code.stop(i, f'no rule for braces as in the message {message}')


def crate_of_laws(code, begin, i):
    """Returns the crate whose laws the path from `begin` to `laws` names: its own or an imported
    one."""
    path = [word for word in code.words(begin, i) if word != '::']
    imports = [code.words(use + 1, end) for use, end in code.uses()]
    imports = [' '.join(words) for words in imports if 'laws' in words]
    if any(not re.fullmatch(r'\w+ :: (laws|\{ (\w+ , )*laws( , \w+)*( ,)? \})', found)
           for found in imports):
        code.stop(i, 'no rule for how this is imported')
    if not path and len(imports) == 1:
        path = imports[0].split()[:1]
    return code.crate if path == ['crate'] else path[0] if len(path) == 1 else None


def does_nothing(code, name):
    """Returns whether the file has exactly one law of this name. Stops unless the law has no
    parameter, no result and an empty body."""
    for begin, at in code.find('fn', name):
        end = code.item(begin)[1]
        if code.around(at) is not None or code.words(at + 1, end) != ['(', ')', '{', '}']:
            code.stop(at, 'a law within something else, or one that is passed or does something')
    return len(list(code.find('fn', name))) == 1


def check(code):
    """Stops at what no rule knows: a word of contracts, or a macro."""
    for i, token in enumerate(code.t):
        if token.kind != 'word' or '::' in token.text:
            continue
        after = code.after(i)
        if token.text in LEFT:
            code.stop(i, 'no rule for this word')
        if code.text(after) == '!' and code.text(code.after(after)) in OPEN:
            if token.text not in SAME_MACROS:
                code.stop(i, 'no rule for this macro')
