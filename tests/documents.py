#!/usr/bin/env python3
"""Checks README.md and docs/ against the tree. It doesn't check prose.

- Each link leads to something.
- Each call, clause and definition that the promises in docs/PROOFS.md name exists.
- Each public call has a comment that says what determines its result, and the law, edit or file
  that the comment names exists.
- The example in Rattle in docs/COMING_FROM.md is crates/library_tests/src/example.rt.
- What is generated is up to date: docs/PROOFS.md from the sources, and docs/CRATES.md from
  crates.txt.
- Each file of lemmas begins with what its lemmas show, and each lemma is cited.
- The Rust crate has the licences, and docs/ERASURE.md counts the lines by hand.
- docs/ratios.svg has the rows of docs/SPEED.md, and README.md and docs/SPEED.md say how far they
  reach.

tests/documents.py --must-fail       checks that it fails if one of these is changed.
tests/documents.py --proofs          prints docs/PROOFS.md.
tests/documents.py --crates          prints docs/CRATES.md.
tests/documents.py --example-in-c    prints the example in C of docs/COMING_FROM.md.
tests/documents.py --output-in-c     prints the output of that example, as the page has it.
"""
import os
import re
import runpy
import shutil
import subprocess
import sys
import tempfile

sys.path.insert(0, os.path.dirname(os.path.abspath(__file__)))
sys.dont_write_bytecode = True
import cited  # noqa: E402
import proofs_index  # noqa: E402

TOP = os.path.dirname(os.path.dirname(os.path.abspath(__file__)))

# These crates are programs and tests, so they have no promises.
UNPROMISED = {'semver_parser_main', 'release_filter_main', 'compare_ranges_main', 'library_tests', 'replayed_cases', 'filter_tests',
              'small_inputs'}

# Only these sources of these crates have promises.
PROMISED_SOURCES = {'command_line': ['crates/command_line/src/options.rt']}

# The page with the examples in C and Rattle.
EXAMPLES = 'docs/COMING_FROM.md'

# How many calls may have a result that isn't determined, and how many mutants there may be.
MOST_FREE = 9
MOST_EDITS = 24
# How many lines of rust/src may be written by hand, except for these files, which have names and the
# original's signatures. Move what decides into Rattle instead of raising it.
MOST_BY_HAND = 299
NAMES_BY_HAND = {'docs.rs', 'lib.rs', 'original.rs'}

# The pages that are generated.
MADE = ('docs/PROOFS.md', 'docs/CRATES.md')


def read(path):
    with open(os.path.join(TOP, path), encoding='utf-8') as file:
        return file.read()


def crates():
    lines = [line for line in read('crates.txt').splitlines() if line and not line.startswith('#')]
    return [line.split(':')[0].split()[0] for line in lines]


def crate_lines():
    """Yields the name of each crate, what it is, and the crates that it uses, in the order of
    crates.txt."""
    what = ''
    for line in read('crates.txt').splitlines():
        if line.startswith('#'):
            what = line[1:].strip()
        elif line:
            head, _, uses = line.partition(':')
            yield head.split()[0], what, uses.split()
            what = ''


def crates_page():
    """Returns docs/CRATES.md: a diagram of the crates that are shipped, without the arrows that
    follow from others, and a table of all crates."""
    lines = list(crate_lines())
    uses = {name: set(used) for name, _, used in lines}

    def below(name):
        return set().union(*({used} | below(used) for used in uses.get(name, ())), set())

    shown = [name for name, what, _ in lines if not re.match('test|calls for measuring|the example|laws', what)]
    arrows = [f'    {used} --> {name}' for name in shown for used in sorted(uses[name])
              if used in uses and not any(used in below(other) for other in uses[name])]
    table = [f'| `{name}` | {what} | {", ".join(f"`{used}`" for used in used_here)} |' for name, what, used_here in lines]
    return '\n'.join([
        '# Crates', '', 'This page lists the crates in Rattle. `tests/documents.py --crates` makes it from `crates.txt`. In the picture, an arrow goes',
        'from a crate to one that uses it. Tests, laws, and arrows that follow from other arrows are left out.', '', '```mermaid', 'flowchart BT', *arrows, '```', '',
        '| crate | what it is | uses |', '|---|---|---|', *table, ''])


def errors_of_crates():
    if read('docs/CRATES.md') != crates_page():
        yield "docs/CRATES.md isn't what tests/documents.py --crates prints"


def files(crate, folder, ending):
    found = []
    base = os.path.join('crates', crate, folder)
    for at, _, names in os.walk(os.path.join(TOP, base)):
        found += [os.path.relpath(os.path.join(at, name), TOP) for name in names if name.endswith(ending)]
    return sorted(found)


def promised(crate):
    """Returns the sources of a crate whose public calls are promises."""
    return PROMISED_SOURCES.get(crate) or files(crate, 'src', '.rt')


def documents():
    """Yields the pages of the repository, without links to pages."""
    for at, folders, names in os.walk(TOP):
        folders[:] = sorted(folder for folder in folders if folder not in ('.git', 'out', 'target', 'build'))
        paths = (os.path.join(at, name) for name in sorted(names) if name.endswith('.md'))
        yield from (os.path.relpath(path, TOP) for path in paths if not os.path.islink(path))


def anchors(text):
    """Returns the anchors of the headings of a page."""
    found = set()
    for heading in re.findall(r'^#+ (.*)$', text, re.M):
        words = re.sub(r'[^\w\- ]', '', heading.replace('`', '')).strip().lower()
        found.add(words.replace(' ', '-'))
    return found


def errors_of_links():
    for page in documents():
        targets = dict(re.findall(r'^\[([^\]]+)\]: (\S+)$', read(page), re.M))
        for label in re.findall(r'\]\[([^\]]+)\]', re.sub(r'(?s)```.*?```|`[^`]*`', '`', read(page))):
            if label not in targets:
                yield f"{page}: there is no target for [{label}]"
        for target in [*targets.values(), *re.findall(r'\]\(([^)\s]+)\)', read(page))]:
            if re.match(r'[a-z]+:', target):
                continue
            path, _, anchor = target.partition('#')
            path = os.path.normpath(os.path.join(os.path.dirname(page), path)) if path else page
            if not os.path.exists(os.path.join(TOP, path)):
                yield f'{page}: {target} leads nowhere'
            elif anchor and anchor not in anchors(read(path)):
                yield f'{page}: {path} has no heading {anchor}'


def errors_of_files():
    """Yields files of this repository that a page names and that don't exist."""
    folders = '|'.join(entry for entry in os.listdir(TOP) if os.path.isdir(os.path.join(TOP, entry)) and entry[0] != '.')
    named = re.compile(rf'(?<![\w./*-])(?:{folders})/[\w./-]*\.(?:rt|antt|rs|py|sh|md|h|toml|cjs|mjs|js|txt|svg)(?![\w*])')
    for page in documents():
        for path in named.findall(read(page)):
            if 'NAME' not in path and not any(os.path.exists(os.path.join(TOP, top, path)) for top in ('', os.path.dirname(page))):
                yield f'{page}: there is no {path}'


def clauses(text):
    """Returns the names of the clauses of a source, and what it says that `Display` prints."""
    return set(re.findall(r'\b(?:(?:ensures|requires|invariant) |ghost (?=\w*output ))([a-z_]+) (?:= )?\{', text))


def is_public(crate, path, line):
    """Returns whether other crates can use the call that begins on a line: a method, or a function
    of a public module."""
    top = read(f'crates/{crate}/src/lib.rt')
    module = os.path.relpath(path, f'crates/{crate}/src')[:-3].split('/')
    name = re.search(r'fn (\w+)', line).group(1)
    if line.startswith(' ') or module == ['lib'] or re.search(rf'pub use [^;]*\b{name}\b', top):
        return True
    if len(module) == 2 and re.search(rf'pub use [^;]*\b{name}\b', read(f'crates/{crate}/src/{module[0]}.rt')):
        return True
    return f'pub mod {module[0]};' in top and len(module) == 1


def rows(text):
    """Yields each row of a page's tables: the cells of the table's head, and the cells of the
    row."""
    head = None
    for line in text.splitlines():
        if not line.startswith('|'):
            head = None
            continue
        cells = [cell.strip() for cell in re.split(r'(?<!\\)\|', line)[1:-1]]
        if head is None:
            head = cells
        elif not set(''.join(cells)) <= set('-: '):
            yield head, cells


def errors_of_promises():
    """Checks the table of promises: each clause is in the file that its call links to, that file
    belongs to the crate, and each crate has a promise."""
    page = 'docs/PROOFS.md'
    listed = re.split(r'^## ', read(page).split('\n## The promises\n', 1)[-1], maxsplit=1, flags=re.M)[0]
    for head, cells in rows(listed):
        if head[:2] != ['crate', 'promise']:
            yield f'{page}: its table of promises has another head'
            continue
        crate, _, call, definition = cells
        for target in re.findall(r'\]\(([^)]+)\)', call):
            path = os.path.normpath(os.path.join('docs', target))
            if f'crates/{crate.strip("`")}/' not in path:
                yield f'{page}: {path} is not a file of {crate}'
            if not os.path.exists(os.path.join(TOP, path)):
                continue
            there = clauses(read(path))
            for clause in re.findall(r'`([a-z_]+)`', call.split('):', 1)[-1]):
                if clause not in there:
                    yield f'{page}: {path} has no clause {clause}'
        for name, path in re.findall(r'\[`(\w+)`\]\(([^)]+)\)', definition):
            if os.path.basename(path) != f'{name}.antt':
                yield f'{page}: {path} is not a file of {name}'
    for crate in crates():
        if f'`{crate}`' not in listed:
            yield f'{page}: the promises name {crate} nowhere'


def proofs_page():
    """Returns docs/PROOFS.md."""
    told = {name: what for name, what, _ in crate_lines()}
    shown = [crate for crate in crates() if crate not in UNPROMISED]
    return proofs_index.page(TOP, shown, told, promised, is_public, is_exported, TRAITS, DETERMINED)


def errors_of_proofs():
    if read('docs/PROOFS.md') != proofs_page():
        yield "docs/PROOFS.md isn't what tests/documents.py --proofs prints"


def errors_of_lemmas():
    for crate in crates():
        for path in files(crate, 'proofs', '.antt'):
            if os.path.dirname(path).endswith('/proofs') and not path.endswith('/Lib.antt') and not read(path).startswith('-- '):
                yield f"{path} doesn't begin with a comment that says what its lemmas show"


def errors_of_citations():
    yield from cited.errors(TOP, crates())


# The comment above a public call, or above an impl of a trait that returns something.
DETERMINED = re.compile(r'// Determined by: (equation|law ([\w:]+)|free, (.+): ([\w/.-]+))\.')
TRAITS = r'impl(?:<[^>]*>)? ((?:fmt::)?Display|Iterator|PartialEq|From<[\w:]+>) for (\w+)'


def is_exported(crate, path, name):
    """Returns whether other crates can use a type of a source."""
    source = read(path)
    module = os.path.basename(path)[:-3]
    top = read(f'crates/{crate}/src/lib.rt')
    is_here = f'pub struct {name}' in source or f'pub enum {name}' in source
    return f'pub mod {module};' in top and is_here or bool(re.search(rf'pub use [^;]*\b{name}\b', top))


def returns_something(lines):
    """Returns whether the function that begins with these lines returns something, or may write to
    an argument. A law does neither."""
    head = re.split(r'\n *(?:requires|ensures|\{)', '\n'.join(lines[:20]))[0]
    return '->' in head or '&mut' in head


def calls():
    """Yields each public call that isn't a law: its crate, source and name, and the comment above
    it."""
    for crate in crates():
        if crate in UNPROMISED:
            continue
        for path in promised(crate):
            if path.endswith('/laws.rt') or crate == 'result_laws':
                continue
            above, inside = None, ''
            lines = read(path).splitlines()
            for at, line in enumerate(lines):
                found = DETERMINED.fullmatch(line.strip())
                call = re.match(r' *pub fn (\w+)', line)
                shown = re.match(TRAITS, line)
                begins = re.match(r'impl(?:<[^>]*>)? (?:.* for )?(\w+)', line)
                if begins:
                    inside = begins.group(1) + '::'
                if call and is_public(crate, path, line) and returns_something(lines[at:]):
                    yield crate, path, (inside if line.startswith(' ') else '') + call.group(1), above
                elif shown and is_exported(crate, path, shown.group(2)):
                    trait = shown.group(1).replace('fmt::', '')
                    yield crate, path, f'{trait} for {shown.group(2)}', above
                if found:
                    above = found
                elif not line.strip().startswith(('///', '#[', '// ')):
                    above = None


def clause_of(lines, at):
    """Returns whether the call that begins on a line has a clause. For an impl: whether a call or
    member of it has one."""
    if lines[at].startswith('impl'):
        end = next((k for k in range(at, len(lines)) if lines[k].startswith('}')), at)
        return re.search(r'\bensures\b|\bghost (?!use|laws)\w+ =', '\n'.join(lines[at:end])) is not None
    return any(kind == 'ensures' for kind, _, _ in proofs_index.parts(proofs_index.function(lines, at)))


def errors_of_clauses():
    """Yields each public call of a library, and each law, without a clause, whatever the comment
    says."""
    for crate in crates():
        if crate in UNPROMISED:
            continue
        for path in files(crate, 'src', '.rt'):
            lines = read(path).splitlines()
            for at, line in enumerate(lines):
                call, shown = re.match(r' *pub fn (\w+)', line), re.match(TRAITS, line)
                found = call and is_public(crate, path, line) or shown and is_exported(crate, path, shown.group(2))
                if found and not clause_of(lines, at):
                    yield f'{path}: {line.strip()[:60]}: a public call without a clause'


def function_at(path, name):
    """Returns the text of a public function of a source, or an empty string if there is none."""
    text = read(path) if os.path.exists(os.path.join(TOP, path)) else ''
    found = re.search(rf'^pub fn {name}\b.*?^}}', text, re.M | re.S)
    return found.group(0) if found else ''


def function_of(name):
    """Returns the text of a public function that is named by crate, module and name."""
    crate, module, function = name.split('::')
    return function_at(f'crates/{crate}/src/{module}.rt', function)


def laws_of(crate, path, answer):
    """Yields the paths of the laws that a comment names. A law without a path is in
    `result_laws`, in the module that is named after the call's. A law with a module is in the
    crate of the call."""
    for name in re.findall(r'\blaw ([\w:]+)', answer.group(0)):
        parts = name.split('::')
        if len(parts) == 1:
            parts = [f'{os.path.basename(path)[:-3]}s', *parts]
            crate = 'result_laws'
        yield '::'.join(parts if len(parts) == 3 else [crate, *parts])


def errors_of_results():
    """Checks that each public call says what determines its result, and that the law or file
    exists."""
    free = 0
    for crate, path, name, answer in calls():
        if answer is None:
            yield f'{path}: no comment says what determines the result of {name}'
            continue
        for law in laws_of(crate, path, answer):
            text, made = function_of(law), re.split('::', name)[-1]
            if 'ensures' not in text:
                yield f'{path}: there is no law {law}'
            elif len(re.findall(rf'\b{made}\(', text)) < 2:
                yield f'{path}: {law} does not make the call {name} twice'
            elif re.search(r'\((\w+), \1\)\s*}\Z', text):
                yield f'{path}: {law} returns one result twice'
        if answer.group(4):
            free += 1
            if not os.path.exists(os.path.join(TOP, 'crates', crate, answer.group(4))):
                yield f'{path}: there is no {answer.group(4)}'
    if free > MOST_FREE:
        yield f'{free} calls leave their result open, and at most {MOST_FREE} may'
    edits = sum(len(files(crate, 'must-fail', '.edit')) for crate in crates())
    if edits > MOST_EDITS:
        yield f'there are {edits} mutants, and at most {MOST_EDITS} may be'


def block(after):
    """Returns the indented block after the line that contains these words, from the page of
    examples."""
    lines = read(EXAMPLES).split(after, 1)[1].splitlines()
    taken = []
    for line in lines[1:]:
        if line and not line.startswith('    '):
            if taken:
                break
            continue
        taken.append(line[4:])
    return '\n'.join(taken).strip() + '\n'


def errors_of_the_example():
    program = read('crates/library_tests/src/example.rt').split('\n\n', 1)[1]
    if program != block('the major of each comparator of a range:'):
        yield f"{EXAMPLES}: its example in Rattle isn't that of crates/library_tests"


def pages():
    """Yields the pages that are written by hand, each with its text."""
    for page in documents():
        if page not in MADE:
            yield page, read(page)


def errors_of_paths():
    """Checks that the sources have what pages name by a path of Rust, such as
    `VersionSet::lowest`."""
    sources = [path for name in crates() for path in files(name, 'src', '.rt')]
    sources += [os.path.join('rust/src', name) for name in os.listdir(os.path.join(TOP, 'rust/src')) if name.endswith('.rs')]
    code = re.sub(r"""'\\?.'|"(?:[^"\\]|\\[^\0])*"|//.*""", '', '\n'.join(map(read, sources)))
    words = set(re.findall(r'\w+', code))
    for page, text in pages():
        for path in re.findall(r'`(\w+(?:::\w+)+)(?:\(\))?`', text) if page != 'CHANGELOG.md' else ():
            if path.split('::')[-1] not in words:
                yield f'{page} names {path}, which no source has'
    known = words | {name for crate in crates() for kind in ('specs', 'proofs', 'must-fail') for path in files(crate, kind, '')
                     for name in re.findall(r'\w+', path + read(path))}
    for name in re.findall(r'`(\w+)`', re.search(r'## A change, worked\n(.*?)\n## ', read('docs/ARCHITECTURE.md'), re.S)[1]):
        if name not in known and not re.fullmatch('[0-9a-f]{8}|[A-Z]+|rt', name):
            yield f'docs/ARCHITECTURE.md names {name}, which no source has'


def errors_of_the_readme():
    """Checks that the example in Rust of README.md is the first one of rust/README.md, which cargo
    runs."""
    [example], [first, *_] = (re.findall(r'^```rust\n(.*?)^```', read(it), re.M | re.S) for it in ('README.md', 'rust/README.md'))
    if example != first:
        yield 'README.md has another example in Rust than rust/README.md'


def errors_of_lines_by_hand():
    """Checks that the table of docs/ERASURE.md lists each file by hand of rust/src except the shim,
    with its lines of code, and that without names and the original's signatures there are no more
    than `MOST_BY_HAND`."""
    found = {}
    for name in sorted(os.listdir(os.path.join(TOP, 'rust/src'))):
        if name.endswith('.rs') and name != 'rattle_std.rs':
            found[name] = sum(re.match(r' *(//|$)', line) is None for line in read(f'rust/src/{name}').splitlines())
    listed = {name: int(lines) for name, lines in re.findall(r'^\| `(\w+\.rs)` \| (\d+) \|', read('docs/ERASURE.md'), re.M)}
    if listed != found or f'| {sum(found.values())} of code |' not in read('docs/ERASURE.md'):
        yield f'docs/ERASURE.md lists {listed} by hand, and rust/src has {found}, {sum(found.values())} in all'
    deciding = sum(lines for name, lines in found.items() if name not in NAMES_BY_HAND)
    if deciding > MOST_BY_HAND:
        yield f'rust/src has {deciding} lines by hand, without names and signatures, and at most {MOST_BY_HAND} may be'
    if f'these are {MOST_BY_HAND} lines,' not in ' '.join(read('docs/ERASURE.md').split()):
        yield f"docs/ERASURE.md doesn't say that at most {MOST_BY_HAND} lines by hand are accepted"


def errors_of_licences():
    """Checks that the Rust crate has copies of the licences, since cargo packs no file from above
    it."""
    for name in ('LICENSE-APACHE', 'LICENSE-MIT'):
        if read(name) != read(f'rust/{name}'):
            yield f'rust/{name} differs from {name}'


def errors_of_the_ratios():
    """Checks that the picture of ratios is drawn from the table, and that the pages that show it say
    how far it reaches."""
    page, draw = read('docs/SPEED.md'), runpy.run_path(os.path.join(TOP, 'tools/draw-ratios.py'))
    if read('docs/ratios.svg') != draw['picture'](page):
        yield "docs/ratios.svg isn't what tools/draw-ratios.py prints"
    for path in ('README.md', 'docs/SPEED.md'):
        words = ' '.join(read(path).split())
        for lowest, highest in draw['spans_in'](page):
            if f'{lowest} to {highest} ' not in words:
                yield f"{path} doesn't say {lowest} to {highest}, which the picture shows"


def errors():
    for check in (
        errors_of_links, errors_of_files, errors_of_promises, errors_of_proofs, errors_of_results, errors_of_clauses,
        errors_of_the_example, errors_of_paths, errors_of_the_readme, errors_of_crates, errors_of_lemmas,
        errors_of_citations, errors_of_licences, errors_of_lines_by_hand, errors_of_the_ratios,
    ):
        yield from check()


# Edits that have to be noticed: a file, the old text and the new one, or a file that is moved.
EDITS = [
    ('crates/tool_ranges/src/meaning.rt', 'ensures refusals {', 'ensures refused {'),
    ('crates/release_filter/src/lines.rt', 'ensures stops {', 'ensures stopped {'),
    ('README.md', '(rust/docs/GRAMMAR.md)', '(rust/docs/GRAMMARS.md)'),
    ('README.md', '("1.9.0", "^1.2"', '("1.9.0", "^1.3"'),
    ('rust/docs/MEANING.md', '## Terms', '## Words'),
    ('docs/ERASURE.md', 'tests/erased.py', 'tests/erases.py'),
    ('rust/src/terms.rs', 'use crate::', 'use core::fmt;\nuse crate::'),
    ('docs/ERASURE.md', f'these are {MOST_BY_HAND} lines', f'these are {MOST_BY_HAND + 1} lines'),
    ('rust/docs/MEANING.md', ': RANGES.md#pre-releases', ': RANGES.md#prereleases'),
    ('rust/docs/MEANING.md', '][written terms]', '][terms as written]'),
    ('docs/manual/release-filter.1.md', '](../../rust/docs/RANGES.md)', '](../../rust/docs/RANGE.md)'),
    ('docs/COMING_FROM.md', '3.x', '4.x'),
    ('crates/semver_texts/proofs/Joins.antt', '-- Lemmas for loops that write the items of a list one after the other.\n', ''),
    ('crates/semver_texts/proofs/Joins.antt', None, 'crates/semver_texts/proofs/Joined.antt'),
    ('crates/semver_texts/proofs/Lists.antt', 'pub by_test : ', 'pub by_tests : '),
    ('crates/semver_texts/src/bytes.rt', '// Determined by: equation.\n', ''),
    ('crates/command_line/src/program.rt', '        ensures status { exit_status result ≡ 2 }\n', ''),
    ('crates/tool_ranges/src/version_range.rt', '        ensures { result ≡ self.now.meaning }\n', ''),
    ('crates/semver_ranges/src/range.rt', 'ghost output = { λ op. Some (op_text op) };', ''),
    ('crates/result_laws/src/ranges.rt', 'pub fn one_parse(', 'pub fn one_parsing('),
    ('crates/result_laws/src/sets.rt', '.combined(', '.joined('),
    ('crates/result_laws/src/sets.rt', '(first, second)\n}', '(first, first)\n}'),
    ('crates/version_sets/src/laws.rt', '::from_number(', '::other_number('),
    ('crates/semver_tokens/must-fail/text_of_an_error_is_empty.edit', None, 'crates/semver_tokens/must-fail/text_of_an_error.edit'),
    ('docs/PROOFS.md', '`one_parse`', 'equation'),
    ('docs/COMING_FROM.md', '`VersionSet::lowest`', '`VersionSet::least`'),
    ('rust/LICENSE-MIT', 'WITHOUT WARRANTY', 'WITHOUT ANY WARRANTY'),
    ('docs/SPEED.md', '| 0.26 | 0.76 |', '| 0.26 | 0.75 |'),
    ('docs/ratios.svg', '>2.21<', '>2.22<'),
    ('README.md', '0.10 to 0.39 of', '0.10 to 0.38 of'),
    ('crates.txt', 'version_sets: semver_texts semver_versions semver_ranges', 'version_sets: semver_texts semver_ranges'),
]


def shows_each_edit():
    """Returns whether each edit, made in a copy, is noticed."""
    for path, old, new in EDITS:
        with tempfile.TemporaryDirectory() as room:
            copy = os.path.join(room, 'copy')
            left_out = shutil.ignore_patterns('out', '.git', 'target', '__pycache__')
            shutil.copytree(TOP, copy, ignore=left_out, symlinks=True)
            if old is None:
                os.rename(os.path.join(copy, path), os.path.join(copy, new))
            else:
                with open(os.path.join(copy, path), encoding='utf-8') as file:
                    text = file.read()
                assert old in text, f'{path} has no {old}'
                with open(os.path.join(copy, path), 'w', encoding='utf-8') as file:
                    file.write(text.replace(old, new))
            ran = subprocess.run([os.path.join(copy, 'tests/documents.py')], capture_output=True, text=True, check=False)
            if ran.returncode != 1:
                print(f'documents: {path} was changed, and nothing was seen: {ran.stdout}{ran.stderr}')
                return False
    return True


def main():
    if sys.argv[1:] == ['--must-fail']:
        if not shows_each_edit():
            return 1
        print(f'documents: each of {len(EDITS)} edits was seen')
        return 0
    if sys.argv[1:] == ['--proofs']:
        print(proofs_page(), end='')
        return 0
    if sys.argv[1:] == ['--crates']:
        print(crates_page(), end='')
        return 0
    if sys.argv[1:] in (['--example-in-c'], ['--output-in-c']):
        print(block('\n## C\n' if sys.argv[1] == '--example-in-c' else '\nprints'), end='')
        return 0
    found = list(errors())
    for error in found:
        print(f'documents: {error}')
    print('documents: failed' if found else 'documents: passed')
    return 1 if found else 0


sys.exit(main())
