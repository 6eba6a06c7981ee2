"""Generates docs/PROOFS.md from the sources: for each public call what determines its result, its
clauses, the definitions that they cite, and the files of lemmas that its proof imports."""
import itertools
import os
import re

PROMISES = '''## The promises

| crate | promise | call and clause | definition |
|---|---|---|---|
| `semver_tokens` | the lexer returns exactly the tokens of a text, and then at most one error | [`Lexer::new`](../crates/semver_tokens/src/lexer.rt): `state` | [`Tokens`](../crates/semver_tokens/specs/Tokens.antt) |
| `semver_tokens` | each step of a parser is a function of its state, unless memory runs out | [`Parser`](../crates/semver_tokens/src/parser.rt): `step`, `answer` | [`ParserSteps`](../crates/semver_tokens/specs/ParserSteps.antt) |
| `semver_versions` | a version is returned if and only if the text spells it | [`version::read`](../crates/semver_versions/src/version.rt): `exact`, `none` | [`VersionGrammar`](../crates/semver_texts/specs/VersionGrammar.antt) |
| `semver_versions` | the same in Cargo's and npm's grammars, without allocating | [`version::read_ref_in`](../crates/semver_versions/src/version.rt): `borrowed`, `none`, `version` | [`ToolVersions`](../crates/semver_texts/specs/ToolVersions.antt) |
| `invalid_strings` | where and why a text is an invalid version | [`refusals::explain`](../crates/invalid_strings/src/refusals.rt): `version`, `offset`, `reason` | [`VersionPrefixes`](../crates/invalid_strings/specs/VersionPrefixes.antt), [`Reasons`](../crates/invalid_strings/specs/Reasons.antt) |
| `semver_ranges` | each error is returned for exactly those texts for which it is defined | [`RangeSet::parse`](../crates/semver_ranges/src/range_set.rt): `refusals` | [`RangeTexts`](../crates/semver_ranges/specs/RangeTexts.antt), [`RangeTree`](../crates/semver_ranges/specs/RangeTree.antt) |
| `semver_ranges` | a version satisfies the comparators if and only if it satisfies the text, except for pre-releases of raised bounds | [`RangeSet::parse`](../crates/semver_ranges/src/range_set.rt): `meaning` | [`CrateMeaning`](../crates/semver_ranges/specs/CrateMeaning.antt), [`SatisfiedComparators`](../crates/semver_ranges/specs/SatisfiedComparators.antt) |
| `semver_ranges` | with exact bounds there is no such exception, and the printed set is read as the same set | [`RangeSet::parse_exact`](../crates/semver_ranges/src/range_set.rt): `meaning`, `reads_back` | [`ExactBounds`](../crates/semver_ranges/specs/ExactBounds.antt) |
| `semver_parser` | the report writes its three lines, or only a beginning of them | [`report::run`](../crates/semver_parser/src/report.rt): `lines` | [`ReportLines`](../crates/semver_parser/specs/ReportLines.antt) |
| `version_sets` | two sets are equal if and only if they contain the same versions | [`==`](../crates/version_sets/src/set_difference.rt): `same_versions`, `one_form` | [`VersionSets`](../crates/version_sets/specs/VersionSets.antt) |
| `version_sets` | a set is written as a range text that, in the crate's npm mode, contains exactly its releases | [`VersionSet::release_ranges`](../crates/version_sets/src/set_ranges.rt): `meaning`, `reads_back` | [`SetRanges`](../crates/version_sets/specs/SetRanges.antt) |
| `tool_ranges` | a set contains exactly the versions that satisfy the text in its dialect | [`meaning::read`](../crates/tool_ranges/src/meaning.rt): `refusals`, `meaning` | [`Meanings`](../crates/tool_ranges/specs/Meanings.antt), [`CargoMeaning`](../crates/tool_ranges/specs/CargoMeaning.antt), [`NpmMeaning`](../crates/tool_ranges/specs/NpmMeaning.antt), [`PreReleaseRules`](../crates/version_sets/specs/PreReleaseRules.antt) |
| `tool_ranges` | whether a range has a version that isn't below a given one | [`has_at_or_above`](../crates/tool_ranges/src/at_or_above.rt): `refusals`, `has` | [`AtOrAbove`](../crates/tool_ranges/specs/AtOrAbove.antt) |
| `tool_ranges` | whether the terms of a range stay, or are raised upper bounds, so that no version is lost | [`is_widened`](../crates/tool_ranges/src/widening.rt): `widened`, `keeps` | [`Widening`](../crates/tool_ranges/specs/Widening.antt) |
| `tool_ranges` | a version satisfies npm's comparators with `includePrerelease` if and only if it satisfies the text with all pre-releases | [`npm::rewrite_included`](../crates/tool_ranges/src/npm.rt): `versions`, `as_rewritten` | [`Rewritten`](../crates/tool_ranges/specs/Rewritten.antt) |
| `tool_ranges` | whether a version satisfies a text, without allocating | [`meaning::satisfies`](../crates/tool_ranges/src/meaning.rt): `meaning`, `no_memory` | [`Meanings`](../crates/tool_ranges/specs/Meanings.antt) |
| `tool_ranges` | whether a version satisfies a range, both given as texts; if one is invalid, the first such one is reported | [`satisfying::satisfies`](../crates/tool_ranges/src/satisfying.rt): `answer` | [`Satisfying`](../crates/tool_ranges/specs/Satisfying.antt) |
| `tool_ranges` | a range that was read contains exactly the versions that satisfy the text | [`VersionRange::parse`](../crates/tool_ranges/src/version_range.rt): `refusals`, `contains` | [`Meanings`](../crates/tool_ranges/specs/Meanings.antt) |
| `invalid_ranges` | where and why a text is not a range | [`refusals::refused`](../crates/invalid_ranges/src/refusals.rt): `refused` | [`Refusals`](../crates/invalid_ranges/specs/Refusals.antt), [`RangeReasons`](../crates/invalid_ranges/specs/RangeReasons.antt), [`TooLarge`](../crates/invalid_ranges/specs/TooLarge.antt), [`SpelledItems`](../crates/tool_ranges/specs/SpelledItems.antt) |
| `repaired_strings` | the span of an error is the characters of one kind around its offset, and for a leading zero the whole number | [`spans::span_at`](../crates/repaired_strings/src/spans.rt): `span`, `around`, `some`, `begins`, `ends` | [`Spans`](../crates/repaired_strings/specs/Spans.antt) |
| `repaired_strings` | a repaired text is valid, and only the spans of errors were replaced, each of the error that was then the first | [`repairs::repaired`](../crates/repaired_strings/src/repairs.rt): `valid`, `repairs`, `none` | [`Repairs`](../crates/repaired_strings/specs/Repairs.antt) |
| `semver_errors` | the error of an invalid text has the offset, the reason and the span of the text's first error, unless memory ran out | [`Error::from_string`](../crates/semver_errors/src/error.rt): one | [`ErrorValues`](../crates/semver_errors/specs/ErrorValues.antt) |
| `semver_errors` | what an error prints by `{}`, and by `{:#}` with carets below the span | [`Display`](../crates/semver_errors/src/printing.rt): `output`, `styled_output` | [`ErrorTexts`](../crates/semver_errors/specs/ErrorTexts.antt), [`Escaping`](../crates/invalid_strings/specs/Escaping.antt) |
| `semver_errors` | which error becomes which | [`Error::from_satisfies`, `Error::from_upgrade`](../crates/semver_errors/src/conversions.rt): one | [`Conversions`](../crates/semver_errors/specs/Conversions.antt) |
| `requirements` | the text of a range is a range in its dialect, and contains the same versions | [`requirement::requirement`](../crates/requirements/src/requirement.rt): `reads_back` | [`Requirements`](../crates/requirements/specs/Requirements.antt) |
| `range_terms` | the terms are the parts into which the grammar divides the text, with their offsets | [`Terms::try_parse`](../crates/range_terms/src/terms.rt): `refusals`, `terms` | [`WrittenTerms`](../crates/range_terms/specs/WrittenTerms.antt), [`SpelledItems`](../crates/tool_ranges/specs/SpelledItems.antt) |
| `range_terms` | if another version replaces the version of a term, the text is a range again | [`Terms::try_parse`](../crates/range_terms/src/terms.rt): `replaceable` | [`Replacing`](../crates/range_terms/specs/Replacing.antt) |
| `range_terms` | the same for the printed result of `with_version`, under the conditions of the definition | [`Terms::try_parse`](../crates/range_terms/src/terms.rt): `rewritable` | [`RewrittenVersions`](../crates/range_terms/specs/RewrittenVersions.antt) |
| `range_upgrades` | a raised range is a range of the dialect and contains the version; there is `None` if and only if the range has a version at or above it | [`upgrade`](../crates/range_upgrades/src/upgrade.rt): `contains`, `none`, `again` | [`Upgrades`](../crates/range_upgrades/specs/Upgrades.antt) |
| `range_upgrades` | it is the range with its last alternative raised, in place or as one more; operators, numbers of components (but three for a pre-release), wildcards, spaces and lower bounds stay | [`upgrade`](../crates/range_upgrades/src/upgrade.rt): `style`, `cannot_upgrade` | [`RaisedRanges`](../crates/range_upgrades/specs/RaisedRanges.antt), [`RaisedVersions`](../crates/range_upgrades/specs/RaisedVersions.antt) |
| `range_upgrades` | with `\|\|`, no version is lost | [`upgrade`](../crates/range_upgrades/src/upgrade.rt): `loses_none` | [`Upgrades`](../crates/range_upgrades/specs/Upgrades.antt), [`Alternatives`](../crates/range_upgrades/specs/Alternatives.antt) |
| `release_filter` | exactly the wanted lines are appended, however the text is divided into pieces | [`Lines::push`, `Lines::finish`](../crates/release_filter/src/lines.rt): `takes`, `stops`, `finishes` | [`Pieces`](../crates/release_filter/specs/Pieces.antt), [`Verdicts`](../crates/release_filter/specs/Verdicts.antt) |
| `command_line` | the options of the dialect set the dialect and the rule that they name | [`MeaningOptions`](../crates/command_line/src/options.rt): `dialect`, `npm`, `rule` | [`Options`](../crates/command_line/specs/Options.antt) |
| `result_laws` | two results of a call are equal, or one is out of memory | [`one_read`](../crates/result_laws/src/sets.rt): `one` | [`OneResult`](../crates/result_laws/specs/OneResult.antt) |

Below these is `semver_texts`. Programs: `semver_parser_main`, `release_filter_main`, `compare_ranges_main`. Tests:
`library_tests`, `replayed_cases`, `filter_tests`, `small_inputs`.
'''

HEAD = '''# Index of the proofs

Use this index to look up what is proved about a call. [PROVED](PROVED.md) explains what is proved and what the proofs rest on.
`tests/documents.py --proofs` makes the index from the sources.

A promise is a clause of the contract of a public call, in `src/`. Clauses cite definitions, which the tables name by their
files in `specs/`. Proofs import lemmas, which the tables name by their files in `proofs/`.

In the tables:

- A star after a clause says that it cites `specs/Steps`. The files there describe what the code does step by step. They are a
  means of proof between the crates, so no call for users has such a clause, except the views of `Lexer`, `VersionSet`, `VersionRef`,
  `Terms` and `Lines`.
- `requires` marks a premise.
- The word "one" stands for a premise or a clause without a name, which is the only one of the call.

`semver_parser` passes on the calls of the crates that it uses, under the paths of the Rust crate.

''' + PROMISES + '''
## One result for each call

The comment `// Determined by: ..` above a public call says what determines its result:

- **equation**: a clause is an equation. It gives the result of the call, and what the call leaves in its arguments, as a
  function of what the call was given. For some calls it does so only if they return `Ok`. Their `Err` is then out of memory
  or the writer's own error. For `Conjunction` and `Ranges` of `version_sets`, from which sets are made, the clause gives
  which versions they contain, and not how they store them.
- **the name of a law**: a law is a function that exists only for its clauses. This one makes the call twice with the same
  arguments, and its clause says that both results have equal views, or that one of them is out of memory. Its proof uses
  only the clauses of the call and the invariants of types. Three laws say less, because memory may run out before the error
  of an invalid version is found: `one_version_of_parser`, `one_version_parse` and `one_parse_by_tokens`. Some calls have a
  clause that says when memory may run out (`out_of_memory`, `no_memory`).
- **free**: the clauses leave something open ([all of these](PROVED.md#what-is-left-open)). After the word is what they leave
  open, and then a mutant that they still reject, or a file of tests that shows what the call returns.

If memory runs out in `Parser::version`, the tokens that are left are the last ones of those before the call, and it is left
open how many (clause `out_of_memory`). For `Parser::identifier` the law determines how many. If a call of `Lines` returns
an error, what it appended and its counts are those of some of the first lines that it was given (clause `stops`).
'''


def imports(text, crate):
    """Returns the names that a source imports from definitions, each with its file."""
    found = {}
    for path, names in re.findall(r'ghost use Rattle\.(\w+\.specs\.[\w.]+)\.\{([^}]*)\}', text):
        if path.startswith('std.') or '.declared' in path:
            continue
        for name in names.split(','):
            words = name.split()
            if words:
                found[words[-1]] = path.split('.specs.')[1].replace('.', '/')
    for path, name in re.findall(r'ghost use Rattle\.(\w+\.specs\.[\w.]+) as (\w+)', text):
        if '.declared' not in path and not path.startswith('std.'):
            found[name] = path.split('.specs.')[1].replace('.', '/')
    return found


def function(lines, at):
    """Returns the head of a function with its clauses, without comments, from the line where it
    begins."""
    indent = len(lines[at]) - len(lines[at].lstrip())
    taken = []
    for line in lines[at:]:
        if line.startswith(' ' * indent + '{') or (taken and line.rstrip().endswith('{}') and not line.strip().startswith('ensures')):
            break
        taken.append(line)
        if line.rstrip().endswith(';') and len(taken) == 1:
            break
    return re.sub(r'//.*', '', '\n'.join(taken))


def parts(head):
    """Returns the premises and clauses of a head: the keyword, the name if there is one, and the
    text."""
    return re.findall(r'\b(requires|ensures) ([a-z_0-9]* ?)\{(.*?)(?=\b(?:requires|ensures) [a-z_0-9]* ?\{|\Z)', head, re.S)


def clauses(head, known):
    """Returns the names of the premises and clauses of a head. A clause without a name is `one`. A
    star marks a clause that cites a means of proof."""
    shown = []
    for kind, name, text in parts(head):
        steps = any(known.get(word, '').startswith('Steps/') for word in re.findall(r'\w+', text))
        word = f'`{name.strip()}`' if name.strip() else 'one'
        shown.append(('requires ' if kind == 'requires' else '') + word + ('*' if steps else ''))
    return sorted(shown, key=lambda it: not it.startswith('requires'))


def cited(head, known):
    """Returns the files of the definitions that the clauses of a head cite."""
    words = re.findall(r'[A-Za-z_][\w]*', re.split(r'\b(?:ensures|requires)\b', head, maxsplit=1)[-1])
    return sorted({known[word] for word in words if word in known})


def lemmas(top, crate, folder):
    """Returns the files of lemmas that the proof of a function imports."""
    found = set()
    base = os.path.join(top, 'crates', crate, 'proofs')
    for name in ('Answers.antt', 'Invariants.antt', 'Proof.antt'):
        path = os.path.join(base, folder, name)
        if os.path.exists(path):
            with open(path, encoding='utf-8') as file:
                found.update(re.findall(rf'^use Rattle\.{crate}\.proofs\.([A-Z]\w*)\b', file.read(), re.M))
    return sorted(found)


def first_sentence(comment):
    """Returns the first sentence of a doc comment, on one line."""
    lines = [line.strip()[3:].strip() for line in comment]
    text = ' '.join(itertools.takewhile(bool, lines))
    text = re.split(r'(?<=[a-z`)\]])\. (?=[A-Z`])|: (?=`|that|those|of )', text + ' ', maxsplit=1)[0].strip().rstrip('.:')
    return text.replace('|', '\\|')


def row(top, crate, path, lines, at, name, comment, answer):
    """Returns the row of a call."""
    head = function(lines, at)
    module = path.split('/src/')[1][:-3]
    parts = name.split('::')
    folder = '/'.join(([] if module in ('lib', 'main') else [module]) + parts)
    known = imports('\n'.join(lines), crate)
    shown = ', '.join(clauses(head, known))
    by = f'`{answer}`' if answer and not answer.startswith(('equation', 'free')) else answer or ''
    cells = [
        f'`{name}`', first_sentence(comment), by, shown, ', '.join(f'`{it}`' for it in cited(head, known)),
        ', '.join(f'`{it}`' for it in lemmas(top, crate, folder)),
    ]
    return '| ' + ' | '.join(cells) + ' |'


def page(top, crates, what, sources, public, exported, traits, answer_of):
    """Returns the page. The arguments are what tests/documents.py knows about the tree."""
    blocks = [HEAD]
    for crate in crates:
        modules, used = [], set()
        for path in sources(crate):
            with open(os.path.join(top, path), encoding='utf-8') as file:
                lines = file.read().split('\n')
            rows = list(rows_of(top, crate, path, lines, public, exported, traits, answer_of))
            for line in rows:
                used.update(re.findall(r'`(\w+)`', line.split('|')[-2]))
            if rows:
                module = path.split('/src/')[1][:-3].replace('/', '::')
                modules.append(f'### `{crate}::{module}`\n\n| call | what it returns | fixed by | clauses | definitions | lemmas |\n'
                               '|---|---|---|---|---|---|\n' + '\n'.join(rows) + '\n')
        if not modules:
            continue
        folder = os.path.join(top, 'crates', crate, 'proofs')
        names = sorted(name[:-5] for name in os.listdir(folder) if name.endswith('.antt') and name != 'Lib.antt') if os.path.isdir(folder) else []
        others = [name for name in names if name not in used]
        rest = f'\nOther files of lemmas, on which these rest: {", ".join(f"`{name}`" for name in others)}.\n' if others else ''
        blocks.append(f'## `{crate}`\n\n{what[crate][:1].upper()}{what[crate][1:]}.\n\n' + '\n'.join(modules) + rest)
    return '\n'.join(blocks)


def rows_of(top, crate, path, lines, public, exported, traits, answer_of):
    """Yields the rows of the calls of a source, in its order."""
    comment, answer, inside = [], None, ''
    for at, line in enumerate(lines):
        bare = line.strip()
        begins = re.match(r'impl(?:<[^>]*>)? (?:.* for )?(\w+)', line)
        if begins:
            inside = begins.group(1) + '::'
        call = re.match(r' *pub fn (\w+)', line)
        shown = re.match(traits, line)
        if call and public(crate, path, line):
            yield row(top, crate, path, lines, at, (inside if line.startswith(' ') else '') + call.group(1), comment, answer)
        elif shown and exported(crate, path, shown.group(2)):
            trait = shown.group(1).replace('fmt::', '')
            known = imports('\n'.join(lines), crate)
            end = next((k for k in range(at, len(lines)) if lines[k].startswith('}')), at)
            text = '\n'.join(lines[at:end])
            members = re.findall(r'ghost ([a-z_]+) =', text) + re.findall(r'ensures ([a-z_]+) \{', text)
            cells = [f'`{trait} for {shown.group(2)}`', '', answer or '', ', '.join(f'`{it}`' for it in members),
                     ', '.join(f'`{it}`' for it in cited('ensures' + text, known)), '']
            yield '| ' + ' | '.join(cells) + ' |'
        found = answer_of.fullmatch(bare)
        if found:
            law = found.group(2)
            answer = law.split('::')[-1] if law else 'equation' if not found.group(4) else f'free: {found.group(3)} (`{os.path.basename(found.group(4))}`)'
        elif bare.startswith('///'):
            comment.append(bare)
        elif not bare.startswith(('#[', '// ')):
            comment, answer = [], None
