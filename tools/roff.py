"""Turns a page of Markdown into a manual page, in the roff that man and mandoc read.

A page begins with a title such as `# compare-ranges(1)`. It may have headings, paragraphs, tables,
blocks between fences, and lists. An item of a list is a tag and its explanation. The tag is the
first paragraph of the item, or the strong words before a colon. Code and strong words become bold,
and emphasis italic. Anything else is an error, and so is a sign of Markdown that is neither closed
nor escaped.
"""

import re
import textwrap

SECTIONS = {"1": "User Commands", "3": "Library Functions", "7": "Miscellaneous Information"}
ESCAPES = str.maketrans(
    {"\\": "\\e", "-": "\\-", "^": "\\(ha", "~": "\\(ti", "'": "\\(aq", "`": "\\(ga"}
)

INLINE = re.compile(
    r"`(?P<code>[^`]+)`|\\(?P<sign>[^\w\s]|_)|\*\*(?P<strong>(?:\\.|[^\\*])+)\*\*"
    r"|\*(?P<emphasis>(?:\\.|[^\\*\s])(?:\\.|[^\\*])*)\*|\[(?P<words>[^]]+)\]\([^)\s]+\)"
)
OPEN = re.compile(r"[`*\[\]]|<(?=[A-Za-z/!?])")
# How a line of other blocks begins: a quotation, another list, an indented block, a picture.
OTHER = re.compile(r">|[*+] |\d+[.)] |    |\t|!\[|[-*_=]{3}")


class Unknown(Exception):
    """Markdown for which there is no rule."""


# ---- texts


def plain(text):
    """Returns a text without markup, escaped."""
    found = OPEN.search(text)
    if found:
        raise Unknown(f"{found[0]} is neither closed nor escaped: {text.strip()}")
    return text.translate(ESCAPES)


def inline(found):
    """Returns a marked part of a text. The link to a manual page is its name in bold."""
    if found["code"]:
        return "\\fB" + found["code"].translate(ESCAPES) + "\\fR"
    if found["sign"]:
        return found["sign"].translate(ESCAPES)
    if found["strong"]:
        return "\\fB" + styled(found["strong"]).replace("\\fR", "\\fB") + "\\fR"
    if found["emphasis"]:
        return f"\\fI{styled(found['emphasis'])}\\fR"
    page = re.fullmatch(r"([\w-]+)(\(\d\))", found["words"])
    return f"\\fB{plain(page[1])}\\fR{page[2]}" if page else styled(found["words"])


def styled(text):
    """Returns a text with its fonts."""
    made, at = "", 0
    for found in INLINE.finditer(text):
        made += plain(text[at : found.start()]) + inline(found)
        at = found.end()
    return made + plain(text[at:])


def guarded(line):
    """Returns a line that isn't taken for a macro."""
    return f"\\&{line}" if line.startswith(".") else line


def wrapped(text):
    """Returns the lines of a text."""
    lines = textwrap.wrap(text, 78, break_long_words=False, break_on_hyphens=False)
    return [guarded(line) for line in lines]


def paragraph(lines):
    """Returns the lines of a paragraph. Each sentence begins a new one. A backslash at the end of a
    line breaks it."""
    made = []
    for part in "\n".join(lines).split("\\\n"):
        text = styled(re.sub(r"\s*\n\s*", " ", part.strip()))
        for sentence in re.sub(r'(?<!\.\.)([.?!][)"]?) (?=\S)', r"\1\n", text).split("\n"):
            made += wrapped(sentence)
        made.append(".br")
    return made[:-1]


# ---- blocks


def blocks(lines):
    """Yields the blocks of a page or an item: the function for each, and its lines."""
    at = 0
    while at < len(lines):
        line, end = lines[at], at + 1
        if OTHER.match(line):
            raise Unknown(f"a block that begins with: {line}")
        if line.startswith("```"):
            while lines[end : end + 1] not in ([], ["```"]):
                end += 1
            if end == len(lines):
                raise Unknown(f"a fence that isn't closed: {line}")
            yield example, lines[at + 1 : end]
            end += 1
        elif line.startswith("- "):
            while end < len(lines) and re.match(r"  |$", lines[end]):
                end += 1
            if lines[end - 1] and lines[end : end + 1] and not lines[end].startswith("- "):
                raise Unknown(f"a line of an item that isn't indented: {lines[end]}")
            yield item, [line[2:], *(it[2:] for it in lines[at + 1 : end])]
        elif line:
            while end < len(lines) and not re.match(r"$|- |```|#", lines[end]):
                end += 1
            kinds = {"#": heading, "|": table}
            yield kinds.get(line[0], paragraph), lines[at:end]
        at = end


def heading(lines):
    """Returns the macro of a heading."""
    found = re.fullmatch(r"##(#?) (.*)", " ".join(lines))
    if not found:
        raise Unknown(f"a heading of this level: {lines[0]}")
    return [f".SS {styled(found[2])}" if found[1] else f".SH {styled(found[2].upper())}"]


def example(lines):
    return [".EX", *(guarded(line.translate(ESCAPES)) for line in lines), ".EE"]


def synopsis(lines):
    """Returns declarations, which are bold."""
    return [f"\\fB{it}\\fR" if it and it[0] != "." else it for it in example(lines)]


def table(lines):
    """Returns a table. Without `nokeep`, groff warns if a page ends within it."""
    if not re.fullmatch(r"[-|]+", "".join(lines[1:2])):
        raise Unknown(f"a table without a separator: {lines[0]}")
    rows = [re.split(r"(?<!\\)\|", line.strip()[1:-1]) for line in [lines[0], *lines[2:]]]
    if len({len(row) for row in rows}) > 1:
        raise Unknown(f"a table whose rows have different numbers of cells: {lines[0]}")
    cells = [[cell_of(it.strip().replace("\\|", "|")) for it in row] for row in rows]
    return [".TS", "nokeep;", " ".join("l" * len(rows[0])) + ".", *map("\t".join, cells), ".TE"]


def cell_of(text):
    """Returns a cell of a table. To tbl, `_` and `=` are lines, and `T{` begins a block."""
    cell = guarded(styled(text))
    return f"\\&{cell}" if cell in ("_", "=") or cell.startswith("T{") else cell


def item(lines):
    """Returns an item of a list: its tag and its explanation."""
    text = "\n".join(lines)
    named = re.match(r"(\*\*[^*]+\*\*): ", text)
    tag, explanation = (named[1], text[named.end() :]) if named else text.partition("\n\n")[::2]
    if not explanation.strip():
        raise Unknown(f"an item that is only a tag: {tag}")
    tag = wrapped(styled(" ".join(tag.split("\n"))))
    return [".TP", *" \\\n".join(tag).split("\n"), *laid_out(explanation.split("\n"), ".IP")]


def laid_out(lines, apart):
    """Returns the macros and texts of blocks, which a macro sets apart."""
    made, is_first, is_synopsis = [], True, False
    for block, its in blocks(lines):
        sets_itself_apart = block in (heading, item)
        if sets_itself_apart and apart == ".IP":
            raise Unknown(f"a list or a heading in an item: {its[0]}")
        made += [] if is_first or sets_itself_apart else [apart]
        made += synopsis(its) if block is example and is_synopsis else block(its)
        is_first = block is heading
        is_synopsis = made[-1] == ".SH SYNOPSIS" if is_first else is_synopsis
    return made


def manual(page, version, date):
    """Returns the manual page for a page of Markdown."""
    title = re.match(r"# ([\w-]+)\((\d)\)\n", page)
    if not title or title[2] not in SECTIONS:
        raise Unknown(f"a title of this form: {page.split(chr(10))[0]}")
    if not page.isascii():
        raise Unknown(f"the character {re.search('[^ -~]', page.replace(chr(10), ''))[0]}")
    name, section = title[1].upper().translate(ESCAPES), title[2]
    head = f'.TH {name} {section} {date} "semver\\-parser {version}" "{SECTIONS[section]}"'
    made = [head, ".nh", ".ad l", *laid_out(page[title.end() :].split("\n"), ".PP"), ""]
    return "'\\\" t\n" * (".TS" in made) + "\n".join(made)
