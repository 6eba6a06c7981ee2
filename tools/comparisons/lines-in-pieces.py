"""Compares release-filter with its manual, rust/docs/GRAMMAR.md and rust/docs/MEANING.md:
lines-in-pieces.py PROGRAM COUNT SEED.

This makes COUNT random texts of lines, each with a range and options. Its own code determines what
is written, what is reported about lines without a version, and the status. Each text is cut in 100
random ways, and the program gets each piece in a separate read: standard input is a socket that
keeps messages apart. Prints any difference, and exits.
"""

import random
import re
import socket
import subprocess
import sys

CUTS = 100
NUMBER = rb"(0|[1-9][0-9]*)"


def versions(before, pre, build, after):
    """Returns a pattern for versions with these texts around them, and with these identifiers."""
    return re.compile(rb"%s%s\.%s\.%s(?:-(%s(?:\.%s)*))?(?:\+(%s(?:\.%s)*))?%s" % (before, NUMBER, NUMBER, NUMBER, pre, pre, build, build, after))


# The versions of the crate, of SemVer 2.0.0 and of npm, by rust/docs/GRAMMAR.md.
RUNS = rb"[0-9A-Za-z]+(?:-[0-9A-Za-z]+)*"
NO_ZERO = rb"(?:0|[1-9][0-9]*|[0-9]*[A-Za-z-][0-9A-Za-z-]*)"
CRATE = versions(rb"[ \t\r\n]*", RUNS, RUNS, rb"[ \t\r\n]*")
SEMVER = versions(rb"", NO_ZERO, rb"[0-9A-Za-z-]+", rb"")
BLANK = "[\t-\r \u00a0\u1680\u2000-\u200a\u2028\u2029\u202f\u205f\u3000\ufeff]*"
AROUND = re.compile(f"{BLANK}v?(.*?){BLANK}", re.DOTALL)


def read_as_npm(text):
    """Returns the version that npm reads in a text, or None."""
    try:
        text = text.decode()
    except UnicodeDecodeError:
        return None
    read = SEMVER.fullmatch(AROUND.fullmatch(text)[1].encode()) if len(text) <= 256 else None
    return read if read and all(int(number) < 2**53 for number in read.groups()[:3]) else None


DIALECTS = {"cargo": SEMVER.fullmatch, "npm": read_as_npm, "crate-cargo": CRATE.fullmatch}
MARK = b"\xef\xbb\xbf"

NUMBERS = (b"0", b"1", b"1", b"2", b"3", b"10")
QUALIFIERS = (b"", b"", b"", b"-a", b"-b", b"-a.1", b"-b.0", b"-0", b"-rc-1", b"-a+x", b"+x", b"+y", b"-a.b.c+x.y", b"-a--b", b"-01", b"--", b"-b-", b"+-.01", b"-a+b--x")
PREFIXES = (b"", b"", b"v", b"v", b"pkg@", b"version ")
ENDS = (b"\n", b"\n", b"\n", b"\n", b"\r\n")
RECORD_ENDS = (b"\0", b"\0", b"\0", b"\0", b"\r\0", b"\n\0", b"\n")
NO_VERSIONS = (b"", b"", b"x", b"main", b"1.2", b"1.2.3-", b"01.2.3", b"1.2.3 4", b"v", b"1.2.3.4", b"\xff\xfe", b"1.2.\xc3\xa9", b"1.2.3-a..b", b"1.2.18446744073709551616", b" ", b"\r", b"1.2.9007199254740992")
BLANKS = (b" ", b"\t", b"  ", b"\xc2\xa0", b"\xe2\x80\x83", MARK, b"\xc2\x85")


def precedence(version):
    """Returns a key for the precedence of SemVer 2.0.0, section 11. A number above 64 bits is
    compared as a text, and so is one with a leading zero."""
    numbers, pre = version
    parts = [(0, int(part), b"") if part.isdigit() and b"%d" % int(part) == part and int(part) < 2**64 else (1, 0, part) for part in pre.split(b".")]
    return numbers, not pre, parts if pre else []


def between(least, end, pre_of=None, pre_from=b""):
    """Returns a function for whether a version is a release from `least` to below `end`, or a
    pre-release of `pre_of` from `pre_from` on."""
    def holds(version):
        numbers, pre = version
        if pre:
            return numbers == pre_of and precedence(version) >= precedence((numbers, pre_from))
        return least <= numbers < end
    return holds


def within(least, end):
    """Returns a function for whether a version is between the lowest pre-releases of `least` and of
    `end`."""
    return lambda version: least <= version[0] < end


ALL = ((0, 0, 0), (2**64, 0, 0))
RANGES = (
    (["*"], between(*ALL)),
    (["^1.2"], between((1, 2, 0), (2, 0, 0))),
    (["--as", "npm", ">1.2 <3"], between((1, 3, 0), (3, 0, 0))),
    ([">=1.2.0-b, <2"], between((1, 2, 0), (2, 0, 0), (1, 2, 0), b"b")),
    (["--releases", ">=1.2.0-b, <2"], between((1, 2, 0), (2, 0, 0))),
    (["--pre", "*"], within(*ALL)),
    (["--pre", "--as", "npm", "*"], within(*ALL)),
    (["--pre", "^1.2"], within((1, 2, 0), (2, 0, 0))),
    (["--as", "crate-cargo", "--pre", ">=0.0.1-0"], within((0, 0, 1), ALL[1])),
)


def version_of(text, prefixes, dialect):
    """Returns the version in a line's text, and the prefix before it. The first prefix that is
    followed by a version decides."""
    for prefix in prefixes:
        read = DIALECTS[dialect](text[len(prefix):]) if text.startswith(prefix) else None
        if read and all(int(number) < 2**64 for number in read.groups()[:3]):
            return (tuple(int(number) for number in read.groups()[:3]), read[4] or b""), prefix
    return None, b""


def shown(text):
    """Returns the first bytes of a line without a version, as they are reported."""
    escaped = (ESCAPES.get(byte) or (chr(byte) if 32 <= byte < 127 else f"\\x{byte:02x}") for byte in text[:80])
    return "".join(escaped) + ("..." if len(text) > 80 else "")


def told(text, holds, prefixes, dialect, options):
    """Returns what the program writes, what it reports, and its status."""
    end = b"\0" if "--null" in options else b"\n"
    lines = text.removeprefix(MARK).split(end)
    lines = [line + end for line in lines[:-1]] + [line for line in lines[-1:] if line]
    is_late = any(option in options for option in ("--greatest", "--least", "--sort", "--count"))
    kept, invalid, empty = [], [], 0
    for at, line in enumerate(lines):
        spelled = line.removesuffix(end)
        spelled = spelled.removesuffix(b"\r") if end == b"\n" else spelled
        version, prefix = version_of(spelled, prefixes or [b""], dialect)
        if version and holds(version):
            kept.append((precedence(version), line[len(prefix):] if "--strip-prefix" in options else line))
        elif not version and spelled:
            invalid.append((at + 1, spelled))
            if "--strict" in options:
                written = b"" if is_late else b"".join(line for _, line in kept)
                return written, f"release-filter: -:{at + 1}: invalid version: {shown(spelled)}\n".encode(), 2
        empty += not spelled and not version
    if "--greatest" in options:
        chosen = [max(kept, key=lambda it: it[0])] if kept else []
    elif "--least" in options:
        chosen = [min(kept, key=lambda it: it[0])] if kept else []
    elif "--sort" in options:
        chosen = [(order, line if line.endswith(end) else line + end) for order, line in sorted(kept, key=lambda it: it[0])]
    else:
        chosen = kept
    chosen = chosen[::-1] if "--reverse" in options else chosen
    written = b"%d\n" % len(chosen) if "--count" in options else b"".join(line for _, line in chosen)
    report = b""
    if invalid and not kept:
        number, first = invalid[0]
        kind = "is an invalid version" if len(invalid) == 1 else "are invalid versions"
        of = f"{len(lines) - empty} {'line' if len(lines) - empty == 1 else 'lines'}"
        has_v = not prefixes and first.startswith(b"v") and version_of(first[1:81], [b""], dialect)[0]
        hint = "; --prefix v takes it" if has_v else ""
        report = f"release-filter: {len(invalid)} of {of} {kind}; the first, line {number}: {shown(first)}{hint}\n".encode()
    return written, report, 0 if kept else 1


ESCAPES = {9: "\\t", 10: "\\n", 13: "\\r", 34: '\\"', 39: "\\'", 92: "\\\\"}


def random_line(draw, prefixes):
    line = draw.choice((*PREFIXES, *(3 * prefixes))) + b".".join(draw.choice(NUMBERS) for _ in range(3)) + draw.choice(QUALIFIERS)
    kind = draw.randrange(10)
    if kind == 0:
        line = draw.choice(PREFIXES) + draw.choice(NO_VERSIONS)
    elif kind == 1:
        line = draw.choice(BLANKS) + line + draw.choice((b"", b" ", b"\r", *BLANKS))
    elif kind == 2:
        at = draw.randrange(len(line))
        line = line[:at] + draw.choice((b"x", b"-", b".", b"+", b"\x00", b"\x80")) + line[at + 1:]
    elif kind == 3:
        line += draw.choice((b"+", b"-a.")) + draw.choice((b"z", b"0a", b"7")) * draw.choice((1, 90, 400))
    if draw.randrange(100) == 0:
        line += draw.choice((b"+", b"-a.", b" ")) + b"z" * draw.choice((4080, 5000, 8180, 9000)) + draw.choice((b"", b" ", b"!" + 9000 * b"z"))
    return line


def random_text(draw, prefixes, ends):
    lines = [random_line(draw, prefixes) + draw.choice(ends) for _ in range(draw.choice((0, 1, 2, 3, 6, 12, 30)))]
    text = draw.choice((b"", b"", b"", MARK, MARK + MARK, MARK[:2])) + b"".join(lines)
    return text if draw.randrange(2) else text[:-1]


def random_options(draw):
    """Returns options that change which versions are kept, and what is written about them."""
    options = [draw.choice(("", "", "--greatest", "--least", "--sort"))]
    options += ["--reverse"] if options == ["--sort"] and draw.randrange(2) else []
    options += ["--only=" + draw.choice(("releases", "pre-releases"))] if draw.randrange(6) == 0 else []
    chances = (("--strict", 5), ("--null", 3), ("--strip-prefix", 3), ("--count", 6), ("--invert", 4))
    return [option for option in options if option] + [option for option, chance in chances if draw.randrange(chance) == 0]


def chosen(holds, arguments, options):
    """Returns which versions are kept, from the range and the options."""
    is_inverted = "--invert" in options
    kinds = [option.removeprefix("--only=") for option in options if option.startswith("--only=")]
    kinds += ["releases"] if "--releases" in arguments else []
    return lambda version: holds(version) != is_inverted and all((kind == "pre-releases") == bool(version[1]) for kind in kinds)


def random_cut(draw, text):
    """Returns the pieces of a text: all of one length, or cut at random."""
    if draw.randrange(4) == 0:
        length = draw.choice((1, 2, 3, 7) if len(text) < 4000 else (1000, 4096, 8192))
        return [text[at:at + length] for at in range(0, len(text), length)]
    ends = sorted(draw.sample(range(1, len(text)), min(len(text) - 1, draw.randrange(1, 9)))) if len(text) > 1 else []
    return [text[start:end] for start, end in zip([0, *ends], [*ends, len(text)]) if start < end]


def run(program, arguments, pieces):
    ours, its = socket.socketpair(socket.AF_UNIX, socket.SOCK_SEQPACKET)
    with ours, its:
        process = subprocess.Popen([program, *arguments], stdin=its, stdout=subprocess.PIPE, stderr=subprocess.PIPE)
        its.close()
        try:
            for piece in pieces:
                ours.send(piece)
        except (BrokenPipeError, ConnectionResetError):
            pass
        ours.close()
        written, report = process.communicate()
    return written, report, process.returncode


def main():
    program, count, seed = sys.argv[1], int(sys.argv[2]), int(sys.argv[3])
    draw = random.Random(seed)
    kept = reported = 0
    for at in range(count):
        arguments, holds = draw.choice(RANGES)
        dialect = arguments[arguments.index("--as") + 1] if "--as" in arguments else "cargo"
        prefixes = draw.choice(([], [], [b"v"], [b"v", b""], [b"", b"v"], [b"pkg@", b"v", b"version "], [b"a\n"]))
        options = random_options(draw)
        if "--releases" in arguments:
            options = [option for option in options if not option.startswith("--only")]
        text = random_text(draw, prefixes or [b""], RECORD_ENDS if "--null" in options else ENDS)
        expected = told(text, chosen(holds, arguments, options), prefixes, dialect, options)
        options += [it for prefix in prefixes for it in ("--prefix", prefix.decode())]
        kept += expected[2] == 0
        reported += bool(expected[1])
        for _ in range(CUTS):
            pieces = random_cut(draw, text)
            found = run(program, options + arguments, pieces)
            if found != expected:
                sys.exit(f"text {at + 1}: {options + arguments} on {pieces}\nfound:    {found}\nexpected: {expected}")
    print(f"{count} texts, each cut in {CUTS} ways; {kept} had kept lines, {reported} a report: no difference")


main()
