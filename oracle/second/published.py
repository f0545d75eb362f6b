"""The published o200k_base pattern, and its variants by document 01, for an engine that knows no Unicode.

The pattern stands here as tiktoken's public sources have it. Every class in it is then written out as ranges of values, made from
the official files of Debian's package unicode-data, so that the engine's own Unicode version says nothing."""
import os, re

FOLDER = os.environ.get('UNICODE_DATA', '/usr/share/unicode')

SUFFIX = r"(?i:'s|'t|'re|'ve|'m|'ll|'d)?"
ALTERNATIVES = [
    r"[^\r\n\p{L}\p{N}]?[\p{Lu}\p{Lt}\p{Lm}\p{Lo}\p{M}]*[\p{Ll}\p{Lm}\p{Lo}\p{M}]+" + SUFFIX,
    r"[^\r\n\p{L}\p{N}]?[\p{Lu}\p{Lt}\p{Lm}\p{Lo}\p{M}]+[\p{Ll}\p{Lm}\p{Lo}\p{M}]*" + SUFFIX,
    r"\p{N}{1,3}",
    r" ?[^\s\p{L}\p{N}]+[\r\n/]*",
    r"\s*[\r\n]+",
    r"\s+(?!\S)",
    r"\s+",
]
# The digits by mode. The form of mode 2 is that of the right-aligned variant. On a walk from zero it cuts as every reading of the
# mode does; it looks only ahead, so from any other start too it is document 01's rule, which counts from the start onward.
DIGITS = [r"\p{N}", r"\p{N}{1,3}", r"\p{N}{1,3}(?=(?:\p{N}{3})*(?!\p{N}))"]


def variant(contractions, digits, slash):
    """The published pattern with document 01's replacements for these options."""
    first, second, _, marks, *space = ALTERNATIVES
    if not contractions:
        first, second = first.removesuffix(SUFFIX), second.removesuffix(SUFFIX)
    if not slash:
        marks = marks.replace(r'[\r\n/]', r'[\r\n]')
    return '|'.join([first, second, DIGITS[digits], marks, *space])


def official(name):
    with open(os.path.join(FOLDER, name), encoding='utf-8') as file:
        return file.read().splitlines()


def category_ranges():
    """General_Category of UnicodeData.txt as (first, last, category), in order. What is not listed is Cn, and in no class."""
    rows, first = [], None
    for line in official('UnicodeData.txt'):
        value, name, category = line.split(';')[:3]
        if name.endswith(', First>'):
            first = int(value, 16)
        else:
            rows.append((int(value, 16) if first is None else first, int(value, 16), category))
            first = None
    return rows


def space_ranges():
    """White_Space of PropList.txt as (first, last)."""
    row = re.compile(r'([0-9A-F]+)(?:\.\.([0-9A-F]+))?\s*; White_Space\b')
    found = [m.groups() for m in map(row.match, official('PropList.txt')) if m]
    return [(int(first, 16), int(last or first, 16)) for first, last in found]


def joined(ranges):
    """The ranges, sorted, with neighbours made one."""
    out = []
    for first, last in sorted(ranges):
        if out and out[-1][1] + 1 == first:
            out[-1] = (out[-1][0], last)
        else:
            out.append((first, last))
    return out


def classes():
    """The ranges of every name that the pattern uses: a category, the first letter of one, and s for White_Space."""
    rows = category_ranges()
    names = ['L', 'Lu', 'Lt', 'Ll', 'Lm', 'Lo', 'M', 'N']
    named = {name: joined((a, b) for a, b, category in rows if category.startswith(name)) for name in names}
    return {**named, 's': joined(space_ranges())}


def range_text(ranges):
    return ''.join(f'\\U{a:08X}' if a == b else f'\\U{a:08X}-\\U{b:08X}' for a, b in ranges)


def written_out(pattern, named):
    """The pattern with every \\p{..}, \\s and \\S replaced by the ranges of its name."""
    def inside(m):
        return range_text(named[m[1] or 's'])

    def outside(m):
        if m[0].startswith('['):
            return re.sub(r'\\p\{(\w+)\}|\\s', inside, m[0])
        return ('[^' if m[0] == r'\S' else '[') + inside(m) + ']'

    return re.sub(r'\[[^]]*\]|\\p\{(\w+)\}|\\s|\\S', outside, pattern)
