"""The texts to compare on: short ones over awkward characters, random ones, and sheets as a bench has them."""
from itertools import product

LETTERS = 'strevmldSTREVMLD\u017FxX\u212A\u1E9E'  # Those of the suffixes in either case, and others like them.
# A few of every class and length, some letters of the suffixes, and the values that scanners treat apart.
AWKWARD = ("strevmldSLEaB" "\u017F\u01C5\u02B0\u05D0\u4E2D\u00E9\u0416" "\u0301\u0903\u20DD" "07\u00B2\u2167\u0663"
           "'/! \t\r\n\x0B" "\u0085\u00A0\u2028\u3000" "\0\x1C\u20AC\u0378\u200B\uE000"
           "\U0001F600\U0001D400\U00010428\U0010FFFF")


def exhaustive(characters, length):
    """Every string of this length over the characters."""
    return map(''.join, product(characters, repeat=length))


def suffixes():
    """An apostrophe with one or two of the letters, after a few kinds of character."""
    for before, first, second in product(['a', 'B', '\u05D0', '\u0301', '1', ' '], LETTERS, ['', *LETTERS]):
        yield f"{before}'{first}{second}"


def edges(named):
    """The first and last value of every range of every class, and their neighbours outside."""
    values = {value + step for ranges in named.values() for pair in ranges for value in pair for step in (-1, 0, 1)}
    return sorted(value for value in values if is_scalar(value))


def is_scalar(value):
    return 0 <= value < 0xD800 or 0xE000 <= value < 0x110000


def any_scalar(random):
    value = random.randrange(0x110000 - 0x800)
    return chr(value if value < 0xD800 else value + 0x800)


def random_text(random, edge_values):
    """Up to some dozens of characters: awkward ones, ends of ranges, any at all; now and then a run of one."""
    favourites = [random.choice(AWKWARD) for _ in range(random.randint(1, 8))]
    parts = []
    for _ in range(random.randint(0, random.choice([4, 12, 40]))):
        kind = random.random()
        if kind < 0.1:
            c = "'" + random.choice(LETTERS) + random.choice(LETTERS)
        elif kind < 0.7:
            c = random.choice(favourites)
        elif kind < 0.85:
            c = random.choice(AWKWARD)
        elif kind < 0.95:
            c = chr(random.choice(edge_values))
        else:
            c = any_scalar(random)
        parts.append(c * random.choice([1, 1, 1, 1, 2, 3, 7]))
    return ''.join(parts)


def damaged(random, text):
    """The text's bytes with some of them changed, left out or put in."""
    data = bytearray(text.encode())
    for _ in range(random.randint(1, 3)):
        at = random.randint(0, len(data))
        data[at:at + random.randint(0, 2)] = bytes(random.choice(DAMAGE) for _ in range(random.randint(0, 2)))
    return bytes(data)


# Bytes at the edges of UTF-8's Table 3-7.
DAMAGE = [0x00, 0x41, 0x7F, 0x80, 0x8F, 0x90, 0x9F, 0xA0, 0xBF, 0xC0, 0xC1, 0xC2, 0xDF, 0xE0, 0xE1, 0xEC, 0xED, 0xEE, 0xEF, 0xF0,
          0xF1, 0xF3, 0xF4, 0xF5, 0xFF]

NAMES = ['Prüfer: Løvgren', 'Čapek', 'Müller', 'Иванов', 'כהן', '王工', 'Nguyễn Thị Hà']
NOTES = ["the cover doesn't close", "it's been re-seated", "DON'T SHIP", "we'll check cable/plug 3", 'see /var/log/bench.txt',
         'squelch OK', 'firmwareVersion v2.10.1', 'RX front-end swapped!!', "they've heard it", 'pass/fail: PASS']
UNITS = ['V', 'A', 'mA', 'dBm', 'dB SINAD', 'Hz', 'kHz', 'ms', '%', '°C', 'Ω', 'µV', 'm²']


def sheet_line(random):
    """One line of a bench sheet."""
    whole, part, unit = random.randrange(10 ** random.randint(1, 7)), random.randrange(100), random.choice(UNITS)
    return random.choice([
        f'THD {whole} Hz: {part / 10} %, {whole * 2} Hz: {part / 9:.1f} %',
        f'Receiver {whole}-B, bench {part}, 2026-{part % 12 + 1:02}-14 09:{part % 60:02}',
        f'Supply {whole}.{part} {unit}; idle 0.{part:02} {unit}',
        f'\tTemperature -{part} °C ... +{part} °C,  passed',
        f'Note: {random.choice(NOTES)} ({random.choice(NOTES)})',
        f'{random.choice(NAMES)}, {random.choice(NAMES)}',
        f'| {whole:,} | {part:>6} | {unit} |   ',
        '',
        '-' * part,
    ])


def sheet(random):
    """A bench sheet of a few dozen lines."""
    ending = random.choice(['\n', '\n', '\r\n'])
    return ''.join(sheet_line(random) + ending for _ in range(random.randint(1, 40)))


def class_probes(values):
    """Each character in four short lines whose ends tell the seven classes apart."""
    return ''.join(f'{c}B\n{c}Ba\n1{c}1\n!{c}!\n' for c in map(chr, values))
