//! Texts to try: single characters that stand for many, random texts, damaged texts, bench sheets.

/// A small random generator (splitmix64): the same seed gives the same numbers.
pub struct Random(u64);

impl Random {
    pub fn new(seed: u64) -> Random {
        Random(seed)
    }

    pub fn number(&mut self) -> u64 {
        self.0 = self.0.wrapping_add(0x9E37_79B9_7F4A_7C15);
        let a = (self.0 ^ (self.0 >> 30)).wrapping_mul(0xBF58_476D_1CE4_E5B9);
        let b = (a ^ (a >> 27)).wrapping_mul(0x94D0_49BB_1331_11EB);
        b ^ (b >> 31)
    }

    /// A number below `limit`, which is not 0.
    pub fn below(&mut self, limit: usize) -> usize {
        (self.number() % limit as u64) as usize
    }

    pub fn pick<T: Copy>(&mut self, from: &[T]) -> T {
        from[self.below(from.len())]
    }
}

/// Characters that stand for the rest: those that the pattern names, and some of every class.
#[rustfmt::skip]
pub const REPRESENTATIVES: &[char] = &[
    // white space, CR and LF
    '\r', '\n', ' ', '\t', '\u{A0}', '\u{2003}',
    // Other, slash and apostrophe among it
    '/', '\'', '!', '\u{1F600}',
    // the letters of the suffixes, and two that are not
    's', 't', 'r', 'e', 'v', 'm', 'l', 'd', 'b',
    'S', 'T', 'R', 'E', 'V', 'M', 'L', 'D', 'B',
    '\u{17F}',
    // Upper, title case among it, and Lower
    '\u{416}', '\u{1C5}', '\u{10400}', '\u{436}', '\u{10428}',
    // Caseless
    '\u{2B0}', '\u{5D0}', '\u{4E2D}',
    // Mark
    '\u{301}', '\u{20D0}',
    // Number
    '1', '\u{B2}', '\u{661}', '\u{2160}', '\u{1D7CF}',
];

/// The classes in the lengths that the list above lacks, and an unassigned character.
pub const RARER: &[char] = &['\u{A1}', '\u{20AC}', '\u{378}', '\u{1E9E}', '\u{1E01}', '\u{20000}', '\u{1D165}', '\u{0}'];

const WHITE: &[char] = &[
    ' ', ' ', ' ', '\n', '\n', '\r', '\t', '\u{B}', '\u{C}', '\u{85}', '\u{A0}', '\u{1680}', '\u{2003}', '\u{2028}', '\u{3000}',
];
const PUNCTUATION: &[char] = &[
    '!', '.', ',', '-', '(', ')', '/', '/', '\'', '"', ':', '%', '_', '{', '\u{0}', '\u{7F}', '\u{B0}', '\u{2014}', '\u{FFFF}',
];
const NUMBERS: &[char] = &['0', '1', '7', '9', '\u{B2}', '\u{BD}', '\u{661}', '\u{96C}', '\u{2160}', '\u{3007}', '\u{1D7CF}'];
const UPPER: &[char] = &['A', 'B', 'H', 'Z', '\u{C9}', '\u{416}', '\u{1C5}', '\u{1E9E}', '\u{10400}'];
const LOWER: &[char] = &['a', 'b', 'e', 'z', '\u{E9}', '\u{436}', '\u{17F}', '\u{1E01}', '\u{10428}'];
const CASELESS: &[char] =
    &['\u{2B0}', '\u{5D0}', '\u{4E2D}', '\u{3042}', '\u{20000}', '\u{301}', '\u{93E}', '\u{20D0}', '\u{1D165}'];
const SUFFIXES: &[&str] = &[
    "'s", "'t", "'re", "'ve", "'m", "'ll", "'d", "'S", "'T", "'Re", "'vE", "'M", "'Ll", "'LL", "'D", "'\u{17F}", "'r", "'v",
    "'l", "''s",
];

/// How often each kind of piece is taken, for each kind of text.
const WEIGHTS: [[usize; 9]; 7] = [
    [6, 2, 2, 3, 2, 1, 2, 1, 1],
    [8, 0, 0, 8, 1, 0, 3, 0, 0],
    [1, 8, 8, 2, 1, 1, 0, 1, 0],
    [1, 1, 1, 8, 3, 1, 0, 1, 0],
    [1, 1, 1, 2, 8, 2, 1, 1, 0],
    [2, 0, 1, 1, 1, 8, 3, 2, 2],
    [0, 0, 0, 0, 0, 0, 0, 4, 4],
];

/// A random text of exactly `length` bytes, of a random kind.
pub fn text(random: &mut Random, length: usize) -> String {
    let weights = random.pick(&WEIGHTS);
    let mut text = String::with_capacity(length + 32);
    while text.len() < length {
        piece(random, &weights, &mut text);
    }
    fit(random, &mut text, length);
    text
}

/// Cuts a text after a character, and makes up the length that is missing in ASCII.
fn fit(random: &mut Random, text: &mut String, length: usize) {
    text.truncate(text.floor_char_boundary(length));
    while text.len() < length {
        text.push(random.pick(&['x', 'X', '5', ' ', '\n', '/', '\'']));
    }
}

fn piece(random: &mut Random, weights: &[usize; 9], text: &mut String) {
    let mut chosen = random.below(weights.iter().sum());
    let mut kind = 0;
    while chosen >= weights[kind] {
        chosen -= weights[kind];
        kind += 1;
    }
    match kind {
        0 => word(random, text),
        1 => ascii_digits(random, text),
        2 => some_of(random, NUMBERS, 8, text),
        3 => some_of(random, WHITE, 4, text),
        4 => some_of(random, PUNCTUATION, 4, text),
        5 => cased(random, text),
        6 => text.push_str(random.pick(SUFFIXES)),
        7 => {
            some_of(random, REPRESENTATIVES, 4, text);
            some_of(random, RARER, 1, text);
        }
        _ => text.push(any_character(random)),
    }
}

fn some_of(random: &mut Random, from: &[char], most: usize, text: &mut String) {
    for _ in 0..=random.below(most) {
        text.push(random.pick(from));
    }
}

fn word(random: &mut Random, text: &mut String) {
    let letter = |random: &mut Random| b'a' + random.below(26) as u8;
    let capital = random.below(4);
    for i in 0..=random.below(9) {
        let letter = letter(random);
        let upper = capital == 0 || (capital == 1 && i == 0);
        text.push(char::from(if upper { letter.to_ascii_uppercase() } else { letter }));
    }
}

fn ascii_digits(random: &mut Random, text: &mut String) {
    for _ in 0..=random.below(10) {
        text.push(char::from(b'0' + random.below(10) as u8));
    }
}

/// A run of letters and marks, of every case.
fn cased(random: &mut Random, text: &mut String) {
    for _ in 0..=random.below(8) {
        let from = random.pick(&[UPPER, LOWER, CASELESS]);
        text.push(random.pick(from));
    }
}

/// Any scalar value, those in few bytes as often as those in many.
fn any_character(random: &mut Random) -> char {
    let limit = random.pick(&[0x80, 0x800, 0x3000, 0x1_0000, 0x2_0000, 0x11_0000]);
    char::from_u32(random.below(limit) as u32).unwrap_or('\u{FFFD}')
}

/// A copy with one byte changed, removed or put in, or cut at a random place. It can still be UTF-8.
pub fn damaged(random: &mut Random, text: &[u8]) -> Vec<u8> {
    let mut copy = text.to_vec();
    let at = random.below(text.len() + 1);
    let byte = random.pick(&[0x80, 0xBF, 0xC0, 0xC2, 0xE0, 0xED, 0xEF, 0xF0, 0xF4, 0xF5, 0xFF, 0x9F, 0xA0, b'a']);
    match random.below(5) {
        0 if at < copy.len() => copy[at] ^= 1 << random.below(8),
        1 if at < copy.len() => copy[at] = byte,
        2 if at < copy.len() => drop(copy.remove(at)),
        3 => copy.truncate(at),
        _ => copy.insert(at, byte),
    }
    copy
}

/// Bytes without any rule, or with many lead and continuation bytes.
pub fn bytes(random: &mut Random, length: usize) -> Vec<u8> {
    let mixed = random.below(2) == 0;
    (0..length)
        .map(|_| match mixed {
            true => {
                random.pick(&[b'a', b'1', b' ', 0x80, 0x8F, 0x90, 0x9F, 0xA0, 0xBF, 0xC2, 0xDF, 0xE0, 0xE2, 0xED, 0xF0, 0xF4])
            }
            false => random.number() as u8,
        })
        .collect()
}

/// A bench sheet of so many lines.
pub fn sheet(random: &mut Random, lines: usize) -> String {
    let mut text = String::new();
    for _ in 0..lines {
        sheet_line(random, &mut text);
        text.push_str(random.pick(&["\n", "\n", "\n", "\r\n", "\n\n", " \n"]));
    }
    text
}

fn sheet_line(random: &mut Random, text: &mut String) {
    let (a, b, c) = (random.below(100_000), random.below(3000), random.below(60));
    let line = match random.below(10) {
        0 => format!("Receiver {a}-{}, bench {c}, 2026-03-{:02} {:02}:{c:02}", random.pick(UPPER), c % 28 + 1, c % 24),
        1 => format!("Supply {}.{} V, 0.{b} A; idle 0.0{} A", c, c % 10, b % 10),
        2 => format!("Sensitivity -{b} dBm at {c} dB SINAD"),
        3 => format!("THD {b} Hz: {}.{} %,\t{a} Hz: 1.1 %", c % 10, c % 7),
        4 => format!("Alarm tone {c}: {b}/{a} ms; tone 2: 675/800 ms"),
        5 => format!("Temperature -{c} \u{B0}C ... +{b} \u{B0}C,\u{A0}passed"),
        6 => String::from("Note: the cover doesn't close; it's been re-seated (they'll check, DON'T ship)"),
        7 => format!("Prüfer: Løvgren, Čapek; Проверка №{a}, 検査{b}"),
        8 => format!("  log: /var/bench/{b}/rx{a}.txt  // {}", random.pick(SUFFIXES)),
        _ => format!("serialNo={a}{b}{a} HTTPStatus {c} \u{2192} בדיקה {}", random.pick(NUMBERS)),
    };
    text.push_str(&line);
}
